"""Questions to programs, what they answer, and tables of how many agree and of why others differ."""
import re
import xml.etree.ElementTree
from dataclasses import dataclass, field

from .programs import COMMON, Stop, output_of


@dataclass
class Comparison:
    """One list: how many were asked, and those that differ by kind, with both answers. Lists of a group are alike."""

    title: str
    group: str
    asked: int = 0
    differing: dict = field(default_factory=dict)

    def add(self, kind, question, ours, theirs):
        self.asked += 1
        if kind is not None:
            self.differing.setdefault(kind, []).append((question, ours, theirs))

    @property
    def agreeing(self):
        return self.asked - sum(len(found) for found in self.differing.values())


def parsed(name):
    return xml.etree.ElementTree.parse(COMMON / name).getroot()


def answers(program, command, questions, inputs, locale="en"):
    """The answer to each identifier, without the mark after it."""
    path = inputs.work / "questions"
    tables = inputs.tables.read_text() if program.takes_tables else ""
    path.write_text(tables + "".join(f"{question}\n".replace("_", "-") for question in questions))
    found = [line.split("\t")[0] for line in output_of(program, command, path, locale)]
    if len(found) != len(questions):
        raise Stop(f"{program.name} gave {len(found)} answers to {len(questions)} lines of {command}")
    return found


def spelled(identifier):
    """One spelling for what ICU and CLDR spell otherwise."""
    pieces = re.split("[-_]", identifier.lower())
    return "-".join([pieces[0] or "und", *(piece for piece in pieces[1:] if piece)])


def macro_regions():
    """The regions that contain others."""
    return {group.get("type") for group in parsed("supplemental/supplementalData.xml").iter("group")}


def with_region(identifier, region):
    """A full identifier of three subtags, with another region."""
    return "-".join([*identifier.split("-")[:2], region])


def table_of_counts(comparisons):
    yield "| | asked | agree | differ | unexplained |"
    yield "|---|---|---|---|---|"
    for found in comparisons:
        unexplained = len(found.differing.get("unexplained", []))
        yield f"| {found.title} | {found.asked} | {found.agreeing} | {found.asked - found.agreeing} | {unexplained} |"


def by_kind(comparisons):
    """All that differ, by group and kind."""
    found = {}
    for comparison in comparisons:
        for kind, differing in comparison.differing.items():
            found.setdefault((comparison.group, kind), []).extend(differing)
    return found


def table_of_kinds(comparisons, kinds, other):
    yield f"| where | kind of difference | how many | cause | for example: here, {other} |"
    yield "|---|---|---|---|---|"
    for (group, kind), differing in by_kind(comparisons).items():
        title, cause = kinds[kind]
        question, ours, theirs = differing[0]
        yield f"| {group} | {title} | {len(differing)} | {cause} | `{question}`: `{ours}`, `{theirs}` |"
