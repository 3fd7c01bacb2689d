"""What it costs to find the nearest locale, here and by ICU4C."""
from dataclasses import dataclass
from statistics import median

from . import measure, wishes
from .programs import Program, cost_of, counts_of, has_valgrind

# ICU gets one line in ten, and of both one in ten is counted.
SHARE = 10


@dataclass
class OverSupplement(Program):
    """The stream, which takes tables and their supplement."""

    def run_words(self, command, locale=""):
        return [*self.words, command, "json", "supplement"]


@dataclass
class Question:
    """What is measured: its title, the command, what is available, and the lines for a count."""

    title: str
    command: str
    available: list
    lines: object


def questions(locales):
    """All that is measured."""
    every = f"all {len(locales.all)} locales of CLDR"
    return [
        Question("one request among 36", "nearest", wishes.SITES, locales.requests),
        Question("one request among 1,000", "nearest", locales.many(1000), locales.requests),
        Question("a header of five ranges among 36", "serve", wishes.SITES, wishes.headers_of_five),
        always("en-AQ", "36", wishes.SITES),
        *(always(tag, every, locales.all) for tag in ("en-AU", "en-ZZ", "en-AQ")),
    ]


def always(tag, among, available):
    """One request, again and again."""
    return Question(f"`{tag}` among {among}", "nearest", available, lambda count: [tag] * count)


class Measured:
    """A question that is put to both programs."""

    def __init__(self, asked, work, question, lines):
        self.question = question
        self.programs = [OverSupplement("this program", [asked.stream], []), asked.icu]
        heads = [asked.tables + asked.supplement, ""]
        self.counts = [lines, lines // SHARE]
        # both costs of each program: of all its lines, and of a tenth of them
        self.runs = [(program, question.command, self.put(work, head, count // share))
                     for program, head, count in zip(self.programs, heads, self.counts) for share in (1, 10)]

    def put(self, work, head, count):
        """An input of so many lines, in a file."""
        path = work / f"asked-{len(head)}-{count}"
        lines = [" ".join(self.question.available), *self.question.lines(count)]
        path.write_text(head + "".join(f"{line}\n" for line in lines))
        return path

    def a_line(self, cost, value, rounds):
        """What a line costs, in each round: here, and in ICU."""
        costs = measure.in_rounds(self.runs, cost, rounds)
        for count, whole, part in zip(self.counts, costs[::2], costs[1::2]):
            yield [(value(one) - value(other)) / (count - count // 10) for one, other in zip(whole, part)]


def ratio(here, there):
    """How many times as much ICU takes: the median of the rounds, with quartiles where there are several."""
    low, middle, high = measure.spread([other / one for one, other in zip(here, there)])
    return f"{middle:.1f}" if low == high else f"{middle:.1f} ({low:.1f} to {high:.1f})"


def told(here, there):
    return f"{median(here):,.0f} | {ratio(here, there)}"


def report(asked, work, lines, rounds):
    """The lines of a table: what a line of each question costs."""
    yield "| question | here, nanoseconds | ICU4C's are so many times as much | here, instructions | ICU4C's, as before |"
    yield "|---|---|---|---|---|"
    for question in questions(wishes.Locales(asked.matching())):
        timed = Measured(asked, work, question, lines)
        cells = [question.title, told(*timed.a_line(cost_of, lambda cost: cost.seconds * 1e9, rounds))]
        if has_valgrind():
            counted = Measured(asked, work, question, lines // SHARE)
            cells.append(told(*counted.a_line(counts_of, lambda counts: counts.instructions, 1)))
        else:
            cells.append("– | –")
        yield f"| {' | '.join(cells)} |"


def making(asked, work):
    """The lines of a table: what it takes to make a list of what is available, beyond an empty one."""
    locales = wishes.Locales(asked.matching())
    lists = {"none": [], "36": wishes.SITES, f"all {len(locales.all)} locales of CLDR": locales.all,
             **{f"{count:,} of one language": wishes.of_one_language(count) for count in (1000, 10_000)}}
    yield "| a list of | millions of instructions beyond an empty list, with one request |"
    yield "|---|---|"
    counted = {}
    for title, available in lists.items():
        question = Question(title, "nearest", available, lambda count: ["en-AQ"] * count)
        program, command, path = Measured(asked, work, question, 10).runs[1]
        counted[title] = counts_of(program, command, path).instructions
        if available:
            yield f"| {title} | {(counted[title] - counted['none']) / 1e6:.2f} |"
