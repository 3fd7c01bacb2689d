"""Which of what is available is nearest to requests, here and by ICU4C's LocaleMatcher, and why answers differ."""
import collections
import itertools
import json
import re
import subprocess
from dataclasses import dataclass

from .programs import COMMON, ROOT, Stop

NONE, REFUSED, UNEXPLAINED = "none", "?", "of no kind"
THRESHOLD, DEMOTION = 50, 5


@dataclass
class Row:
    """A question, the requests in it, and both answers: what is available, or None."""

    question: str
    requests: list
    here: str
    there: str


def cldr(*words):
    """What cldr-tables writes: one line."""
    tool = ROOT / "tools" / "cldr-tables"
    return subprocess.run([tool, *words, COMMON], capture_output=True, text=True, check=True).stdout


def answers(words, lines):
    """The answer of a program to each line."""
    ended = subprocess.run(words, input="".join(lines), capture_output=True, text=True, check=False)
    if ended.returncode not in (0, 1):  # 1: some line was refused
        raise Stop(f"{' '.join(map(str, words))} ended with status {ended.returncode}: {ended.stderr.strip()[:200]}")
    return ended.stdout.splitlines()


class Asked:
    """The stream over CLDR's tables and their supplement, and ICU, each as the words that run it."""

    def __init__(self, stream, icu):
        self.stream, self.icu = str(stream), icu
        self.tables, self.supplement = cldr(), cldr("--supplement")
        self.maximal_forms, self.distances, self.canonical_forms = {}, {}, {}

    def matching(self):
        """The supplement as a value."""
        return json.loads(self.supplement)

    def by_stream(self, command, lines):
        words = [self.stream, command, "json", "supplement"]
        return self.as_many(words, answers(words, [self.tables, self.supplement, *lines]), lines)

    def by_icu(self, command, lines):
        words = [*self.icu.words, command]
        return self.as_many(words, answers(words, lines), lines)

    @staticmethod
    def as_many(words, found, lines):
        """The answers, of which there is one to each line; a list of what is available has none."""
        if len(lines) - len(found) not in (0, 1):
            raise Stop(f"{' '.join(map(str, words))} gave {len(found)} answers to {len(lines)} lines")
        return found

    def rows(self, command, available, questions, requests_of):
        """A row for each question of what is available."""
        lines = [f"{line}\n" for line in (" ".join(available), *questions)]
        both = zip(questions, self.by_stream(command, lines), self.by_icu(command, lines), strict=True)
        for question, here, there in both:
            yield Row(question, requests_of(question), chosen(available, here), chosen(available, there))

    def maximal(self, tags):
        """The maximal form of each tag, here and in ICU."""
        lines = [f"{tag}\n" for tag in tags]
        here = [line.split("\t")[0] for line in answers([self.stream, "maximize", "json"], [self.tables, *lines])]
        return dict(zip(tags, zip(here, self.by_icu("maximize", lines), strict=True), strict=True))

    def canonical(self, tags):
        """The canonical form of each tag, its extensions dropped, and None where it is refused."""
        lines = [self.tables, *(f"{tag}\n" for tag in tags)]
        found = answers([self.stream, "bcp47", "canonicalize", "json"], lines)
        return [None if line.startswith(REFUSED) else re.split("-[a-z0-9]-", line.split("\t")[0])[0] for line in found]

    def learn(self, rows):
        """Asks both for the maximal forms of requests and answers of these rows, and for the distances between them; and for
        their canonical forms here."""
        pairs = sorted({(one, other) for row in rows for one in row.requests for other in (row.here, row.there)
                        if other not in (None, REFUSED)})
        tags = sorted({tag for pair in pairs for tag in pair})
        maximal = self.maximal(tags)
        shorter = {"-".join(form.split("-")[:count]) for form, _ in maximal.values() for count in (1, 2)}
        self.maximal_forms = maximal | self.maximal(sorted(shorter))
        self.canonical_forms = dict(zip(tags, self.canonical(tags), strict=True))
        lines = [f"{one} {other}\n" for one, other in pairs]
        both = zip(self.by_stream("distance", lines), self.by_icu("distance", lines), strict=True)
        self.distances = {pair: tuple(map(near_or_far, found)) for pair, found in zip(pairs, both, strict=True)}


def chosen(available, answer):
    """What an answer chooses."""
    if answer in (NONE, REFUSED):
        return None if answer == NONE else REFUSED
    place, given = answer.split("\t")
    if available[int(place)] != given:
        raise Stop(f"an answer names {given} at the place {place}, where {available[int(place)]} is")
    return given


def near_or_far(distance):
    """A distance, or the threshold where it is not below it."""
    return THRESHOLD if distance == "far" else min(int(distance), THRESHOLD)


class Kinds:
    """What a difference is told as, and by which test. The first that holds tells."""

    def __init__(self, asked):
        self.maximal, self.distances, self.canonical = asked.maximal_forms, asked.distances, asked.canonical_forms
        # where the distances of a request and an answer are unlike, and one of the two is such
        self.of_tags = [
            ("an alias: here all rules replace it on both sides, in ICU those of languages and regions", lambda tag: self.canonical[tag] != tag),
            ("a language without likely subtags: ICU compares it as `Latn` and `US`",
             lambda tag: self.maximal[tag][0].count("-") < 2),
            ("another maximal form in ICU's own data", lambda tag: len(set(self.maximal[tag])) == 2),
        ]

    def pairs(self, row):
        """Each request with each answer."""
        found = dict.fromkeys([row.here, row.there])
        return [(one, other) for one in row.requests for other in found if other]

    def region(self, tag):
        return self.maximal[tag][0].split("-")[-1]

    def cost(self, row, answer):
        """The cost of an answer by the distances here, and the threshold where there is none."""
        costs = [self.distances[one, answer][0] + DEMOTION * place for place, one in enumerate(row.requests) if answer]
        return min([THRESHOLD, *costs])

    def of(self, row):
        """The kind of a difference."""
        forms = [self.maximal[answer][0] for answer in (row.here, row.there) if answer]
        if len(forms) == 2 and forms[0] == forms[1]:
            return "one meaning that is available in two spellings"
        apart = [pair for pair in self.pairs(row) if len(set(self.distances[pair])) == 2]
        for kind, holds in self.of_tags:
            if any(holds(tag) for pair in apart for tag in pair):
                return kind
        return UNEXPLAINED if apart else self.of_equal_distances(row)

    def of_equal_distances(self, row):
        """The kind of a difference where both have the same distances."""
        if row.there is None and any(self.distances[one, row.here][0] < THRESHOLD for one in row.requests):
            return "a later request: ICU counts its demotion against the threshold, and serves none"
        here, there = (self.cost(row, answer) for answer in (row.here, row.there))
        if here == there < THRESHOLD and self.is_by_region(row.here, row.there):
            return "equally near in another script: ICU prefers the likely region of the language, here that of both counts"
        if any(self.canonical[one] != one for one, _ in self.pairs(row)):
            return "an alias: here all rules replace it on both sides, in ICU those of languages and regions"
        return UNEXPLAINED

    def is_by_region(self, here, there):
        """The answers have one language and one script, and this one the likely region of both, or ICU's that of the
        language, which has another script."""
        language, script = self.maximal[here][0].split("-")[:2]
        if self.maximal[there][0].split("-")[:2] != [language, script] or self.maximal[language][0].split("-")[1] == script:
            return False
        return self.region(here) == self.region(f"{language}-{script}") or self.region(there) == self.region(language)


def report(title, rows, kind_of):
    """Prints how many agree, and the kinds of the others; answers how many agree, and whether each other has a kind."""
    counts, examples = collections.Counter(), {}
    for row in rows:
        if row.here != row.there:
            kind = kind_of(row)
            counts[kind] += 1
            text = f"{row.question}: {row.here or NONE}, {row.there or NONE}"
            examples[kind] = min(examples.get(kind, text), text, key=len)
    agree = len(rows) - counts.total()
    print(f"{title}: {len(rows)} asked, {agree} agree")
    for kind, count in counts.most_common():
        print(f"  {count} {kind} ({examples[kind]})")
    return agree, UNEXPLAINED not in counts


def of_lists(asked, locales, lists):
    """A row for each drawn list of requests."""
    return list(itertools.chain.from_iterable(
        asked.rows("nearest", available, questions, str.split) for available, questions in locales.drawn(lists)))
