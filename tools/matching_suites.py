"""The suites of language matching of CLDR and of Go, which Debian's golang-golang-x-text-dev carries, put to a stream.

A row says what is available, what is wanted, which locale is nearest, or else the first, and perhaps the locale that
formats for this reader. A row that lists nothing as available is not asked. Each other answer than the row's has a kind,
which is told by rule.
"""
from pathlib import Path

FOLDER = Path("/usr/share/gocode/src/golang.org/x/text/language/testdata")
SUITES = ("CLDRLocaleMatcherTest.txt", "GoLocaleMatcherTest.txt")
THRESHOLD, DEMOTION = 50, 5
# The options that lines of their own set, and what puts one back.
NEAR, ORDER, SCRIPT_FIRST, BACK = "@Threshold", "@DistanceOption", "SCRIPT_FIRST", "-1"
# The columns of a stream's parts of a locale.
LANGUAGE, REGION, KEYWORDS = 1, 3, 6
# The kinds of rows that are not asked, of other answers, and of other locales that format.
EMPTY = "nothing available"
PRIVATE, SPELLINGS, FARTHER = "private use alone", "one meaning in two spellings", "farther by the rules of these tables"
EARLIER = "as near, but for a later request"
BY_RG, KEPT = "the reader's region at `rg`", "an extension of what is available"


def pieces(text):
    return [piece.strip() for piece in text.split(",") if piece.strip()]


def rows(suite):
    """The rows of a suite: the line, the options that hold there, and its cells."""
    options = {}
    for number, line in enumerate((FOLDER / suite).read_text().splitlines(), 1):
        text = line.partition("#")[0].strip()
        name, is_set, value = text.partition("=")
        if is_set and name.startswith("@"):
            options[name] = value.strip()
        elif text and not text.startswith("@"):
            yield number, {name: value for name, value in options.items() if value != BACK}, text.split(";")


class Row:
    """A row. A threshold that a line of its own sets holds over a number that begins what is available: where the suite
    has both, 60 and 50, it wants what is 54 away."""

    def __init__(self, options, cells):
        offered, asked, self.wanted, *combined = (cell.strip() for cell in cells)
        self.available, self.requests, self.combined = pieces(offered), pieces(asked), "".join(combined[:1])
        number = self.available.pop(0) if self.available and self.available[0].isdigit() else None
        self.threshold = int(options.get(NEAR) or number or THRESHOLD)
        self.options = ["threshold", str(self.threshold)] if NEAR in options or number else []
        if options.get(ORDER) == SCRIPT_FIRST:
            self.options.append("favor-script")
        self.lines = [" ".join(self.available), " ".join(self.requests)]


class Tally:
    """How many answers are a row's, how many are not by kinds, and which have no kind."""

    def __init__(self):
        self.agreed, self.kinds, self.faults = 0, {}, []

    def agree(self):
        self.agreed += 1

    def differ(self, kind, told):
        if kind is None:
            self.faults.append(told)
        else:
            self.kinds[kind] = self.kinds.get(kind, 0) + 1

    def __str__(self):
        kinds = [f"{kind} {count}" for kind, count in sorted(self.kinds.items())]
        return "; ".join([f"{self.agreed} answered so", *kinds, f"of no kind {len(self.faults)}"])


class Suites:
    """The suites, put to a stream: `ask` gives its answers to a command's lines, in an order."""

    def __init__(self, ask):
        self.ask, self.nearest, self.resolved = ask, Tally(), Tally()

    def given(self, row, command):
        """What the stream writes for a row."""
        return self.ask([*row.options, "or-first", "bcp47", command], row.lines)[0].partition("\t")[2]

    def canonical(self, tags):
        return [answer.partition("\t")[0] for answer in self.ask(["bcp47", "canonicalize"], tags)]

    def forms(self, tags):
        return [answer.partition("\t")[0] for answer in self.ask(["bcp47", "maximize"], self.canonical(tags))]

    def parts(self, tags):
        return [answer.split("\t") for answer in self.ask(["bcp47", "parts"], tags)]

    def are_same(self, one, other):
        """Whether two tags are read as one locale; no alias is looked up."""
        if one.lower() == other.lower():
            return True
        here, there = self.parts([one, other])
        return here == there

    def costs(self, requests, offered):
        """What each of these costs: the least distance from a request, with its demotion."""
        wanted, there = self.canonical(requests), self.canonical(offered)
        found = self.ask(["distance"], [f"{one} {other}" for other in there for one in wanted])
        count = len(wanted)
        return [min(int(far) + DEMOTION * place for place, far in enumerate(found[at:at + count]))
                for at in range(0, len(found), count)]

    def kind(self, row, given):
        """Why an answer is another than the row's, if a rule tells. The distances are those without `favor-script`."""
        if any(tag.startswith(("x-", "und-x-")) for tag in (*row.requests, given, row.wanted)):
            return PRIVATE
        one, other = self.forms([given, row.wanted])
        if "favor-script" in row.options:
            return SPELLINGS if one == other else None
        here, there = self.costs(row.requests, [given, row.wanted])
        if there >= row.threshold or there > here:
            return FARTHER
        if one == other:
            return SPELLINGS
        return EARLIER if here == there else None

    def resolved_kind(self, row, given):
        """Why a locale that formats is another than the row's, if a rule tells: language and script are the same, and each
        keyword that the row has alone is the given region at `rg`, or one of what is available."""
        one, other, there = self.parts([given, row.combined, row.wanted])
        by_region = {f"rg={one[REGION].lower()}zzzz"}
        alone = set(other[KEYWORDS].split(" ")) - set(one[KEYWORDS].split(" "))
        if one[LANGUAGE:REGION] != other[LANGUAGE:REGION] or not alone:
            return None
        if alone <= by_region:
            return BY_RG
        return KEPT if alone <= by_region | set(there[KEYWORDS].split(" ")) else None

    def put_row(self, row, where):
        given = self.given(row, "nearest")
        if self.are_same(given, row.wanted):
            self.nearest.agree()
        else:
            self.nearest.differ(self.kind(row, given), f"{where}: {given}, and not {row.wanted}")
        if not row.combined:
            return
        given = self.given(row, "resolved")
        if self.are_same(given, row.combined):
            self.resolved.agree()
        else:
            self.resolved.differ(self.resolved_kind(row, given), f"{where}: {given}, and not {row.combined}")

    def put(self, suite):
        for number, options, cells in rows(suite):
            row = Row(options, cells)
            if row.available:
                self.put_row(row, f"{suite}, line {number}: {cells[1].strip()} over {cells[0].strip()}")
            else:
                self.nearest.differ(EMPTY, "")
