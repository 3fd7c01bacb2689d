"""What headers are served here and by ICU4C, and why answers differ."""
import re

from . import nearest, wishes
from .nearest import REFUSED, Row

ANY = "*"


def elements(header):
    """The ranges of a header and the texts of their weights, in its order."""
    for element in header.split(","):
        wanted, _, weight = (part.strip() for part in element.lower().partition(";"))
        if wanted:
            yield wanted, weight.replace(" ", "").removeprefix("q=") or "1"


def number(weight):
    """A weight as a number, or None where it is none of RFC 9110: at most 1, with at most three digits."""
    digits = weight.partition(".")[2]
    try:
        found = float(weight)
    except ValueError:
        return None
    return found if 0 <= found <= 1 and len(digits) <= 3 else None


def ranges(header, is_wanted=True):
    """The ranges that are wanted, the most wanted first, or those that are refused."""
    read = [(number(weight), wanted) for wanted, weight in elements(header)]
    found = [(weight, wanted) for weight, wanted in read if weight is not None and (weight > 0) == is_wanted]
    return [wanted for _, wanted in sorted(found, key=lambda pair: -pair[0])]


def requests_of(header):
    """The ranges that are wanted and name a language."""
    return [wanted for wanted in ranges(header) if wanted != ANY]


def of_headers(asked):
    """A row for each header."""
    return list(asked.rows("serve", wishes.SITES, wishes.headers(), requests_of))


def without_extensions(wanted):
    return re.split("-[a-z0-9]-", wanted)[0]


class Kinds:
    """What a difference is told as, and by which test. The first that holds tells."""

    def __init__(self, asked, rows):
        self.asked = asked
        self.canonical = self.canonical_forms(rows)
        self.nearest = [row for row in rows if row.here != row.there and self.of_header(row) is None]
        self.nearest = {row.question: self.with_canonical(row) for row in self.nearest}
        asked.learn(self.nearest.values())
        self.of_lists = nearest.Kinds(asked)

    def canonical_forms(self, rows):
        """The canonical form of each range, and None where it is no tag."""
        tags = sorted({wanted for row in rows for wanted in row.requests})
        found = self.asked.canonical(tags)
        return dict(zip(tags, found, strict=True))

    def with_canonical(self, row):
        """A row whose requests are canonical."""
        found = [self.canonical[wanted] for wanted in row.requests]
        return Row(row.question, [form for form in found if form], row.here, row.there)

    def of_header(self, row):
        """The kind of a difference that the header tells of, or None."""
        if row.there == REFUSED:
            return "a header that ICU refuses"
        if any(number(weight) is None for _, weight in elements(row.question)):
            return "a weight that is none of RFC 9110: here its range is passed over"
        if ranges(row.question, False):
            return "a range that is refused by a weight of 0: here what it begins is never served"
        if ANY in ranges(row.question) and row.there is None:
            return "`*`: here the first that is available is served where nothing is near"
        if any(self.canonical[wanted] is None for wanted in row.requests):
            return "a range that is no tag: here it is passed over"
        if any(self.canonical[wanted].lower() != without_extensions(wanted) for wanted in row.requests):
            return "a range that an alias replaces: ICU replaces languages and regions alone"
        return None

    def of(self, row):
        """The kind of a difference."""
        return self.of_header(row) or self.of_lists.of(self.nearest[row.question])
