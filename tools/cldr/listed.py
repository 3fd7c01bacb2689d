"""What CLDR lists: codes and types, each with its status, by its own rule of ranges (UTS #35 Part 1, Validity Data), and
what the stream is to tell of each. It shares nothing with `cldr-tables`."""
import itertools
import string
import xml.etree.ElementTree
from dataclasses import dataclass

from .names_suite import COMMON

KINDS = ("language", "script", "region", "variant", "subdivision", "currency")
# How a code is asked for.
ASKED_AS = {"language": "{}", "script": "und-{}", "region": "und-{}", "variant": "und-{}", "subdivision": "und-u-rg-{}",
            "currency": "und-u-cu-{}"}
SIGNS = set(string.ascii_lowercase + string.digits)
VALID = "valid"


@dataclass(frozen=True)
class Question:
    """A tag with one code or one value, and the status that CLDR gives it, or None where it lists none."""

    tag: str
    kind: str
    code: str
    status: str

    @property
    def is_usable(self):
        return self.status not in (None, "deprecated", "reserved")

    @property
    def wanted(self):
        """What is to be told of it."""
        if self.is_usable:
            return VALID
        _, mark, value = self.tag.partition("-u-" if "-u-" in self.tag else "-t-")
        kind = {"-u-": "keyword", "-t-": "field"}[mark] if mark else self.kind
        text = value.lower().removesuffix("-true") if mark else self.code
        start = len(self.tag) - len(value or text)
        return f"{kind} {text} {self.status or 'unlisted'} {start} {len(self.tag)}"


def parsed(name):
    return xml.etree.ElementTree.parse(COMMON / name).getroot()


def expanded(words):
    """The codes of a list of CLDR: `ab~d` is ab, ac and ad."""
    for word in words.split():
        first, _, last = word.partition("~")
        head, tail = first[:len(first) - len(last)], first[len(first) - len(last):]
        ranges = (map(chr, range(ord(low), ord(high) + 1)) for low, high in zip(tail, last))
        yield from (head + "".join(signs) for signs in itertools.product(*ranges))


def of_form(kind, code):
    """Whether an identifier may have a code, which CLDR's lists also have with a script or as `root`."""
    return {"language": code.isalpha() and len(code) in (2, 3), "script": len(code) == 4}.get(kind, True)


def codes(kind):
    """The status of each code of a kind."""
    rows = (row for row in parsed(f"validity/{kind}.xml").iter("id"))
    return {code: row.get("idStatus") for row in rows for code in expanded(row.text) if of_form(kind, code)}


def is_value(text):
    return all(3 <= len(piece) <= 8 and set(piece) <= SIGNS for piece in text.split("-"))


def is_old(element):
    return element.get("deprecated") == "true"


def types():
    """A question for each name of each type of CLDR's files that a value can be. Currencies are asked as codes: their
    file of validity tells which are deprecated, and that of types does not."""
    for path in sorted((COMMON / "bcp47").glob("*.xml")):
        for key in parsed(f"bcp47/{path.name}").iter("key"):
            extension, name, found = key.get("extension", "u"), key.get("name").lower(), {}
            if name == "cu":
                continue
            for row in key.iter("type"):
                found[row.get("name").lower()] = "deprecated" if is_old(key) or is_old(row) else "regular"
            aliases = {alias for row in key.iter("type") for alias in row.get("alias", "").lower().split()}
            for alias in aliases - set(found):
                found[alias] = "deprecated" if is_old(key) else None
            for value in filter(is_value, found):
                yield Question(f"und-{extension}-{name}-{value}", "type", f"{name}-{value}", found[value])


def possible(kind):
    """Every code that a kind may have, where these are few."""
    letters = string.ascii_lowercase
    if kind == "language":
        return {"".join(signs) for count in (2, 3) for signs in itertools.product(letters, repeat=count)}
    if kind == "region":
        digits = {f"{number:03}" for number in range(1000)}
        return digits | {"".join(signs) for signs in itertools.product(letters.upper(), repeat=2)}
    return set()


def questions(others=None):
    """A question for each possible language and region, each other code that CLDR lists or that is handed in by its kind,
    and each type."""
    for kind in KINDS:
        found = codes(kind)
        for code in sorted(set(found) | (others or {}).get(kind, set()) | possible(kind)):
            yield Question(ASKED_AS[kind].format(code), kind, code, found.get(code))
    yield from types()
