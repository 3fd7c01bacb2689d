"""What is valid here, and by language-tags and Go's package, and why they differ where they do."""
from dataclasses import dataclass

from cldr.listed import VALID, types

from . import codes, programs
from .nearest import UNEXPLAINED, answers, cldr
from .tags import Drawing, parts_of

NOT_VALID, REFUSED, NO_PREFIX = "not valid", "?", "WrongVariantPrefix"
OF_VALUES = ("type", "subdivision", "currency")
DEPRECATED = "deprecated in CLDR, and not valid here; the registry keeps it (RFC 5646, section 2.2.9)"
RESERVED = "private use that CLDR keeps for later, and not valid here"
VALUES = "a value that CLDR deprecates or does not list; no value is looked at there"
REPLACED = "a code that CLDR replaces and does not list; it is read as the other one there"
REGISTERED = "in the registry, and not in CLDR"
AS_TEXTS = "`qb` to `qt`, which language-tags compares with `qaa` and `qtz` as texts"
NEWER = "in CLDR, and not in the older data there"
EXTENDED = "no extended language of that prefix, which is read as a language there"
PREFIX = "a variant without its prefix, which RFC 5646 only says it should have"


@dataclass(frozen=True)
class Peer:
    """A program that is compared."""

    name: str
    words: list


@dataclass(frozen=True)
class Row:
    """A tag, and what is said of it here and there."""

    question: str
    own: str
    their: str

    @property
    def here(self):
        return self.own if self.own == VALID else NOT_VALID

    @property
    def there(self):
        return self.their if self.their == VALID else NOT_VALID


def peers(work):
    """The programs that are there."""
    tags = programs.crate_program(work, programs.HERE / "extended" / "tags", "language-tags", "tags")
    golang = programs.golang_program(work)
    if tags:
        yield Peer(programs.crate_version("language-tags"), [tags, "validate"])
    if golang:
        yield Peer(programs.first_line_of([*golang.words, "versions"]), [*golang.words, "validate"])


def told(words, tags, before=()):
    """What a program says of each tag."""
    found = answers(words, [*before, *(f"{tag}\n" for tag in tags)])
    if len(found) != len(tags):
        raise programs.Stop(f"{words[0]} says {len(found)} things of {len(tags)} tags")
    return found


def by_stream(stream, syntax, tags):
    """What the stream says of each tag: `valid`, the parts that are not, or a refusal."""
    return told([str(stream), syntax, "validate", "json", "supplement"], tags, [cldr(), cldr("--supplement")])


class Kinds:
    """Why another program says otherwise of a tag, by what is said of each code alone."""

    def __init__(self, registry, questions, rows):
        self.registry, self.replaced = registry, codes.replaced()
        self.asked = {row.question: question for question, row in zip(questions, rows, strict=True)}
        self.alone = {(it.kind, it.code): row for it, row in zip(questions, rows, strict=True)}

    def of_code(self, row):
        """Why two programs differ at a code."""
        question = self.asked[row.question]
        return self.of_valid(question, row) if row.here == VALID else self.of_not_valid(question)

    def of_not_valid(self, question):
        """Why a code that is not valid here is valid there."""
        if question.kind in OF_VALUES:
            return VALUES
        if question.status is not None:
            return {"deprecated": DEPRECATED, "reserved": RESERVED}.get(question.status, UNEXPLAINED)
        if self.registry.has(question.kind, question.code):
            return REGISTERED
        if question.code in self.replaced:
            return REPLACED
        return AS_TEXTS if question.kind == "language" and "qaa" <= question.code <= "qtz" else UNEXPLAINED

    def of_valid(self, question, row):
        """Why a code that is valid here is not valid there."""
        if row.their == NO_PREFIX:
            return UNEXPLAINED if self.registry.has_prefix(row.question) else PREFIX
        is_unknown = row.their.endswith("NotInRegistry") or row.their.lower() == question.code.lower()
        return NEWER if is_unknown and not self.registry.has(question.kind, question.code) else UNEXPLAINED

    def parts(self, tag):
        """What was said of each part of a drawn tag, and None for one that nothing lists."""
        _, _, value = tag.removesuffix("-x-mine").partition("-u-" if "-u-" in tag else "-t-")
        asked = [*self.subtags(tag), *([("type", value)] if value else [])]
        return [self.alone.get(part) for part in asked]

    def subtags(self, tag):
        """The kind and the code of each subtag of a drawn tag before its extensions."""
        return parts_of(tag, self.registry.extended)

    def of_tag(self, row):
        """Why two programs differ at a drawn tag: as at the first part that the one refuses, or because of a prefix."""
        if row.their == NO_PREFIX:
            return UNEXPLAINED if self.registry.has_prefix(row.question) else PREFIX
        parts = self.parts(row.question)
        if None in parts:
            is_extended = any(kind == "extended" for kind, _ in self.subtags(row.question))
            return EXTENDED if is_extended and row.there == VALID else UNEXPLAINED
        if row.there == VALID:
            refused = (self.of_not_valid(self.asked[part.question]) for part in parts if part.here != VALID)
        else:
            refused = (self.of_valid(self.asked[part.question], part) for part in parts if part.there != VALID)
        return next(refused, UNEXPLAINED)

    def is_by_parts(self, row):
        """Whether a drawn tag is valid here exactly where each part is."""
        return (row.here == VALID) == all(part is not None and part.here == VALID for part in self.parts(row.question))


def drawn_tags(registry, count):
    """So many drawn tags."""
    drawing = Drawing(registry, list(types()))
    return [drawing.tag() for _ in range(count)]


def rows(tags, own, their):
    return [Row(*row) for row in zip(tags, own, their, strict=True)]
