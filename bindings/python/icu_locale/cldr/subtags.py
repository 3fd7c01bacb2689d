"""Subtags and identifiers as the program reads and writes them (UTS #35 Part 1, section 3)."""
import re
from typing import NamedTuple, Optional

CLASSES = {
    "language": (re.compile(r"[A-Za-z]{2,3}"), str.lower),
    "script": (re.compile(r"[A-Za-z]{4}"), str.title),
    "region": (re.compile(r"[A-Za-z]{2}|[0-9]{3}"), str.upper),
    "variant": (re.compile(r"[A-Za-z0-9]{5,8}|[0-9][A-Za-z0-9]{3}"), str.lower),
    "subdivision": (re.compile(r"[A-Za-z0-9]{3,8}"), str.lower),
}
UNKNOWN_LANGUAGE = "und"
UNKNOWN_SCRIPT = "Zzzz"
UNKNOWN_REGION = "ZZ"


class Identifier(NamedTuple):
    """A language, with a script if any, a region if any, and variants in rising order, all in written form."""

    language: str
    script: Optional[str] = None
    region: Optional[str] = None
    variants: tuple = ()

    def __str__(self):
        return "-".join(part for part in [*self[:3], *self.variants] if part)

    def is_bare_language(self):
        return self[1:] == (None, None, ())


def read_subtag(kind, text):
    """The subtag of a class in its written form, or None where the text is none."""
    pattern, written = CLASSES[kind]
    return written(text) if pattern.fullmatch(text) else None


def read_identifier(text):
    """The identifier that a text spells, cut at each `-` and `_`, or None where it spells none."""
    first, *pieces = re.split("[-_]", text)
    language = read_subtag("language", first)
    script = take("script", pieces)
    region = take("region", pieces)
    variants = [read_subtag("variant", piece) for piece in pieces]
    if language is None or None in variants or len(set(variants)) < len(variants):
        return None
    return Identifier(language, script, region, tuple(sorted(variants)))


def take(kind, pieces):
    """The first piece as a subtag of a class, taken away where it is one."""
    found = read_subtag(kind, pieces[0]) if pieces else None
    if found:
        del pieces[0]
    return found


def read_locale(text):
    """An identifier without variants, the key of a locale and of a language's name, or None."""
    found = read_identifier(text)
    return found if found and not found.variants else None
