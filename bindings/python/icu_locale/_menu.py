"""A menu of languages: its rows, and their order."""
import importlib
from functools import lru_cache
from typing import Any, Callable, List, NamedTuple

# What a name is sorted by.
Key = Callable[[str], Any]


class MenuRow(NamedTuple):
    """A language of a menu: its locale as it was handed in, its name in the language of the menu, and its own name."""

    locale: str
    name: str
    own: str


@lru_cache(maxsize=16)
def key_of(language: str) -> Key:
    """The sort key of a language, by PyICU, whose module is icu; by code point where that is not installed."""
    try:
        icu = importlib.import_module("icu")
    except ImportError:
        return str
    key: Key = icu.Collator.createInstance(icu.Locale.forLanguageTag(language.replace("_", "-"))).getSortKey
    return key


def in_order(rows: List[MenuRow], key: Key) -> List[MenuRow]:
    """The rows in the order of the names, and where their keys are equal by code point."""
    return sorted(rows, key=lambda row: (key(row.name), row.name))
