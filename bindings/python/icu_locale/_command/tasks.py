"""What each command of `icu-locale` asks the library."""
from contextlib import contextmanager, suppress
from typing import Any, Callable, Dict, Iterable, Iterator, List, Mapping, Optional, Tuple, Union

from .._codes import VALID
from .._data import cldr_locales, in_chain
from .._locale import Locale
from .._menu import MenuRow, key_of
from .._refusals import InvalidList, LineRefused, NoCldr
from .._switcher import NONE, Switcher
from .._tables import Tables
from .words import WITH_READERS, Stopped


class Report(List[Dict[str, Any]]):
    """The parts of an identifier that are not valid, each by its names."""

    def __str__(self) -> str:
        return ", ".join(f"{part['kind']} {part['text']} {part['status']}" for part in self) or VALID


# An answer: a text, several, some by their names, or a report; None where there is no answer, and none is refused.
Answer = Union[None, str, List[str], Dict[str, Any], Report]
Task = Callable[[str], Answer]


def opened(locales: Iterable[str] = ()) -> Tables:
    """The tables with the names of some locales."""
    return Tables.cldr(locales)


def with_names(language: str, others: Iterable[str] = ()) -> Tuple[Tables, str]:
    """Tables with names in a language, and in those of others that CLDR has names in, and the locale whose names those in the
    language are."""
    names = {name.lower(): name for name in cldr_locales()}
    with opened() as tables:
        def found(locale: str) -> str:
            return in_chain(locale, lambda it: _chain(tables, it), names)

        try:
            locale = found(language)
        except NoCldr:
            raise Stopped(f"--in {language}: CLDR has no names in it") from None
        kept = [locale]
        for each in dict.fromkeys(others):
            with suppress(NoCldr):
                kept.append(found(each))
    return opened(kept), locale


def _chain(tables: Tables, language: str) -> List[str]:
    """The chain of a locale; none where it is refused."""
    try:
        return tables.fallback(language)
    except LineRefused:
        return []


def parts(text: str, syntax: Any) -> Answer:
    """The parts of an identifier by their names."""
    read = Locale.parse(text, syntax=syntax)
    return {name: _plain(getattr(read, name)) for name in Locale.__slots__ if name != "_text"}


def _plain(part: Any) -> Any:
    """A part as JSON has it."""
    return dict(part) if isinstance(part, Mapping) else list(part) if isinstance(part, tuple) else part


@contextmanager
def task_of(chosen: Any) -> Iterator[Task]:
    """What a command asks for each text, while its tables are open."""
    if chosen.command == "parts":
        yield lambda text: parts(text, chosen.syntax)
    elif chosen.command == "name":
        tables, locale = with_names(chosen.language)
        with tables:
            yield _naming(tables, locale, chosen)
    elif chosen.command in WITH_READERS:
        with opened() as tables:
            switcher = _switcher(tables, chosen)
            if chosen.command == "serve":
                yield switcher.serve
            else:
                yield lambda text: _resolved(switcher, text)
    else:
        with opened() as tables:
            yield _asked(tables, chosen)


def _asked(tables: Tables, chosen: Any) -> Task:
    syntax = chosen.syntax
    tasks: Dict[str, Task] = {
        "canonicalize": lambda text: tables.canonicalize(text, syntax=syntax),
        "maximize": lambda text: tables.maximize(text, syntax=syntax),
        "minimize": lambda text: tables.minimize(text, favor_script=chosen.favor_script, syntax=syntax),
        "direction": lambda text: tables.direction(text, syntax=syntax),
        "chain": lambda text: tables.fallback(text, syntax=syntax),
        "validate": lambda text: Report(part._asdict() for part in tables.validate(text, syntax=syntax)),
    }
    return tasks[chosen.command]


def _naming(tables: Tables, locale: str, chosen: Any) -> Task:
    """What names identifiers, or codes of a kind, in a locale."""
    tasks: Dict[Optional[str], Task] = {
        None: lambda text: tables.name(text, locale, syntax=chosen.syntax),
        "language": lambda text: tables.language_name(text, locale).name,
        "script": lambda text: tables.script_name(text, locale).name,
        "region": lambda text: tables.region_name(text, locale).name,
        "variant": lambda text: tables.variant_name(text, locale).name,
    }
    return tasks[chosen.kind]


def _switcher(tables: Tables, chosen: Any) -> Switcher[str, Optional[str]]:
    available = [each.strip() for each in chosen.available.split(",")]
    try:
        return tables.switcher(available, default=getattr(chosen, "default", None), threshold=chosen.threshold,
                               demotion=chosen.demotion, favor_script=chosen.favor_script, or_first=chosen.or_first)
    except InvalidList as refusal:
        raise Stopped(f"--available: {refusal}") from None


def _resolved(switcher: Switcher[str, Optional[str]], text: str) -> Answer:
    """The locale for a reader whose wishes are in a text, a space between two: one that is none refuses the text."""
    told = switcher._told(b"locales resolved", text)
    return None if told == NONE else told.partition("\t")[2]


def menu(texts: Iterable[str], language: str) -> Tuple[List[MenuRow], Dict[int, LineRefused]]:
    """The rows of a menu, and by place what was refused."""
    asked = list(texts)
    kept: List[str] = []
    refused: Dict[int, LineRefused] = {}
    tables, locale = with_names(language, asked)
    with tables:
        for place, text in enumerate(asked):
            try:
                tables.menu([text], locale, fallback=True)
                kept.append(text)
            except LineRefused as refusal:
                refused[place] = refusal
        return tables.menu(kept, locale, fallback=True), refused


def regions(language: str) -> List[Tuple[str, str]]:
    """The regions that have a name in a language, each with it, in the order of the names."""
    tables, locale = with_names(language)
    with tables:
        named = [(code, tables.region_name(code, locale).name) for code in tables.listed("regions", locale)]
    key = key_of(locale)
    return sorted(named, key=lambda row: (key(row[1]), row[1]))
