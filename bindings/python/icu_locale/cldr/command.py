"""The command `cldr-tables`, and the same as a call."""
import argparse
import json
import sys
from os import PathLike
from typing import Iterable, Optional, Union

from .._refusals import cut
from .account import Account
from .aliases import read_aliases
from .completion import complete
from .directions import directions
from .exemplars import add_exemplars, exemplar_rows
from .extension_names import LARGE
from .inheritance import Inheritance
from .keys import UNSTABLE, unstable_rules
from .likely import read_likely
from .names import Names, name_rows, note_others
from .patterns import essentials, pattern_rows
from .source import Common, NoCldr
from .subtags import read_locale
from .supplement import supplement

DESCRIPTION = """\
Writes the JSON tables of one run of icu_locale_cli, on one line: likely subtags, aliases and directions, and for each
LOCALE its names, its names in menus, the patterns that put them together, and its exemplar sets. What is left out, or
held otherwise than CLDR has it, is counted in one line on standard error. With --account each reason has a line there:
why, how many there are, and their names, and rules by which the key of a locale need not be its own key.

The program looks up what it is asked and falls back from no locale to another. So what a locale inherits in CLDR,
from its parents up to `root`, is written as its own.

With --supplement it writes the supplement of the tables, as JSON on one line: the parents of locales, the rules by which
a reader is served the nearest locale, the aliases of values at the keys of `u` and of `t`, the version of CLDR, which
codes it knows and what keys take, and for each LOCALE what parts of extensions are called, so that a name has what they
say."""
EPILOG = """\
status: 0, or 2 where the words are wrong, or where the folder or a locale is not there
example: ({name} /usr/share/unicode/cldr/common en; echo zh-TW) | icu_locale_cli name light en json"""


def arguments(parser_type, name, words):
    """The words of the command, read by a parser of a type; `name` is how the command is called."""
    parser = parser_type(name, description=DESCRIPTION, epilog=EPILOG.format(name=name), allow_abbrev=False,
                         formatter_class=argparse.RawDescriptionHelpFormatter)
    parser.add_argument("--settled", action="store_true",
                        help="leave out the likely subtags that keep the table from being settled")
    parser.add_argument("--supplement", action="store_true",
                        help="write the supplement of the tables instead of tables")
    parser.add_argument("--names", action="store_true",
                        help="write the tables of each LOCALE alone, without likely subtags, aliases and directions")
    parser.add_argument("--without", action="append", default=[], choices=sorted(LARGE),
                        help="leave out the names of subdivisions or of time zones, which are most of what is written")
    parser.add_argument("--account", action="store_true",
                        help="say on standard error what is left out, and why")
    parser.add_argument("common", metavar="COMMON",
                        help="CLDR's folder `common`, such as /usr/share/unicode/cldr/common of unicode-cldr-core")
    parser.add_argument("locales", metavar="LOCALE", nargs="*", default=[], help="a locale of CLDR, such as en or zh-Hant-HK")
    chosen = parser.parse_args(words)
    if chosen.supplement and chosen.settled:
        parser.error("--supplement does not go with --settled")
    if chosen.names and (chosen.supplement or chosen.settled or not chosen.locales):
        parser.error("--names goes with a LOCALE, and not with --supplement or --settled")
    if chosen.without and not chosen.supplement:
        parser.error("--without goes with --supplement alone")
    return chosen


def tables_of(common, locales, is_settled, account):
    """The tables of a file."""
    likely, aliases = read_likely(common, account), read_aliases(common, account)
    complete(likely, aliases, common, account)
    if is_settled:
        likely.settle(account)
    for rule in unstable_rules(likely, aliases):
        account.tell(UNSTABLE, rule)
    tables = likely.tables() | {
        "aliases": aliases.table(),
        "direction": directions(common, account),
    }
    return tables | tables_of_locales(common, locales, account) if locales else tables


def tables_of_locales(common, locales, account):
    """The tables of names, patterns and exemplar sets of some locales."""
    inheritance, names, patterns, exemplars = Inheritance(common), Names(account), {}, {}
    for locale in locales:
        note_others(inheritance.chain(locale), locale, account)
        names.add(locale, inheritance.resolved(locale, name_rows, account))
        pattern = essentials(inheritance.resolved(locale, pattern_rows, account), locale, account)
        if pattern:
            patterns[str(locale)] = pattern
        add_exemplars(exemplars, locale, inheritance.resolved(locale, exemplar_rows, account), account)
    return names.tables() | {"essentials": patterns, "exemplars": dict(sorted(exemplars.items()))}


def texts(held):
    """Each text in tables."""
    if isinstance(held, str):
        yield held
    elif isinstance(held, dict):
        for key, value in held.items():
            yield key
            yield from texts(value)
    elif isinstance(held, list):
        for value in held:
            yield from texts(value)


def on_one_line(tables):
    """The JSON text of tables or of a supplement, as bytes. A text with a line feed would make two lines of one answer."""
    for text in texts(tables):
        if "\n" in text:
            raise NoCldr(f"{cut(repr(text))} has a line feed, so it would make two lines of one answer")
    return json.dumps(tables, ensure_ascii=False, separators=(",", ":")).encode()


def read_locales(words):
    """The locales of some words."""
    for word in words:
        locale = read_locale(word)
        if locale is None:
            raise NoCldr(f"{cut(word)} is no locale that a table could name: a language, a script if any, a region if any")
        yield locale


def json_of(folder: Union[str, "PathLike[str]"], locales: Iterable[str], is_settled: bool,
            account: Optional[Account] = None) -> bytes:
    """The JSON text of the tables of a CLDR folder, on one line. The account takes what is left out."""
    return on_one_line(tables_of(Common(folder), list(read_locales(locales)), is_settled, account or Account()))


def names_of(folder: Union[str, "PathLike[str]"], locales: Iterable[str], account: Optional[Account] = None) -> bytes:
    """The JSON text of the tables of some locales alone: names, names in menus, patterns and exemplar sets."""
    return on_one_line(tables_of_locales(Common(folder), list(read_locales(locales)), account or Account()))


def supplement_of(folder: Union[str, "PathLike[str]"], account: Optional[Account] = None,
                  locales: Iterable[str] = (), without: Iterable[str] = ()) -> bytes:
    """The JSON text of the supplement of a CLDR folder, on one line, with what parts of extensions are called in the
    languages of some locales. The account takes what is left out."""
    return on_one_line(supplement(Common(folder), account or Account(), list(read_locales(locales)), tuple(without)))


def main(parser_type, name, words):
    """Runs the command, and answers its status."""
    chosen, account = arguments(parser_type, name, words), Account()
    try:
        if chosen.supplement:
            text = supplement_of(chosen.common, account, chosen.locales, chosen.without)
        elif chosen.names:
            text = names_of(chosen.common, chosen.locales, account)
        else:
            text = json_of(chosen.common, chosen.locales, chosen.settled, account)
    except NoCldr as fault:
        print(f"{name}: {fault}", file=sys.stderr)
        return 2
    sys.stdout.buffer.write(text + b"\n")
    for line in account.lines() if chosen.account else account.summary(name):
        print(line, file=sys.stderr)
    return 0
