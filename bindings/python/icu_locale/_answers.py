"""What tables are asked about one identifier, and the menu of several."""
from typing import Iterable, List, Literal, NamedTuple, Optional, Tuple

from ._held import Held
from ._menu import Key, MenuRow, in_order, key_of
from ._negotiator import gathered, line_of
from ._refusals import InvalidSubtag, NameMissing, NoCommand, Text, as_bytes, line_refusal, shown

Direction = Literal["ltr", "rtl"]
# How a text is read: a locale identifier of UTS #35, besides a tag of RFC 5646, or besides a name of a POSIX locale.
Syntax = Literal["locales", "bcp47", "posix"]
SYNTAXES = {each: each.encode() + b" " for each in ("locales", "bcp47", "posix")}


# Which kinds of names are asked, in order: docs/PROGRAM.md of the repository tells them.
Chain = Literal["tiny", "light", "heavy", "short-light", "short-heavy", "long-light", "long-heavy", "menu-light", "menu-heavy",
                "short-menu-light", "short-menu-heavy"]
CHAINS: Tuple[Chain, ...] = ("tiny", "light", "heavy", "short-light", "short-heavy", "long-light", "long-heavy", "menu-light",
                             "menu-heavy", "short-menu-light", "short-menu-heavy")


class Named(NamedTuple):
    """A name, and whether a part of it has none, and is a subtag."""

    name: str
    is_raw: bool


class Canonical(NamedTuple):
    """A canonical form: the identifier, and the value that was handed in with it."""

    identifier: str
    value: str


class Answers(Held):
    """The calls of `Tables` that answer an identifier."""

    def _words(self, command: bytes, syntax: Syntax) -> bytes:
        """The words of a command in a syntax."""
        if syntax not in SYNTAXES:
            raise ValueError(f"the syntaxes are locales, bcp47 and posix, and {shown(str(syntax))} is none")
        return SYNTAXES[syntax] + command

    def _word(self, syntax: Optional[Syntax]) -> bytes:
        """The word of a syntax, and none where there is none."""
        return b"" if syntax is None else self._words(b"", syntax).rstrip()

    def _told(self, command: bytes, identifier: Text, syntax: Syntax) -> str:
        return self.answer(self._words(command, syntax), identifier)

    def maximize(self, identifier: Text, *, syntax: Syntax = "locales") -> str:
        """The maximal form: with the likely script and region. `syntax` says how the identifier is read; its extensions
        stay.

        >>> from icu_locale.example import TABLES
        >>> tables = Tables.from_json(TABLES)
        >>> tables.maximize("zh_tw"), tables.maximize("zh-u-nu-hanidec-ca-chinese")
        ('zh-Hant-TW', 'zh-Hans-CN-u-ca-chinese-nu-hanidec')
        >>> tables.maximize("zh_TW.UTF-8", syntax="posix")
        'zh-Hant-TW'
        >>> tables.maximize("en-")
        Traceback (most recent call last):
            ...
        icu_locale.InvalidSubtag: InvalidSubtag: 'en-'
        """
        return self._told(b"maximize", identifier, syntax).partition("\t")[0]

    def minimize(self, identifier: Text, *, favor_script: bool = False, syntax: Syntax = "locales") -> str:
        """The minimal form: the shortest with the same maximal form.

        >>> from icu_locale.example import TABLES
        >>> tables = Tables.from_json(TABLES)
        >>> tables.minimize("zh-Hant-TW"), tables.minimize("zh-Hant-TW", favor_script=True)
        ('zh-TW', 'zh-Hant')
        """
        command = b"minimize-script" if favor_script else b"minimize"
        return self._told(command, identifier, syntax).partition("\t")[0]

    def canonicalize(self, identifier: Text, *, syntax: Syntax = "locales") -> str:
        """The canonical form, that of the language after `t` and of the values at `rg` and `sd` too, and by the aliases of
        values in a supplement those at the keys of `u` and `t`.

        >>> from icu_locale.example import SUPPLEMENT, TABLES
        >>> tables = Tables.from_json(TABLES, SUPPLEMENT)
        >>> tables.canonicalize("sh"), tables.canonicalize("sh-u-rg-abcdefg")
        ('sr-Latn', 'sr-Latn-u-rg-xyz')
        >>> tables.canonicalize("en-u-ca-islamicc"), tables.canonicalize("en-t-m0-names")
        ('en-u-ca-islamic-civil', 'en-t-m0-prprname')
        >>> tables.canonicalize("i-klingon", syntax="bcp47"), tables.canonicalize("zh-cmn-Hans", syntax="bcp47")
        ('tlh', 'cmn-Hans')
        >>> tables.canonicalize("sh\\tabcdefg")
        Traceback (most recent call last):
            ...
        icu_locale.InvalidSubtag: InvalidSubtag: 'sh\\tabcdefg'
        """
        return self._told(b"canonicalize", without_tab(identifier), syntax).partition("\t")[0]

    def key(self, identifier: Text, *, extensions: bool = True, syntax: Syntax = "locales") -> str:
        """The key of a locale in a store: its canonical form, the shortest identifier that means the same in it. Texts that
        mean the same have one key. Without extensions, the key of the identifier alone.

        >>> from icu_locale.example import TABLES
        >>> tables = Tables.from_json(TABLES)
        >>> tables.key("zh-Hant-TW"), tables.key("sh-u-rg-abcdefg"), tables.key("en-US-u-hc-h12", extensions=False)
        ('zh-TW', 'sr-Latn-u-rg-xyz', 'en')
        """
        command = b"key" if extensions else b"identifier-key"
        return self._told(command, identifier, syntax).partition("\t")[0]

    def canonicalize_with(self, identifier: Text, value: Text) -> Canonical:
        """The canonical form of an identifier alone, and that of a value at the key `rg`.

        >>> from icu_locale.example import TABLES
        >>> tables = Tables.from_json(TABLES)
        >>> tables.canonicalize_with("sh", "abcdefg")
        Canonical(identifier='sr-Latn', value='xyz')
        """
        line = as_bytes(without_tab(identifier)) + b"\t" + as_bytes(value)
        parts = self.answer(b"canonicalize", line).split("\t")
        return Canonical(parts[0], parts[1])

    def direction(self, identifier: Text, *, syntax: Syntax = "locales") -> Optional[Direction]:
        """Which way the likely script runs, where that is known.

        >>> from icu_locale.example import TABLES
        >>> tables = Tables.from_json(TABLES)
        >>> tables.direction("ar"), tables.direction("de"), tables.direction("und")
        ('rtl', 'ltr', None)
        """
        told = self._told(b"direction", identifier, syntax)
        return "ltr" if told == "ltr" else "rtl" if told == "rtl" else None

    def distance(self, desired: Text, supported: Text, *, syntax: Syntax = "locales") -> int:
        """How far an identifier that may be served is from one that is desired, by the match rules. Their maximal forms are
        compared, and no alias is looked up.

        >>> from icu_locale.example import SUPPLEMENT, TABLES
        >>> tables = Tables.from_json(TABLES, SUPPLEMENT)
        >>> tables.distance("en-AU", "en-GB"), tables.distance("en", "en-GB"), tables.distance("en", "de")
        (3, 5, 84)
        """
        line = line_of((desired, supported))
        return int(self.answer(self._words(b"distance", syntax), line))

    def are_same(self, first: Text, second: Text, *, syntax: Syntax = "locales") -> bool:
        """Whether two texts have one canonical form.

        >>> from icu_locale.example import TABLES
        >>> tables = Tables.from_json(TABLES)
        >>> tables.are_same("sh", "SR_latn"), tables.are_same("sr", "sr-Latn")
        (True, False)
        """
        return self.canonicalize(first, syntax=syntax) == self.canonicalize(second, syntax=syntax)

    def fallback(self, identifier: Text, *, syntax: Syntax = "locales") -> List[str]:
        """The identifiers that a loader asks after one another, from this one, without its extensions, to `und`. The
        explicit parents of locales are those of the supplement.

        >>> from icu_locale.example import TABLES
        >>> tables = Tables.from_json(TABLES, '{"parents": {"en-AU": "en-001", "aa": "bb", "bb": "aa"}}')
        >>> tables.fallback("en-AU"), tables.fallback("zh-TW-u-ca-chinese")
        (['en-AU', 'en-001', 'en', 'und'], ['zh-TW', 'zh-Hant-TW', 'zh-Hant', 'und'])
        >>> tables.fallback("aa-DJ")
        Traceback (most recent call last):
            ...
        icu_locale.Circle: Circle: 'aa-DJ'
        """
        return self._told(b"fallback", identifier, syntax).split(" ")

    def name(self, identifier: Text, preferences: Text, chain: Chain = "light", *, syntax: Syntax = "locales",
             fallback: bool = False) -> str:
        """The name of the identifier in the language of the preferences, with what its extensions say where the supplement
        has names of extensions in that language, and without them else. What the tables have no name for is a subtag there.
        With `fallback` the name is in the first locale after the preferences that the tables have.

        >>> from icu_locale.example import TABLES
        >>> tables = Tables.from_json(TABLES)
        >>> tables.name("it-Qabc-150", "en"), tables.name("ku-Latn", "en", "menu-light")
        ('Italian (Qabc, Europe)', 'Kurdish (Kurmanji, Latin)')
        >>> tables.name("it", "de")
        Traceback (most recent call last):
            ...
        icu_locale.NameMissing: IdentifierNotFound: the tables were made without the locale 'de', to name 'it' in
        >>> tables.name("it", "en-AU", fallback=True)
        'Italian'
        >>> tables.name("it", "en", "lihgt")
        Traceback (most recent call last):
            ...
        icu_locale.NoCommand: 'lihgt' is no chain; the chains are tiny, light, heavy, short-light, short-heavy, long-light, \
long-heavy, menu-light, menu-heavy, short-menu-light, short-menu-heavy
        """
        return self.name_parts(identifier, preferences, chain, syntax=syntax, fallback=fallback).name

    def name_parts(self, identifier: Text, preferences: Text, chain: Chain = "light", *, syntax: Syntax = "locales",
                   fallback: bool = False) -> Named:
        """The same, and whether a part of the name is raw.

        >>> from icu_locale.example import TABLES
        >>> Tables.from_json(TABLES).name_parts("it-Qabc-150", "en")
        Named(name='Italian (Qabc, Europe)', is_raw=True)
        """
        for locale in self.fallback(preferences) if fallback else ():
            try:
                return self.name_parts(identifier, locale, chain, syntax=syntax)
            except NameMissing:
                pass
        return self._named(self._words(b"name", syntax), identifier, preferences, chain, CHAINS)

    def _named(self, task: bytes, text: Text, preferences: Text, chain: str, chains: Tuple[str, ...]) -> Named:
        """What a task that has some chains calls a text, in the language of the preferences."""
        command = b" ".join((task, as_bytes(chain), as_bytes(preferences)))
        try:
            name, _, mark = self.answer(command, text).rpartition("\t")
            return Named(name, mark == "R")
        except NameMissing as fault:
            raise NameMissing(f"{fault.name}: the tables were made without the locale {shown(preferences)}, to name "
                              f"{shown(text)} in") from None
        except NoCommand:
            raise no_command(preferences, "chain", chain, chains) from None

    def menu(self, locales: Iterable[str], language: Text, chain: Chain = "light", *, fallback: bool = False,
             key: Optional[Key] = None) -> List[MenuRow]:
        """The languages of a list for a menu: each with its name in one language and its own name, in the order of the
        first. That is the order of the language, by the module icu of PyICU where it is installed, and by code point else.
        `key` is another one, of a name. `chain` and `fallback` are those of `name`.

        >>> from icu_locale.example import TABLES
        >>> Tables.from_json(TABLES).menu(["en"], "en")
        [MenuRow(locale='en', name='English', own='English')]
        """
        rows = [MenuRow(each, self.name(each, language, chain, fallback=fallback),
                        self.name(each, each, chain, fallback=fallback)) for each in gathered(locales)]
        return in_order(rows, key or key_of(as_bytes(language).decode("utf-8", "replace")))

    @property
    def is_settled(self) -> bool:
        """Whether the likely tables are settled. It looks at each row.

        >>> from icu_locale.example import TABLES
        >>> Tables.from_json(TABLES).is_settled
        True
        """
        slot = self._take()
        try:
            number = self._calls.is_settled(slot.handle)
            if number > 1:
                self._refuse(number, slot)
        finally:
            self._give_back(slot)
        return bool(number == 1)


def no_command(preferences: Text, kind: str, choice: str, choices: Tuple[str, ...]) -> NoCommand:
    """What is raised where a choice is none of its kind, or the preferences are none."""
    return NoCommand(f"the preferences {shown(preferences)} are no identifier without variants" if choice in choices else
                     f"{shown(choice)} is no {kind}; the {kind}s are {', '.join(choices)}")


def without_tab(identifier: Text) -> Text:
    """An identifier. In a line of `canonicalize`, a value would come after a tab."""
    if b"\t" in as_bytes(identifier):
        raise line_refusal(InvalidSubtag.name, identifier)
    return identifier
