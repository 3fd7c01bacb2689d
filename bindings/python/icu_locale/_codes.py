"""What tables know of codes: which are valid, what each is called, which have a name, and exemplar characters."""
from typing import Callable, List, Literal, NamedTuple, Optional, Tuple, cast

from ._answers import CHAINS, Answers, Chain, Named, Syntax, no_command
from ._held import EXEMPLARS
from ._refusals import LineRefused, NoCommand, Text, as_bytes, place_in, refuse

# What a part of an identifier is, and why it is not valid: docs/PROGRAM.md of the repository tells both.
PartKind = Literal["language", "script", "region", "variant", "attribute", "keyword", "field", "extension"]
CodeStatus = Literal["deprecated", "reserved", "unlisted", "other_region"]
# Which names are asked of a script, of a region and of a variant, in order.
ScriptChain = Literal["tiny", "light", "heavy", "short-heavy"]
RegionChain = Literal["tiny", "short-tiny", "light", "short-light"]
VariantChain = Literal["heavy"]
SCRIPT_CHAINS: Tuple[ScriptChain, ...] = ("tiny", "light", "heavy", "short-heavy")
REGION_CHAINS: Tuple[RegionChain, ...] = ("tiny", "short-tiny", "light", "short-light")
VARIANT_CHAINS: Tuple[VariantChain, ...] = ("heavy",)
# Subtags that have names.
SubtagKind = Literal["languages", "scripts", "regions", "variants"]
SUBTAG_KINDS: Tuple[SubtagKind, ...] = ("languages", "scripts", "regions", "variants")
# Sets of exemplar characters.
ExemplarSet = Literal["main", "auxiliary", "punctuation", "numbers", "index"]
EXEMPLAR_SETS: Tuple[ExemplarSet, ...] = ("main", "auxiliary", "punctuation", "numbers", "index")
VALID = "valid"  # what is told of an identifier without a fault
YES = "yes"


class Invalid(NamedTuple):
    """A part of an identifier that is not valid: its kind, its text, its status, and where it begins and ends in the
    identifier, as it was handed in."""

    kind: PartKind
    text: str
    status: CodeStatus
    start: int
    end: int


class Codes(Answers):
    """The calls of `Tables` about codes."""

    def validate(self, identifier: Text, *, syntax: Syntax = "locales") -> List[Invalid]:
        """The parts of an identifier that are not valid (UTS #35 Part 1, Validity Data); none where all are. The tables need
        a table of validity, which a supplement has.

        >>> from icu_locale.example import TABLES
        >>> validity = '{"validity": {"language": {"regular": "en"}, "region": {"regular": "US", "deprecated": "DD"}}}'
        >>> tables = Tables.from_json(TABLES, validity)
        >>> tables.validate("en-DD")
        [Invalid(kind='region', text='DD', status='deprecated', start=3, end=5)]
        >>> tables.validate("en-US")
        []
        >>> Tables.from_json(TABLES).validate("en")
        Traceback (most recent call last):
            ...
        icu_locale.TableMissing: The tables leave out `validity`, which is needed: the supplement that has it is missing.
        """
        told = self._told(b"validate", identifier, syntax)
        return [] if told == VALID else [_invalid(part, identifier) for part in told.split("\t")]

    def is_valid(self, identifier: Text, *, syntax: Syntax = "locales") -> bool:
        """Whether an identifier is one, and each part of it is valid.

        >>> from icu_locale.example import TABLES
        >>> tables = Tables.from_json(TABLES, '{"validity": {"language": {"regular": "de en"}}}')
        >>> tables.is_valid("en"), tables.is_valid("xx"), tables.is_valid("e")
        (True, False, False)
        """
        try:
            return self._told(b"validate", identifier, syntax) == VALID
        except LineRefused:
            return False

    def language_name(self, language: Text, preferences: Text, chain: Chain = "light") -> Named:
        """What a language alone is called in the language of the preferences.

        >>> from icu_locale.example import TABLES
        >>> tables = Tables.from_json(TABLES)
        >>> tables.language_name("it", "en"), tables.language_name("ku", "en", "menu-light")
        (Named(name='Italian', is_raw=False), Named(name='Kurdish (Kurmanji)', is_raw=False))
        >>> tables.language_name("it-US", "en")
        Traceback (most recent call last):
            ...
        icu_locale.InvalidLanguage: InvalidLanguage: 'it-US'
        """
        return self._named(b"language-name", language, preferences, chain, CHAINS)

    def script_name(self, script: Text, preferences: Text, chain: ScriptChain = "light") -> Named:
        """What a script alone is called. Where the tables have no name for it, it is itself and raw.

        >>> from icu_locale.example import TABLES
        >>> Tables.from_json(TABLES).script_name("latn", "en")
        Named(name='Latin', is_raw=False)
        """
        return self._named(b"script-name", script, preferences, chain, SCRIPT_CHAINS)

    def region_name(self, region: Text, preferences: Text, chain: RegionChain = "light") -> Named:
        """What a region alone is called. Where the tables have no name for it, it is itself and raw.

        >>> from icu_locale.example import TABLES
        >>> tables = Tables.from_json(TABLES)
        >>> tables.region_name("us", "en"), tables.region_name("US", "en", "short-light").name
        (Named(name='United States', is_raw=False), 'US')
        >>> tables.region_name("qx", "en")
        Named(name='QX', is_raw=True)
        >>> tables.region_name("US", "en", "heavy")
        Traceback (most recent call last):
            ...
        icu_locale.NoCommand: 'heavy' is no chain; the chains are tiny, short-tiny, light, short-light
        """
        return self._named(b"region-name", region, preferences, chain, REGION_CHAINS)

    def variant_name(self, variant: Text, preferences: Text, chain: VariantChain = "heavy") -> Named:
        """What a variant alone is called. Where the tables have no name for it, it is itself and raw.

        >>> from icu_locale.example import TABLES
        >>> Tables.from_json(TABLES).variant_name("FONIPA", "en").name
        'IPA Phonetics'
        """
        return self._named(b"variant-name", variant, preferences, chain, VARIANT_CHAINS)

    def listed(self, kind: SubtagKind, locale: Text) -> List[str]:
        """The subtags of a kind that the tables have names for in a locale, in the order of their texts.

        >>> from icu_locale.example import TABLES
        >>> tables = Tables.from_json(TABLES)
        >>> tables.listed("regions", "en"), tables.listed("regions", "de")
        (['150', 'US'], [])
        """
        try:
            return self.answer(b" ".join((b"list", as_bytes(kind), as_bytes(locale))), b"").split()
        except NoCommand:
            raise no_command(locale, "kind", kind, SUBTAG_KINDS) from None

    def has_exemplar(self, kind: ExemplarSet, locale: Text, text: Text) -> bool:
        """Whether a set of a locale's exemplar characters has a text: a character, or several that go together. The tables
        need that set in that locale (UTS #35 Part 2, Character Elements).

        >>> from icu_locale.example import TABLES
        >>> tables = Tables.from_json(TABLES)
        >>> [tables.has_exemplar("main", "en", each) for each in ("a", "ng", "A", "ab")]
        [True, True, False, False]
        >>> tables.has_exemplar("index", "en", "A")
        Traceback (most recent call last):
            ...
        icu_locale.TableMissing: The tables leave out `exemplars`, the set index of the locale en.
        """
        try:
            return self.answer(b" ".join((EXEMPLARS, as_bytes(kind), as_bytes(locale))), text) == YES
        except NoCommand:
            raise no_command(locale, "set", kind, EXEMPLAR_SETS) from None

    @property
    def data_name(self) -> Optional[str]:
        """What the data calls itself, as `41` for that of CLDR 41; None where it has no name.

        >>> from icu_locale.example import TABLES
        >>> Tables.from_json(TABLES, '{"cldr": "41"}').data_name, Tables.from_json(TABLES).data_name
        ('41', None)
        """
        number, told = self._written(self._calls.data_name)
        if number == LineRefused.number:
            return None
        if number:
            refuse(number)
        return told.decode()

    def _written(self, call: Callable[..., int]) -> Tuple[int, bytes]:
        """The number of a call that writes into a room, and what it has written."""
        slot = self._take()
        try:
            return slot.written_by(call)
        finally:
            self._give_back(slot)


def _invalid(told: str, identifier: Text) -> Invalid:
    """A part of an identifier, as it is told."""
    kind, text, status, start, end = told.split(" ")
    return Invalid(cast(PartKind, kind), text, cast(CodeStatus, status), *place_in(identifier, int(start), int(end)))
