"""A locale as an object: its parts, as the proved library tells them."""
from functools import lru_cache, total_ordering
from types import MappingProxyType
from typing import Any, Iterable, List, Mapping, NoReturn, Optional, Tuple, Type, TypeVar

from ._answers import Syntax
from ._refusals import InvalidLanguage, InvalidSubtag, Text, Written
from ._tables import Tables

# What asks no table is asked of tables that hold nothing.
EMPTY = "{}"
# The keys of the extension `u` that have a property of their own, as in UTS #35 Part 1, section 3.6.1.
CALENDAR, COLLATION, HOUR_CYCLE, NUMBERS, CURRENCY = "ca", "co", "hc", "nu", "cu"

_Self = TypeVar("_Self", bound="Locale")


@lru_cache(maxsize=1)
def _teller() -> Tables:
    return Tables.from_json(EMPTY)


def _pairs(text: str) -> Mapping[str, str]:
    """The rows of keywords, fields or other extensions."""
    return MappingProxyType(dict(row.split("=", 1) for row in text.split(" ") if row))


def _some(text: str) -> Optional[str]:
    return text or None


@total_ordering
class Locale(Written):
    """A locale identifier (UTS #35 Part 1, section 3.2). It does not change; two are equal if all their parts are.

    >>> locale = Locale("zh_hant_tw-u-nu-hanidec")
    >>> str(locale), locale.language, locale.script, locale.region
    ('zh-Hant-TW-u-nu-hanidec', 'zh', 'Hant', 'TW')
    >>> locale.numbering_system, locale.calendar, dict(locale.keywords)
    ('hanidec', None, {'nu': 'hanidec'})
    >>> locale.replace(region="HK", keywords={"ca": "roc"})
    Locale('zh-Hant-HK-u-ca-roc')
    >>> Locale.parse("de_DE.UTF-8", syntax="posix") == Locale("DE-de")
    True
    """

    __slots__ = ("_text", "language", "script", "region", "variants", "attributes", "keywords", "transform_language", "fields",
                 "extensions", "private_use")
    _text: str
    language: str
    script: Optional[str]
    region: Optional[str]
    variants: Tuple[str, ...]
    attributes: Tuple[str, ...]
    keywords: Mapping[str, str]
    transform_language: Optional[str]
    fields: Mapping[str, str]
    extensions: Mapping[str, str]
    private_use: Optional[str]

    def __init__(self, text: Text) -> None:
        """Reads a locale identifier. Raises `InvalidLanguage` or `InvalidSubtag`."""
        self._take(text, "locales")

    @classmethod
    def parse(cls: Type[_Self], text: Text, *, syntax: Syntax = "locales") -> _Self:
        """Reads a text of a syntax: `locales`, `bcp47` or `posix`."""
        made = cls.__new__(cls)
        made._take(text, syntax)
        return made

    def _take(self, text: Text, syntax: Syntax) -> None:
        told = _teller().answer(_teller()._words(b"parts", syntax), text).split("\t")
        whole, language, script, region, variants, attributes, keywords, transform, fields, extensions, private = told
        for name, value in (
                ("_text", whole), ("language", language), ("script", _some(script)), ("region", _some(region)),
                ("variants", tuple(variants.split())), ("attributes", tuple(attributes.split())),
                ("keywords", _pairs(keywords)), ("transform_language", _some(transform)), ("fields", _pairs(fields)),
                ("extensions", _pairs(extensions)), ("private_use", _some(private))):
            object.__setattr__(self, name, value)

    def __setattr__(self, name: str, value: Any) -> NoReturn:
        raise AttributeError(f"a Locale does not change; replace({name}=..) makes another one")

    def __delattr__(self, name: str) -> NoReturn:
        raise AttributeError("a Locale does not change")

    @property
    def base_name(self) -> str:
        """Language, script, region and variants."""
        return "-".join(filter(None, (self.language, self.script, self.region, *self.variants)))

    @property
    def calendar(self) -> Optional[str]:
        """The calendar that is asked for, as `buddhist`."""
        return self.keywords.get(CALENDAR)

    @property
    def collation(self) -> Optional[str]:
        """The order of texts that is asked for, as `phonebk`."""
        return self.keywords.get(COLLATION)

    @property
    def hour_cycle(self) -> Optional[str]:
        """`h11`, `h12`, `h23` or `h24`."""
        return self.keywords.get(HOUR_CYCLE)

    @property
    def numbering_system(self) -> Optional[str]:
        """The digits that are asked for, as `latn`."""
        return self.keywords.get(NUMBERS)

    @property
    def currency(self) -> Optional[str]:
        """The currency that is asked for, in lower case."""
        return self.keywords.get(CURRENCY)

    def replace(self: _Self, **parts: Any) -> _Self:
        """Another locale with other parts: each by its name here, None or empty to leave it out. It is read as any text
        is, so what is no such part raises `InvalidLanguage` or `InvalidSubtag`."""
        names = [name for name in self.__slots__ if name != "_text"]
        wrong = [name for name in parts if name not in names]
        if wrong:
            raise TypeError(f"{wrong[0]} is no part of a locale; these are: {', '.join(names)}")
        wanted = {name: parts.get(name, getattr(self, name)) for name in names}
        made = type(self)("-".join(_written(wanted)))
        for name in parts:
            if _alike(getattr(made, name)) != _alike(wanted[name]):
                raise InvalidSubtag(f"InvalidSubtag: {wanted[name]!r} is not read as {name}")
        return made

    def __str__(self) -> str:
        return self._text

    def __repr__(self) -> str:
        return f"{type(self).__name__}({self._text!r})"

    def __eq__(self, other: object) -> bool:
        if not isinstance(other, Locale):
            return NotImplemented
        return self._text == other._text

    def __lt__(self, other: object) -> bool:
        if not isinstance(other, Locale):
            return NotImplemented
        return self._text < other._text

    def __hash__(self) -> int:
        return hash(self._text)

    def __reduce__(self: _Self) -> Tuple[Type[_Self], Tuple[str]]:
        return type(self), (self._text,)


def _rows(rows: Optional[Mapping[str, str]]) -> Iterable[str]:
    for key, value in (rows or {}).items():
        yield key
        if value:
            yield value


def _alike(part: Any) -> Any:
    """A part without what a text may have otherwise: case, the order of members, and the value `true`."""
    if part is None or isinstance(part, str):
        return (part or "").lower().replace("_", "-")
    if isinstance(part, Mapping):
        return {_alike(key): "" if value == "true" else _alike(value) for key, value in part.items()}
    return sorted(map(_alike, part))


def _written(parts: Mapping[str, Any]) -> List[str]:
    """The pieces of a text that has these parts, if there is one."""
    if not parts["language"]:
        raise InvalidLanguage("InvalidLanguage: a locale has a language; `und` stands for none that is known")
    told = [parts["language"], *filter(None, (parts["script"], parts["region"])), *(parts["variants"] or ())]
    for singleton, value in (parts["extensions"] or {}).items():
        told += [singleton, value]
    transform = [*filter(None, [parts["transform_language"]]), *_rows(parts["fields"])]
    unicode = [*(parts["attributes"] or ()), *_rows(parts["keywords"])]
    for mark, pieces in (("t", transform), ("u", unicode), ("x", [*filter(None, [parts["private_use"]])])):
        told += [mark, *pieces] if pieces else []
    return told
