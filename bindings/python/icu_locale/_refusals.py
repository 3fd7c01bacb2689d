"""Why a call gives no answer, and what a text is."""
from typing import Dict, NoReturn, Optional, Tuple, Type, Union

from ._calls import fault_of


class Written:
    """What is written as a text is: a `Locale`."""

    __slots__ = ()


Text = Union[str, bytes, Written]
# What is taken for a text.
TEXTS = (str, bytes, bytearray, memoryview)
# How much of a text a message shows.
SHOWN = 60


class Refused(Exception):
    """A call that gives no answer. `number` is that of icu_locale.h."""

    number: int = -1


class Closed(Refused, ValueError):
    """The tables are closed."""

    number = 2


class MemoryRefused(Refused, MemoryError):
    """Memory was asked for and refused."""

    number = 4


class NoJson(Refused, ValueError):
    """The text is no JSON."""

    number = 5


class NoTables(Refused, ValueError):
    """The JSON has not the shape of tables."""

    number = 6


class NoCommand(Refused, ValueError):
    """No command has these words."""

    number = 7


class TableMissing(Refused, LookupError):
    """The tables leave out one that is needed."""

    number = 8


class NoList(Refused, ValueError):
    """The command is `negotiate`, `serve`, `nearest` or `resolved`, and there is no list of what is available:
    `Tables.negotiator` is given one."""

    number = 9


class InvalidList(Refused, ValueError):
    """The list has something that is no identifier: `identifier`, at `place`, counted from 0."""

    number = 10
    place: int = -1
    identifier: Text = ""


class NotSettled(Refused, ValueError):
    """The likely tables are not settled, which `negotiate` asks."""

    number = 11


class TablesShared(Refused, ValueError):
    """Other handles have the tables too, so that they get no other supplement and no other names."""

    number = 12


class NoCldr(Refused, LookupError):
    """A file of CLDR or a locale is not there, or does not hold what its place promises; or the package has no data
    inside."""


class LineRefused(Refused, ValueError):
    """The line is refused, and `name` is the refusal's. `text` is what was asked. Where it is no locale identifier, `subtag` is
    the first piece that none can have there, from `start` to `end`; else these are the ends of the text, and it is None."""

    number = 1
    name: str = ""
    text: Text = ""
    syntax: str = ""

    @property
    def start(self) -> int:
        """Where the subtag begins."""
        return self._spot[0]

    @property
    def end(self) -> int:
        """Where the subtag ends."""
        return self._spot[1]

    @property
    def subtag(self) -> Optional[str]:
        """The subtag that is none, or is where it may not be; empty where the text ends too early."""
        return self._spot[2]

    @property
    def _spot(self) -> Tuple[int, int, Optional[str]]:
        octets = as_bytes(self.text)
        found = fault_of(octets) if self.syntax == "locales" and self.name.startswith("Invalid") else None
        start, end = place_in(self.text, *(found or (0, len(octets))))
        return start, end, _text_of(octets[found[0]:found[1]]) if found else None


class InvalidLanguage(LineRefused):
    """The line does not begin with a language."""

    name = "InvalidLanguage"


class InvalidSubtag(LineRefused):
    """A subtag of the line is none, or is where it may not be."""

    name = "InvalidSubtag"


class InvalidText(LineRefused):
    """The bytes that are asked for among exemplar characters are no text of UTF-8."""

    name = "InvalidText"


class NoFixedPoint(LineRefused):
    """The rules of canonicalization come to no end."""

    name = "NoFixedPoint"


class NoSubdivisionFixedPoint(LineRefused):
    """The rows of subdivisions come to no end."""

    name = "NoSubdivisionFixedPoint"


class NoValueFixedPoint(LineRefused):
    """The aliases of the values at a key of the extension `u` come to no end."""

    name = "NoValueFixedPoint"


class NoFieldFixedPoint(LineRefused):
    """The aliases of the values at a key of the extension `t` come to no end."""

    name = "NoFieldFixedPoint"


class Circle(LineRefused):
    """The explicit parents after a locale lead round in a circle."""

    name = "Circle"


class NameMissing(LineRefused, LookupError):
    """The tables were made without the locale of the preferences: they hold no pattern of names in it.

    A name that is missing in a locale that they have is no refusal: its subtag is there.
    """

    name = "IdentifierNotFound"


_BY_NUMBER: Dict[int, Type[Refused]] = {each.number: each for each in (
    Closed, MemoryRefused, NoJson, NoTables, NoCommand, TableMissing, NoList, InvalidList, NotSettled, TablesShared)}
_BY_NAME: Dict[str, Type[LineRefused]] = {each.name: each for each in (
    InvalidLanguage, InvalidSubtag, InvalidText, NoFixedPoint, NoSubdivisionFixedPoint, NoValueFixedPoint, NoFieldFixedPoint,
    Circle, NameMissing)}


def _text_of(octets: bytes) -> str:
    try:
        return octets.decode("utf-8", "surrogatepass")
    except UnicodeDecodeError:
        return octets.decode("utf-8", "replace")


def place_in(text: Text, start: int, end: int) -> Tuple[int, int]:
    """Where some bytes of a text are in it: in a str, by its characters."""
    if not isinstance(text, str):
        return start, end
    octets = as_bytes(text)
    return len(_text_of(octets[:start])), len(_text_of(octets[:end]))


def refuse(number: int) -> NoReturn:
    """Raises what a number of icu_locale.h stands for."""
    kind = _BY_NUMBER.get(number, Refused)
    raise kind(kind.__doc__ if number in _BY_NUMBER else number)


def line_refusal(name: str, line: Text, syntax: str = "") -> LineRefused:
    """What is raised for a line that is refused, which was read in a syntax."""
    refusal = _BY_NAME.get(name, LineRefused)(f"{name}: {shown(line)}")
    refusal.text, refusal.syntax = line, syntax
    return refusal


def list_refusal(place: int, identifier: Text) -> InvalidList:
    """What is raised for something in a list that is no identifier."""
    refusal = InvalidList(f"what stands at place {place} is no identifier: {shown(identifier)}")
    refusal.place, refusal.identifier = place, identifier
    return refusal


def as_bytes(text: Text) -> bytes:
    """The bytes of a text; half of a surrogate pair becomes what no call accepts."""
    if isinstance(text, str):
        return text.encode("utf-8", "surrogatepass")
    if isinstance(text, (bytes, bytearray, memoryview)):
        return bytes(text)
    if isinstance(text, Written):
        return str(text).encode()
    raise TypeError(f"a text is a str, bytes or a Locale, and no {type(text).__name__}")


def cut(text: str) -> str:
    """A text in a message: of a long one the beginning, and its length."""
    return text if len(text) <= SHOWN else f"{text[:SHOWN]}.. of {len(text)} characters"


def shown(text: Text) -> str:
    """The same with the quotation marks of Python."""
    kept = text if isinstance(text, (str, bytes)) else as_bytes(text)
    what = "characters" if isinstance(kept, str) else "bytes"
    return repr(kept) if len(kept) <= SHOWN else f"{kept[:SHOWN]!r}.. of {len(kept)} {what}"
