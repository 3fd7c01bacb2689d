"""What is available, and which of it is served to a reader."""
from operator import index
from types import TracebackType
from typing import Generic, Iterable, NamedTuple, Optional, Tuple, Type, TypeVar, Union

from ._held import NoCopies
from ._negotiator import Negotiator, Tag, line_of, listed
from ._refusals import TEXTS, LineRefused, Text, Written, as_bytes

# The header Accept-Language of a request, the lines of several, or None where there is none.
Headers = Union[None, Text, Iterable[Text]]
Default = TypeVar("Default")
NONE = "none"  # what is told where nothing is served
# The largest threshold, and the largest demotion.
LARGEST = 65_535


class Resolved(NamedTuple):
    """What is served to a reader: its place in what is available, counted from 0, and the locale that formats for the
    reader."""

    available: int
    locale: str


def option_words(threshold: Optional[int], demotion: Optional[int], favor_script: bool, or_first: bool) -> bytes:
    """The words of options, each with a space after it, before a command that serves a reader."""
    words = []
    for name, option in (("threshold", threshold), ("demotion", demotion)):
        if option is not None:
            number = index(option)
            if not 0 <= number <= LARGEST:
                raise ValueError(f"{name} is a number from 0 to {LARGEST}, and {number} is none")
            words.append(f"{name} {number} ")
    return "".join(words + ["favor-script "] * bool(favor_script) + ["or-first "] * bool(or_first)).encode()


def header_of(headers: Headers) -> bytes:
    """The bytes of one header: several are one, and none is empty."""
    if headers is None:
        return b""
    if isinstance(headers, TEXTS) or isinstance(headers, Written):
        return as_bytes(headers)
    return b", ".join(map(as_bytes, headers))


class Switcher(NoCopies, Generic[Tag, Default]):
    """What is available, by `Tables.switcher`, and which of it is served. Any number of threads may use it at once.

    >>> from icu_locale.example import SUPPLEMENT, TABLES
    >>> switcher = Tables.from_json(TABLES, SUPPLEMENT).switcher(["en", "zh_hant", "sr_latn"], default="en")
    >>> switcher.serve("sh;q=0.8, fr"), switcher.serve("zh-TW-u-co-stroke"), switcher.serve("fr")
    ('sr_latn', 'zh_hant', 'en')
    """

    def __init__(self, negotiator: Negotiator, available: Tuple[Tag, ...], default: Default, options: bytes = b"") -> None:
        """`negotiator` holds what is available; `Tables.switcher` makes both, and the words of options."""
        self._negotiator, self._available, self._default, self._options = negotiator, available, default, options

    @property
    def available(self) -> Tuple[Tag, ...]:
        """The identifiers that are available, as they were handed in."""
        return self._available

    def serve(self, headers: Headers) -> Union[Tag, Default]:
        """What is served for one header Accept-Language, or for several; the default where nothing is near enough."""
        return self._served(self._told(b"serve", header_of(headers)))

    def nearest(self, requests: Iterable[Text]) -> Union[Tag, Default]:
        """What is nearest to requests, the most wanted first; the default where nothing is near enough.

        >>> from icu_locale.example import SUPPLEMENT, TABLES
        >>> switcher = Tables.from_json(TABLES, SUPPLEMENT).switcher(["en", "en-GB", "zh_hant"])
        >>> switcher.nearest(["fr", "en-AU"]), switcher.nearest(["yue-u-co-stroke"]), switcher.nearest(["fr"])
        ('en-GB', 'zh_hant', None)
        >>> switcher.nearest(["fr", "en-"])
        Traceback (most recent call last):
            ...
        icu_locale.InvalidList: what stands at place 1 is no identifier: 'en-'
        """
        return self._served(self._asked(b"locales nearest", requests))

    def resolved(self, requests: Iterable[Text]) -> Optional[Resolved]:
        """What is nearest to requests, with the region, the variants and the extensions of the one that wished it: the
        locale by which numbers and dates are written for this reader. None where nothing is near enough.

        >>> from icu_locale.example import SUPPLEMENT, TABLES
        >>> switcher = Tables.from_json(TABLES, SUPPLEMENT).switcher(["de", "en-GB", "zh_hant"])
        >>> switcher.resolved(["fr", "en-AU-u-ca-buddhist"]), switcher.resolved(["zh-TW"])
        (Resolved(available=1, locale='en-AU-u-ca-buddhist'), Resolved(available=2, locale='zh-Hant-TW'))
        >>> switcher.resolved(["gsw-CH"]), switcher.resolved(["fr"])
        (Resolved(available=0, locale='de-CH'), None)
        """
        told = self._asked(b"locales resolved", requests)
        if told == NONE:
            return None
        place, _, locale = told.partition("\t")
        return Resolved(int(place), locale)

    def _told(self, command: bytes, line: Text) -> str:
        return self._negotiator.answer(self._options + command, line)

    def _asked(self, command: bytes, requests: Iterable[Text]) -> str:
        asked = listed(requests)
        try:
            return self._told(command, line_of(asked))
        except LineRefused:
            raise self._negotiator._list_refusal(asked, b"locales") from None

    def _served(self, told: str) -> Union[Tag, Default]:
        return self._default if told == NONE else self._available[int(told.partition("\t")[0])]

    def close(self) -> None:
        """Lets the list and the tables go. A second call does nothing."""
        self._negotiator.close()

    def __enter__(self) -> "Switcher[Tag, Default]":
        return self

    def __exit__(self, kind: Optional[Type[BaseException]], error: Optional[BaseException],
                 trace: Optional[TracebackType]) -> None:
        self.close()

    def __repr__(self) -> str:
        return f"<Switcher of {list(self._available)!r}, or else {self._default!r}>"
