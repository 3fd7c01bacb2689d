"""What is available, and which request of a reader it meets."""
from typing import Iterable, NamedTuple, Optional, Tuple, TypeVar

from ._calls import SIZE
from ._held import Held, Slot
from ._refusals import TEXTS, InvalidList, Text, as_bytes, list_refusal, refuse

Tag = TypeVar("Tag", bound=Text)

MET = 0
NOT_MET = 1


class Match(NamedTuple):
    """A request that is met: its place, and that of the available identifier. Both are counted from 0."""

    request: int
    available: int


def gathered(identifiers: Iterable[Tag]) -> Tuple[Tag, ...]:
    """The identifiers of a list, which is no one text."""
    if isinstance(identifiers, TEXTS):
        raise TypeError("one text is no list of identifiers")
    return tuple(identifiers)


def listed(identifiers: Iterable[Tag]) -> Tuple[Tag, ...]:
    """The same, each looked at. In a line, one that is empty or holds a space would be none, or two."""
    found = gathered(identifiers)
    for place, identifier in enumerate(found):
        text = as_bytes(identifier)
        if not text or b" " in text:
            raise list_refusal(place, identifier)
    return found


class Negotiator(Held):
    """What is available, by `Tables.negotiator`. Any number of threads may use it at once.

    >>> from icu_locale.example import TABLES
    >>> with Tables.from_json(TABLES) as tables:
    ...     negotiator = tables.negotiator(["en-US", "zh-Hant", "yue-CN"])
    >>> match = negotiator.negotiate(["fr", "zh_TW", "en"])
    >>> match
    Match(request=1, available=1)
    >>> negotiator.available[match.available]
    'zh-Hant'
    >>> negotiator.answer("negotiate", "fr zh_TW en"), negotiator.answer("maximize", "zh-TW")
    ('1\\tzh-Hant', 'zh-Hant-TW\\tM')
    """

    _MADE_BY = "`negotiator` of tables gives one"

    def _begin(self) -> None:
        super()._begin()
        self._available: Tuple[Text, ...] = ()
        self._line = self._word = b""

    def _fresh(self) -> Slot:
        slot, tables = Slot(), super()._fresh()
        try:
            number = self._calls.available(tables.handle, self._word, len(self._word), self._line, len(self._line), slot.handle)
            if number:
                self._refuse(number, tables)
        finally:
            self._calls.close(tables.handle)
        return slot

    def _about(self) -> str:
        return f" of {list(self._available)!r}"

    @property
    def available(self) -> Tuple[Text, ...]:
        """The identifiers that are available, as they were handed in."""
        return self._available

    def negotiate(self, requests: Iterable[Text]) -> Optional[Match]:
        """The first request that an available identifier means, and the first such identifier; None where no request is met.
        It raises `NotSettled` where the likely tables are not settled.

        >>> from icu_locale.example import TABLES
        >>> negotiator = Tables.from_json(TABLES).negotiator(["de", "en", "en-Latn"])
        >>> negotiator.negotiate(["zh", "en-US", "de"])
        Match(request=1, available=1)
        >>> negotiator.negotiate(["zh"]), negotiator.negotiate([])
        (None, None)
        >>> negotiator.negotiate(["en", "en-"])
        Traceback (most recent call last):
            ...
        icu_locale.InvalidList: what stands at place 1 is no identifier: 'en-'
        """
        asked, request, available = listed(requests), SIZE(), SIZE()
        line, slot = line_of(asked), self._take()
        try:
            number = self._calls.negotiate(slot.handle, self._word, len(self._word), line, len(line), request, available)
        finally:
            self._give_back(slot)
        if number == MET:
            return Match(request.value, available.value)
        if number == InvalidList.number:
            raise self._list_refusal(asked, self._word)
        if number != NOT_MET:
            refuse(number)
        return None


def line_of(identifiers: Iterable[Text]) -> bytes:
    """A list as one line."""
    return b" ".join(map(as_bytes, identifiers))
