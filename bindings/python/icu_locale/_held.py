"""Handles of C, one for each call that runs.

A call takes a handle that is free, and gives it back; where none is free it makes one. So no call waits for another, be
it of another thread or of a signal handler that interrupts it. In a forked child the handles that were free at the fork
are free; what another thread of the parent had taken is in no list there, so that it is never used and never closed.
icu_locale.h asks for no call in such a child, since C promises it no memory; glibc does, and Python itself rests on that.
"""
import ctypes
import os
import threading
from types import TracebackType
from typing import Any, Callable, List, NoReturn, Optional, SupportsIndex, Tuple, Type, TypeVar

from ._calls import SIZE, Handle, calls
from ._refusals import (Closed, InvalidList, LineRefused, TableMissing, Text, as_bytes, cut, line_refusal, list_refusal,
                        refuse)

ACCEPTED = 0
ROOM = 3
LARGEST = 1 << 16  # bytes of room that a handle keeps
# The command that has a set and a locale behind it.
EXEMPLARS = b"exemplars"
# The command that needs what a list and `is_settled` need.
LIKELY = b"maximize"
# Tables that a supplement has.
OF_SUPPLEMENT = ("matching", "validity")


class Slot:
    """A handle of C, and the room of its answers. It does not close itself: in a forked child it may be another thread's."""

    __slots__ = ("handle", "written", "written_at", "out", "out_at", "room")
    out: Any

    def __init__(self) -> None:
        self.handle = ctypes.pointer(Handle(None))
        self.written = SIZE()
        self.written_at = ctypes.pointer(self.written)
        self.make_room(128)

    def make_room(self, room: int) -> None:
        """Room for an answer."""
        self.room, self.out = room, ctypes.create_string_buffer(room)
        self.out_at = ctypes.addressof(self.out)

    def written_by(self, call: Callable[..., int], *words: Any) -> Tuple[int, bytes]:
        """The number of a call that writes into a room, and what it has written. It is made again where it wants more room."""
        number = call(self.handle, *words, self.out_at, self.room, self.written_at)
        if number == ROOM:
            self.make_room(self.written.value)
            number = call(self.handle, *words, self.out_at, self.room, self.written_at)
        told: bytes = self.out[:self.written.value]
        return number, told


class NoCopies:
    """What is neither copied nor pickled, since its handles are the library's."""

    def __reduce_ex__(self, protocol: SupportsIndex) -> NoReturn:
        """Refuses `copy`, `deepcopy` and `pickle`."""
        raise TypeError(f"{type(self).__name__} is neither copied nor pickled: make another one, of its tables")


_Self = TypeVar("_Self", bound="Held")


class Held(NoCopies):
    """What the handles of one object hold. The root is a handle that others are made of, and no call else is made on it."""

    # Held where the root is used. A signal handler may come in between, and a fork waits.
    _rooted = threading.RLock()

    def __init__(self) -> None:
        """Refuses a call of the class, which would have no tables."""
        raise TypeError(f"{type(self).__name__}() is no call: {self._MADE_BY}")

    # How an object of the class is made.
    _MADE_BY = "it is made of tables"

    @classmethod
    def _closed(cls: Type[_Self]) -> _Self:
        """One that is closed."""
        made = cls.__new__(cls)
        made._begin()
        return made

    def _begin(self) -> None:
        self._calls = calls()
        self._root = Slot()
        self._free: List[Slot] = []
        self._is_open = False
        # What is lent to the tables. It stays where it is as long as one of their handles may be asked, in a call that runs
        # while they are closed too.
        self._lent: Optional[memoryview] = None

    def _share_root(self, to: Slot) -> None:
        with self._rooted:
            number = self._calls.share(self._root.handle, to.handle)
        if number:
            refuse(number)

    def _share_with(self, made: "Held") -> None:
        """Makes the root of another object a handle to these tables, with what is lent to them."""
        self._share_root(made._root)
        made._lent = self._lent  # no other names are lent to tables that two have

    def _fresh(self) -> Slot:
        """A new handle that holds what this object's handles hold."""
        slot = Slot()
        self._share_root(slot)
        return slot

    def _take(self) -> Slot:
        if not self._is_open:
            refuse(Closed.number)
        try:
            return self._free.pop()
        except IndexError:
            return self._fresh()

    def _give_back(self, slot: Slot) -> None:
        if slot.room > LARGEST:  # what a long answer took, here and in the library, is given back
            self._calls.close(slot.handle)
            return
        self._free.append(slot)
        if not self._is_open:
            self._let_go()

    def _let_go(self) -> None:
        while True:
            try:
                slot = self._free.pop()
            except IndexError:
                return
            self._calls.close(slot.handle)

    def close(self) -> None:
        """Lets the tables go; a call that still runs has its answer first. A second call does nothing."""
        self._is_open = False
        with self._rooted:
            self._calls.close(self._root.handle)
        self._let_go()

    def __enter__(self: _Self) -> _Self:
        return self

    def __exit__(self, kind: Optional[Type[BaseException]], error: Optional[BaseException],
                 trace: Optional[TracebackType]) -> None:
        self.close()

    def __repr__(self) -> str:
        return f"<{type(self).__name__}{self._about()}{'' if self._is_open else ', closed'}>"

    def _about(self) -> str:
        """What the object's own text tells of it."""
        return ""

    def __del__(self) -> None:
        if hasattr(self, "_is_open"):
            self.close()

    def answer(self, command: Text, line: Text) -> str:
        """What the program icu_locale_cli answers to a line, by the words of a command.

        >>> from icu_locale.example import TABLES
        >>> tables = Tables.from_json(TABLES)
        >>> tables.answer("name light en", "it-Qabc-150")
        'Italian (Qabc, Europe)\\tR'
        >>> tables.answer("maximise", "zh")
        Traceback (most recent call last):
            ...
        icu_locale.NoCommand: No command has these words.
        """
        words = command if isinstance(command, bytes) else as_bytes(command)
        text, ask, slot = as_bytes(line), self._calls.answer, self._take()
        try:
            while True:
                number = ask(slot.handle, words, len(words), text, len(text), slot.out_at, slot.room, slot.written_at)
                if number != ROOM:
                    break
                slot.make_room(slot.written.value)
            told: bytes = slot.out[:slot.written.value]
            if number == TableMissing.number:
                self._refuse(number, slot, words)
        finally:
            self._give_back(slot)
        if number == ACCEPTED:
            return told.decode()
        if number == LineRefused.number:
            raise line_refusal(told.decode().split("\t")[1], line, words.partition(b" ")[0].decode("ascii", "replace"))
        refuse(number)

    def _refuse(self, number: int, slot: Slot, words: bytes = LIKELY) -> NoReturn:
        """Raises what a number stands for. Of a table that a command needs, the library tells the name."""
        if number == TableMissing.number:
            number, name = slot.written_by(self._calls.missing, words, len(words))
            if number == ACCEPTED:
                raise table_missing(name.decode(), words)
        refuse(number)

    def _list_refusal(self, listed: Tuple[Text, ...], word: bytes = b"") -> InvalidList:
        """Why a list is refused, in the syntax of a word or in none: the first that is no identifier."""
        line, place = b" ".join(map(as_bytes, listed)), SIZE()
        number = self._calls.list_fault(word, len(word), line, len(line), place)
        if number != InvalidList.number:
            refuse(number)
        return list_refusal(place.value, listed[place.value])


def table_missing(name: str, words: bytes) -> TableMissing:
    """What is raised where the tables leave out one that a command needs."""
    if name == EXEMPLARS.decode():
        kind, locale = (each.decode("utf-8", "replace") for each in words.split(b" ")[-2:])
        return TableMissing(f"The tables leave out `{name}`, the set {kind} of the locale {cut(locale)}.")
    source = ": the supplement that has it is missing" if name in OF_SUPPLEMENT else ""
    return TableMissing(f"The tables leave out `{name}`, which is needed{source}.")


os.register_at_fork(before=Held._rooted.acquire, after_in_parent=Held._rooted.release,
                    after_in_child=Held._rooted.release)
