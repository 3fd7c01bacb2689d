"""Names of locales in the flat form, which the library reads where it lies: a writer and a reader of it. icu_locale.h says
what the form is, and `Tables.lend_names` lends it. The library is not asked here, so that this is a second witness of it.

>>> groups = groups_of({"region/medium/light": {"en": {"150": "Europe", "US": "United States"}}})
>>> groups
{'en/region/medium/light': {'150': 'Europe', 'US': 'United States'}}
>>> flat = written(groups)
>>> flat[:8], len(flat), read(flat) == groups
(b'ICUTEXT1', 106, True)
>>> read(flat[:-1])
Traceback (most recent call last):
    ...
icu_locale.cldr.flat.NotFlat: what is at 33 in the texts, so long as 13 bytes, ends behind them
"""
import itertools
import struct
from typing import Dict, Iterator, List, Mapping, Tuple

Rows = Dict[str, str]
Groups = Dict[str, Rows]
# By marker, and then by locale, as JSON tables have them.
Names = Mapping[str, Mapping[str, Mapping[str, str]]]
# A key and its text, as bytes.
Row = Tuple[bytes, bytes]

MAGIC = b"ICUTEXT1"
HEAD = struct.Struct("<8s3I")  # and how many groups, runs and rows there are
GROUP = struct.Struct("<3I")  # the place of its name, how long that is, and the number of its run
RUN = struct.Struct("<I")  # how many rows are before its end
ROW = struct.Struct("<2I2H")  # the places of its key and of its text, and how long they are
LONGEST = 0xFFFF  # bytes of a key or of a text
LARGEST = 0xFFFFFFFF
BETWEEN = "/"  # between a locale and a marker


class NotFlat(ValueError):
    """Bytes that are no names in the flat form, or names that cannot be written in it."""


def groups_of(names: Names) -> Groups:
    """The member `names` of JSON tables by group: each is a locale and a marker with a slash between."""
    return {f"{locale}{BETWEEN}{marker}": dict(rows) for marker, table in names.items() for locale, rows in table.items()}


class Texts:
    """The texts behind the lists. Each is there once, in the order in which it is first wanted."""

    def __init__(self) -> None:
        self._places: Dict[bytes, int] = {}
        self._length = 0

    def place(self, text: bytes) -> int:
        """Where a text begins."""
        place = self._places.setdefault(text, self._length)
        if place == self._length:
            self._length += len(text)
        return place

    def whole(self) -> bytes:
        """All of them."""
        if self._length > LARGEST:
            raise NotFlat(f"the texts have {self._length} bytes, which is more than a place can tell")
        return b"".join(self._places)


def as_bytes(text: str, longest: int) -> bytes:
    """The bytes of a text that is not too long."""
    try:
        held = text.encode()
    except UnicodeEncodeError as fault:
        raise NotFlat(f"{text[:60]!r} is no text of UTF-8: {fault.reason}") from None
    if len(held) > longest:
        raise NotFlat(f"{text[:60]!r}.. has {len(held)} bytes, and the form has room for {longest}")
    return held


def written(groups: Mapping[str, Mapping[str, str]]) -> bytes:
    """Names in the flat form. Groups with the same rows have one run, and equal texts one place. The same names have the same
    bytes, in whatever order they are handed in. It raises `NotFlat` where a key or a text has over 65,535 bytes."""
    texts, runs = Texts(), {}  # type: Texts, Dict[Tuple[Row, ...], int]
    entries: List[Tuple[int, int, int]] = []
    for name, rows in sorted((as_bytes(name, LARGEST), rows) for name, rows in groups.items()):
        its = ((as_bytes(key, LONGEST), as_bytes(text, LONGEST)) for key, text in rows.items())
        run = runs.setdefault(tuple(sorted(its)), len(runs))
        entries.append((texts.place(name), len(name), run))
    ends = itertools.accumulate(map(len, runs))
    all_rows = [(texts.place(key), texts.place(text), len(key), len(text)) for run in runs for key, text in run]
    held = texts.whole()
    if max(len(entries), len(all_rows)) > LARGEST:
        raise NotFlat("there are more groups or rows than a number can tell")
    return b"".join([HEAD.pack(MAGIC, len(entries), len(runs), len(all_rows)), *(GROUP.pack(*entry) for entry in entries),
                     *map(RUN.pack, ends), *(ROW.pack(*row) for row in all_rows), held])


class Reader:
    """The texts of a file, and how each is read: it has to be among them, and to begin and to end between two characters."""

    def __init__(self, texts: bytes) -> None:
        try:
            texts.decode()
        except UnicodeDecodeError as fault:
            raise NotFlat(f"the texts are none of UTF-8: {fault.reason} at {fault.start}") from None
        self.texts = texts

    def is_between(self, place: int) -> bool:
        """Whether a place is between two characters, or at an end."""
        return place == len(self.texts) or self.texts[place] & 0xC0 != 0x80

    def text(self, place: int, length: int) -> bytes:
        """The bytes at a place."""
        if place + length > len(self.texts):
            raise NotFlat(f"what is at {place} in the texts, so long as {length} bytes, ends behind them")
        if not (self.is_between(place) and self.is_between(place + length)):
            raise NotFlat(f"what is at {place} in the texts, so long as {length} bytes, cuts a character")
        return self.texts[place:place + length]


def lists_of(flat: bytes) -> Iterator[bytes]:
    """The groups, the ends of runs, the rows and the texts of a file."""
    if len(flat) < HEAD.size or flat[:len(MAGIC)] != MAGIC:
        raise NotFlat(f"it does not begin with {MAGIC.decode()} and three numbers")
    begin = HEAD.size
    for form, many in zip((GROUP, RUN, ROW), HEAD.unpack_from(flat)[1:]):
        if begin + form.size * many > len(flat):
            raise NotFlat("its lists are longer than it is")
        yield flat[begin:begin + form.size * many]
        begin += form.size * many
    yield flat[begin:]


def read(flat: bytes) -> Groups:
    """The names of a file by group. It raises `NotFlat` where the bytes have not the form. A group and a key may be of any
    text: one that is no marker and locale, or no subtag, is never asked."""
    groups, ends, rows, texts = lists_of(bytes(flat))
    reader, runs = Reader(texts), []  # type: Reader, List[Rows]
    before = 0
    for (end,) in RUN.iter_unpack(ends):
        if not before <= end <= len(rows) // ROW.size:
            raise NotFlat("the ends of its runs fall, or one is behind all rows")
        runs.append(run_of(rows[ROW.size * before:ROW.size * end], reader))
        before = end
    if before != len(rows) // ROW.size:
        raise NotFlat("there are rows behind its last run")
    return groups_over(groups, reader, runs)


def run_of(rows: bytes, reader: Reader) -> Rows:
    """The rows of a run, whose keys rise."""
    found: Rows = {}
    last = None
    for key_at, text_at, key_length, text_length in ROW.iter_unpack(rows):
        key, text = reader.text(key_at, key_length), reader.text(text_at, text_length)
        if last is not None and key <= last:
            raise NotFlat(f"the key {key!r} comes after {last!r}, and does not rise")
        found[key.decode()] = text.decode()
        last = key
    return found


def groups_over(groups: bytes, reader: Reader, runs: List[Rows]) -> Groups:
    """The rows of each group by its name, where names rise."""
    found: Groups = {}
    last = None
    for place, length, run in GROUP.iter_unpack(groups):
        name = reader.text(place, length)
        if last is not None and name <= last:
            raise NotFlat(f"the group {name!r} comes after {last!r}, and does not rise")
        if run >= len(runs):
            raise NotFlat(f"the group {name!r} has the run {run}, which is not there")
        found[name.decode()] = dict(runs[run])
        last = name
    return found
