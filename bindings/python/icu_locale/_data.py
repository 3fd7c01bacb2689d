"""CLDR's data inside the package, as texts of tables. docs/CLDR.md of the repository says what is in each file."""
import contextlib
import gzip
import itertools
import mmap
import os
import zlib
from pathlib import Path
from typing import Callable, Dict, Iterable, Iterator, List, Literal, Mapping, Optional, Set, Tuple, Union

from ._calls import HERE, TOP
from ._refusals import NoCldr, cut

Locales = Union[Iterable[str], Literal["all"]]
Rows = List[bytes]
# The chain of a locale; it is empty where the locale is none.
Chain = Callable[[str], List[str]]
# In the package, where tools/package-data of its repository has left it, or in Debian's package icu-locale-data.
FOLDERS = (HERE / "data", TOP / "out" / "data", Path("/usr/share/icu-locale"))
VARIABLE = "ICU_LOCALE_DATA"
BASE = "base-and-supplement"
LEAST = 4  # lines of it
ALL, FLAT = "all-but-names", "names.flat"
NO_DATA = ("this package has none of CLDR's data inside, and there is no Debian package icu-locale-data; "
           "Tables.from_cldr takes a folder of it, as Debian's package unicode-cldr-core has one")


def no_chain(_: str) -> List[str]:
    """That of a locale whose chain is not asked."""
    return []


def texts_of(locales: Iterable[str], chain: Chain = no_chain) -> Tuple[bytes, bytes]:
    """The text of the tables that have the names of some locales, and that of their supplement. `chain` tells the chain of a
    locale that CLDR has no names in."""
    folder = data_folder()
    with _opened(folder, BASE) as file:
        lines = file.read().split(b"\n")
    if len(lines) < LEAST:
        raise damaged(folder / f"{BASE}.gz", "it is too short")
    supplement, behind, *before, end = lines
    columns: List[Rows] = [[] for _ in (supplement, *before)]
    for locale, rows in _chosen(folder, locales, chain, len(columns)).items():
        for column, row in zip(columns, rows):
            if row:
                column.append(b'"%s":%s' % (locale.encode(), row))
    called, *parts = (part + b",".join(column) for part, column in zip((supplement, *before), columns))
    return b"".join([*parts, end]), called + behind


def texts_of_all() -> Tuple[bytes, bytes]:
    """The text of the tables of all locales without names, and that of their supplement."""
    folder = data_folder()
    with _opened(folder, ALL) as file:
        lines = file.read().split(b"\n")
    if len(lines) != 2:  # the supplement, and the tables
        raise damaged(folder / f"{ALL}.gz", "it has not two lines")
    return lines[1], lines[0]


def names_of_all() -> mmap.mmap:
    """The names of all locales in the flat form, as they lie in their file."""
    path = data_folder() / FLAT
    try:
        with path.open("rb") as file:
            return mmap.mmap(file.fileno(), 0, access=mmap.ACCESS_READ)
    except (OSError, ValueError) as fault:
        raise damaged(path, fault) from None


def cldr_locales() -> List[str]:
    """The locales that CLDR has names in, by which `Tables.cldr` opens them, in the order of their texts."""
    return _told(data_folder(), "locales").split()


def cldr_version() -> Optional[str]:
    """The version of CLDR whose data is there, as `41`; None where there is none, or CLDR does not tell it."""
    try:
        return _told(data_folder(), "version").strip()
    except NoCldr:
        return None


def _told(folder: Path, name: str) -> str:
    try:
        return (folder / name).read_text(encoding="ascii")
    except (OSError, ValueError) as fault:
        raise damaged(folder / name, fault) from None


def damaged(path: Path, why: object) -> NoCldr:
    """What is raised for data that is not what the package was made with."""
    return NoCldr(f"the data of CLDR in {path} is damaged: {why}")


def data_folder() -> Path:
    """Where the data is: in the folder that the variable ICU_LOCALE_DATA names, where it is set. It raises `NoCldr` where there
    is none."""
    named = os.environ.get(VARIABLE)
    for folder in (Path(named),) if named else FOLDERS:
        if (folder / f"{BASE}.gz").is_file():
            return folder
    raise NoCldr(f"{VARIABLE} names {named}, where there is no data of CLDR" if named else NO_DATA)


@contextlib.contextmanager
def _opened(folder: Path, name: str) -> Iterator[gzip.GzipFile]:
    path = folder / f"{name}.gz"
    try:
        with gzip.open(path) as file:
            yield file
    except (OSError, EOFError, zlib.error) as fault:
        raise damaged(path, fault) from None


def _rows_of(folder: Path, language: str, tables: int, wanted: Set[str]) -> Dict[str, Rows]:
    """The rows of the locales of a language, or of its first block where that has the wanted ones: one for each table, which is
    empty where there is none. The file is read to its end, where its sum is, or the first block has a sum of its own."""
    found: Dict[str, Rows] = {}
    with _opened(folder, language) as file:
        head = file.readline()
        blocks = head.rpartition(b":")[2].rstrip(b"\n").decode("ascii", "replace").split("|")
        for number, block in enumerate(blocks):
            groups = [group.split(",") for group in block.split(";")]
            lines = [file.readline() for _ in range(tables * len(groups))]
            rows = [line.rstrip(b"\n") for line in lines]
            found.update((locale, rows[place::len(groups)]) for place, group in enumerate(groups) for locale in group)
            if number == 0 < len(blocks) - 1 and wanted <= found.keys():
                if head[:8] != b"%08x" % zlib.crc32(b"".join([head[8:], *lines])):
                    raise zlib.error("its first block has another sum")
                return found
        file.read()
    return found


def _key(word: str) -> str:
    """What a locale is found by: it may be in any case, with `-` or `_`."""
    return (word.lower() if word.isascii() else word).replace("_", "-")


def in_chain(locale: str, chain: Chain, names: Mapping[str, str]) -> str:
    """The locale, or the first of its chain, whose key is there, by the name that it has there."""
    for each in itertools.chain([locale], chain(locale) if _key(locale) not in names else ()):
        if _key(each) in names:
            return names[_key(each)]
    raise NoCldr(f"CLDR has no locale {cut(locale)}")


def _chosen(folder: Path, locales: Iterable[str], chain: Chain, tables: int) -> Dict[str, Rows]:
    """The rows of some locales, in the order of their names: tables whose members come so are read in one pass."""
    if isinstance(locales, (str, bytes)):
        raise TypeError("one text is no list of locales, but for `all`, which is every one")
    names: Dict[str, str] = {}
    wanted: List[str] = []
    for word in locales:
        if not isinstance(word, str):
            raise TypeError(f"a locale is a str, and no {type(word).__name__}")
        names = names or {_key(name): name for name in _told(folder, "locales").split()}
        wanted.append(in_chain(word, chain, names))
    rows: Dict[str, Rows] = {}
    for language, its in itertools.groupby(sorted(wanted), lambda locale: locale.partition("-")[0]):
        rows.update(_rows_of(folder, language, tables, set(its)))
    try:
        return {locale: rows[locale] for locale in sorted(wanted)}
    except KeyError as fault:
        raise damaged(folder, f"there is no {fault.args[0]}") from None
