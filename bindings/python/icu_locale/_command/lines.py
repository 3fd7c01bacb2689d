"""What `icu-locale` reads and writes: lines, columns of a table, JSON."""
import contextlib
import csv
import importlib
import io
import itertools
import json
import sys
import time
from typing import Any, BinaryIO, Dict, Iterable, Iterator, List, Optional, TextIO, Tuple, TypeVar

from .._refusals import LineRefused, cut
from .tasks import Answer, Report
from .words import NAME, Stopped

# What a line is called in messages by its number: an argument has 0.
Numbered = Tuple[int, str]
MARK = "\ufeff"  # which may stand before a text, and is no part of it
NONE = "none"
# After how many lines a progress line is brought up to date, and after how many seconds there is one.
EVERY, SECONDS = 1000, 2.0
MOST_OF_A_CELL = 2 ** 31 - 1

_Each = TypeVar("_Each")


def printable(text: str) -> str:
    """A text on one line, as a terminal may show it. A byte that was none of UTF-8 is shown as \\xff is."""
    return text if text.isprintable() else "".join(map(_printable, text))


def _printable(each: str) -> str:
    if each.isprintable():
        return each
    return f"\\x{ord(each) - 0xDC00:02x}" if "\udc80" <= each <= "\udcff" else each.encode("unicode_escape").decode()


def tell(message: str) -> None:
    """One line on standard error."""
    if sys.stderr is not None:
        with contextlib.suppress(OSError):
            print(f"{NAME}: {printable(message)}", file=sys.stderr, flush=True)


def tell_refusal(number: int, text: str, refusal: LineRefused) -> None:
    """Why a text is refused, and which piece of it cannot be there, if that is one among others."""
    piece = refusal.subtag or text
    where = "" if piece == text or " " in piece else f": {cut(printable(piece))} cannot be there"
    tell(f"{f'line {number}: ' if number else ''}{cut(printable(text)) or repr('')}: {refusal.name}{where}")


def standard_input() -> BinaryIO:
    """The bytes of standard input."""
    if sys.stdin is None:
        raise Stopped("there is no standard input")
    return sys.stdin.buffer


def standard_output() -> TextIO:
    """Standard output, which takes any text that was read."""
    if sys.stdout is None:
        raise Stopped("there is no standard output")
    if isinstance(sys.stdout, io.TextIOWrapper):
        sys.stdout.reconfigure(encoding="utf-8", errors="surrogateescape", line_buffering=sys.stdout.isatty())
    return sys.stdout


def decoded(source: BinaryIO) -> Iterator[str]:
    """The lines of some bytes with their ends, without the mark that may stand before the first."""
    for number, line in enumerate(source):
        text = line.decode("utf-8", "surrogateescape")
        yield text[1:] if number == 0 and text.startswith(MARK) else text


def end_of(line: str) -> str:
    """How a line ends."""
    return "\r\n" if line.endswith("\r\n") else "\n" if line.endswith("\n") else ""


def texts_of(words: Iterable[str]) -> Iterator[Numbered]:
    """What is asked: the arguments, or the lines of standard input where there are none."""
    asked = list(words)
    if asked:
        yield from ((0, each) for each in asked)
    else:
        for number, line in enumerate(decoded(standard_input()), 1):
            yield number, line[:len(line) - len(end_of(line))]


def rows_of_csv(lines: Iterator[str]) -> Iterator[Tuple[int, List[str]]]:
    """The rows of CSV, each with the number of its first line."""
    csv.field_size_limit(MOST_OF_A_CELL)
    reader = csv.reader(lines, strict=True)
    while True:
        number = reader.line_num + 1
        try:
            yield number, next(reader)
        except StopIteration:
            return
        except csv.Error as fault:
            raise Stopped(f"line {number}: this is no CSV: {fault}") from None


def rows_of_tsv(lines: Iterator[str]) -> Iterator[Tuple[int, List[str]]]:
    """The rows of lines with tabs."""
    for number, line in enumerate(lines, 1):
        row = line[:len(line) - len(end_of(line))]
        yield number, row.split("\t") if row else []


class Table:
    """A table that is read, and written with the same ends of lines."""

    def __init__(self, source: BinaryIO, form: str, output: TextIO) -> None:
        lines = decoded(source)
        first = next(lines, "")
        end = end_of(first) or "\n"
        again = itertools.chain([first] if first else [], lines)
        self.rows = rows_of_csv(again) if form == "csv" else rows_of_tsv(again)
        self._csv = csv.writer(output, lineterminator=end) if form == "csv" else None
        self._output, self._end = output, end

    def write(self, row: List[str]) -> None:
        """Writes a row."""
        if self._csv:
            self._csv.writerow(row)
        else:
            self._output.write("\t".join(row) + self._end)


def on_one_line(answer: Answer) -> str:
    """An answer without a line feed."""
    if isinstance(answer, dict):
        return ", ".join(f"{name}: {each}" for name, each in _shown(answer))
    if isinstance(answer, Report):
        return str(answer)
    return NONE if answer is None else answer if isinstance(answer, str) else " ".join(answer)


def _shown(answer: Dict[str, Any]) -> Iterator[Tuple[str, str]]:
    """The names and texts of an answer: what is empty is left out."""
    for name, each in answer.items():
        if isinstance(each, dict):
            each = " ".join(f"{key}={value}" for key, value in each.items())
        if each:
            yield name, each if isinstance(each, str) else " ".join(each)


def as_json(value: Any) -> str:
    """A value as JSON on one line. A byte that was none of UTF-8 is an escaped half of a surrogate pair."""
    told = json.dumps(value, ensure_ascii=False)
    return told if _is_text(told) else json.dumps(value)


def _is_text(text: str) -> bool:
    try:
        text.encode()
    except UnicodeEncodeError:
        return False
    return True


class Written:
    """Answers as they are written: plain, with tabs, or as JSON."""

    def __init__(self, form: Optional[str], output: TextIO) -> None:
        self._form, self._output, self._has_blocks = form, output, False

    def answer(self, text: str, answer: Answer) -> None:
        """Writes an answer to a text."""
        if self._form == "json":
            self._line(as_json({"input": text, "answer": answer}))
        elif self._form == "tsv":
            self._line("\t".join((printable(text), on_one_line(answer), "ok")))
        elif isinstance(answer, dict):
            self._block([f"{name}: {each}" for name, each in _shown(answer)])
        else:
            self._line(on_one_line(answer))

    def refusal(self, text: str, name: str, is_block: bool = False) -> None:
        """Writes that a text is refused: in a plain form an empty line, or an empty block."""
        if self._form == "json":
            self._line(as_json({"input": text, "refusal": name}))
        elif self._form == "tsv":
            self._line("\t".join((printable(text), "", name)))
        elif is_block:
            self._block([])
        else:
            self._line("")

    def _line(self, line: str) -> None:
        self._output.write(line + "\n")

    def _block(self, lines: List[str]) -> None:
        """Several lines, after an empty one if there were some before."""
        for line in ([""] if self._has_blocks else []) + lines:
            self._line(line)
        self._has_blocks = True


def watched(asked: Iterable[_Each]) -> Iterator[_Each]:
    """The same. Where there are many, and standard error is a terminal, tqdm shows how many are done, if it is there."""
    bar: Any = None
    begun, is_shown = time.monotonic(), _is_progress_shown()
    for done, each in enumerate(asked, 1):
        yield each
        if is_shown and done % EVERY == 0:
            if bar is not None:
                bar.update(EVERY)
            elif time.monotonic() - begun > SECONDS:
                bar = _progress(done)
                is_shown = bar is not None
    if bar is not None:
        bar.close()


def _is_progress_shown() -> bool:
    """Whether standard error alone is a terminal."""
    others = (sys.stdin, sys.stdout)
    return sys.stderr is not None and sys.stderr.isatty() and not any(each is not None and each.isatty() for each in others)


def _progress(done: int) -> Any:
    try:
        return importlib.import_module("tqdm").tqdm(initial=done, unit=" lines", file=sys.stderr, leave=False)
    except ImportError:
        return None
