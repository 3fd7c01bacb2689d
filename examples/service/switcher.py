"""A language switcher: what is served to a reader, by the package in process, and what its menu says, by processes that
are kept running."""
from __future__ import annotations

import select
import subprocess
import sys
import threading
from collections.abc import Iterable
from dataclasses import dataclass, field
from pathlib import Path

sys.path.insert(0, str(Path(__file__).resolve().parents[2] / "bindings" / "python"))

from icu_locale import Tables  # noqa: E402

# How long a process may take to read its tables, or to answer a question.
SECONDS = 5.0


@dataclass
class Stream:
    """One `icu_locale_stream`, which is asked a line and answers a line. A process that dies is started again."""

    words: list[str]
    first: str
    process: subprocess.Popen[str] | None = None
    lock: threading.Lock = field(default_factory=threading.Lock)

    def ask(self, line: str) -> list[str]:
        """The answer's parts, which tabs part. Asked of a new process where the one at hand does not answer."""
        if "\n" in line:
            raise ValueError("a question is one line")
        with self.lock:
            for _ in range(2):
                try:
                    return self.asked(line)
                except OSError:
                    self.end()
        raise RuntimeError(f"{' '.join(self.words)} does not answer")

    def asked(self, line: str) -> list[str]:
        process = self.process or self.started()
        process.stdin.write(line + "\n")
        process.stdin.flush()
        if not select.select([process.stdout], [], [], SECONDS)[0]:
            raise TimeoutError
        answer = process.stdout.readline()
        if not answer.endswith("\n"):
            raise BrokenPipeError
        return answer.removesuffix("\n").split("\t")

    def started(self) -> subprocess.Popen[str]:
        """A new process that is handed its tables, which are more than it can be written before it reads. It has a session
        of its own, so that what interrupts the service from a terminal does not end it."""
        pipe = subprocess.PIPE
        self.process = subprocess.Popen(self.words, stdin=pipe, stdout=pipe, text=True, encoding="utf-8",
                                        start_new_session=True)
        limit = threading.Timer(SECONDS, self.process.kill)
        limit.start()
        try:
            self.process.stdin.write(self.first)
            self.process.stdin.flush()
        finally:
            limit.cancel()
        return self.process

    def end(self) -> None:
        """Lets the process go: no answer that it may still write is read."""
        if self.process is not None:
            self.process.kill()
            self.process.wait()
            self.process = None


class Switcher:
    """Serves one of some locales, the first where nothing is near enough. `tables` are JSON tables on one line with their
    names, and `supplement` has match rules."""

    def __init__(self, program: str, tables: str, supplement: str, available: list[str]) -> None:
        with Tables.from_json(tables, supplement) as opened:
            self.available = [opened.canonicalize(tag) for tag in available]
            self.switcher = opened.switcher(self.available, default=self.available[0])
            self.switcher.serve(None)  # refuses a supplement without match rules before anyone asks
        first = tables.strip() + "\n"
        self.direction = Stream([program, "direction", "json"], first)
        self.named = {tag: Stream([program, "name", "light", tag, "json"], first) for tag in self.available}

    def menu(self, locale: str) -> list[dict[str, object]]:
        """What each available locale is called in the language of one, and whether a part of it has no name there."""
        entries = []
        for tag in self.available:
            name, mark = self.named[locale].ask(tag)
            entries.append({"tag": tag, "name": tag if name == "?" else name, "raw": mark != "N"})
        return entries

    def answer(self, headers: Iterable[str]) -> dict[str, object]:
        """All that a page wants for a reader."""
        locale = self.switcher.serve(headers)
        direction = self.direction.ask(locale)[0]
        return {"locale": locale, "direction": "ltr" if direction == "none" else direction, "menu": self.menu(locale)}

    def end(self) -> None:
        self.switcher.close()
        for stream in [self.direction, *self.named.values()]:
            stream.end()
