"""What the programs are given: tables, and lines after them."""
import json
import os
import shutil
import subprocess
from pathlib import Path

from .programs import COMMON, HERE, ROOT, Stop

LOCALES = ["en", "de", "fr", "ar", "hi", "ja"]
LETTERS = "abcdefghijklmnopqrstuvwxyz"


def cldr_tables(path, *words):
    """Writes CLDR's tables to a file, on one line."""
    tool = Path(os.environ.get("CLDR_TABLES", ROOT / "tools" / "cldr-tables"))
    if not tool.exists():
        raise Stop(f"missing: {tool}, which makes tables of CLDR (or CLDR_TABLES=PATH)")
    with open(path, "wb") as stdout:
        subprocess.run([tool, *words], stdout=stdout, stderr=subprocess.DEVNULL, check=True)
    return path


def lines_of(path, *words):
    """Writes realistic lines to a file."""
    with open(path, "wb") as stdout:
        subprocess.run([HERE / "identifiers", *words], stdout=stdout, check=True)
    return path


def joined(target, *paths):
    """Writes files one after another."""
    with open(target, "wb") as written:
        for path in paths:
            with open(path, "rb") as read:
                shutil.copyfileobj(read, written)
    return target


def first_lines(target, path, count):
    """Writes the first lines of a file."""
    with open(path, "rb") as read, open(target, "wb") as written:
        for _, line in zip(range(count), read):
            written.write(line)
    return target


def repeated(target, path, size):
    """Writes a file again and again, until the result has so many bytes."""
    block = Path(path).read_bytes()
    with open(target, "ab") as written:
        while written.tell() < size:
            written.write(block)
    return target


class Inputs:
    """The tables of CLDR and realistic lines, in a folder."""

    def __init__(self, work, lines):
        self.work = work
        self.tables = cldr_tables(work / "tables.json", COMMON, *LOCALES)
        self.settled = cldr_tables(work / "settled.json", "--settled", COMMON)
        self.identifiers = lines_of(work / "identifiers", COMMON, str(lines))
        self.requests = lines_of(work / "requests", "--requests", COMMON, str(lines))

    def of(self, program, command, count):
        """The input of a command for a program: so many lines, after the tables where it takes them."""
        is_list = command == "negotiate"
        lines = self.requests if is_list else self.identifiers
        path = first_lines(self.work / f"lines-{count}", lines, count + is_list)
        if not program.takes_tables:
            return path
        return joined(self.work / f"input-{count}", self.settled if is_list else self.tables, path)


def made_language(number):
    """A language of three letters."""
    text = ""
    for _ in range(3):
        number, letter = divmod(number, 26)
        text = LETTERS[letter] + text
    return text


def made_tables(path, rows):
    """Tables with so many rows for each command, and lines of these languages, each far from the last one."""
    languages = [made_language(5 * number % 17576) for number in range(rows)]
    text = json.dumps({
        "likely_language": {"und": ["en", "Latn", "US"], "language": {name: ["Latn", "US"] for name in languages}},
        "likely_script_region": {},
        "aliases": {"language_len3": {name: "en" for name in languages}},
        "names": {"language/medium/tiny": {"en": {name: f"Language {name}" for name in languages}}},
        "essentials": {"en": {"pattern": [0, " (", 1, ")"], "separator": [0, ", ", 1]}},
    })
    Path(path).write_text(text + "\n")
    return path


def made_lines(path, rows, count):
    """Languages of the made tables, each far from the last one."""
    names = (made_language(5 * (7919 * number % rows) % 17576) for number in range(count))
    Path(path).write_text("".join(f"{name}\n" for name in names))
    return path
