"""CLDR's suite of names of locales, localeDisplayName.txt, as Debian's package unicode-cldr-core has it, and what the stream
calls locales."""
import json
import subprocess
from pathlib import Path

COMMON = Path("/usr/share/unicode/cldr/common")
SUITE = COMMON / "testData" / "localeIdentifiers" / "localeDisplayName.txt"
TOOL = Path(__file__).resolve().parents[1] / "cldr-tables"


def rows_of(path):
    """Each locale of the suite and its name in English."""
    lines = (line.partition("#")[0].strip() for line in path.read_text("utf-8").splitlines())
    return [tuple(part.strip() for part in line.split(";", 1)) for line in lines if ";" in line]


def made(*words):
    return subprocess.run([TOOL, *words], capture_output=True, text=True, check=True).stdout


def tables_of(locales, is_standard=False):
    """The tables of some locales, where wanted without names of dialects, and their supplement."""
    tables = made(COMMON, *locales)
    return without_dialects(tables) if is_standard else tables, made("--supplement", COMMON, *locales)


def without_dialects(tables):
    """Tables whose names of languages are those of languages alone."""
    tables = json.loads(tables)
    for marker, by_locale in tables["names"].items():
        if marker.startswith("language/"):
            for locale, rows in by_locale.items():
                by_locale[locale] = {key: name for key, name in rows.items() if "-" not in key}
    return json.dumps(tables) + "\n"


def names_by(stream, tables, supplement, locale, asked):
    """The name of each locale asked in the language of one, and its mark."""
    text = tables + supplement + "".join(f"{line}\n" for line in asked)
    words = [stream, "locales", "name", "heavy", locale, "json", "supplement"]
    done = subprocess.run(words, input=text, capture_output=True, text=True, check=True)
    return [tuple(line.split("\t")) for line in done.stdout.splitlines()]
