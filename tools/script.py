"""What the Python scripts of this repository share: their words, and the program that they are handed."""
import argparse
import os
import subprocess
import sys
from pathlib import Path

# What each program says where it is given no words.
USAGES = {
    "icu_locale_cli": "usage: icu_locale_cli COMMAND [json]",
    "icu_locale_stream": "usage: icu_locale_stream [longest N] [threshold N] [demotion N] [favor-script] [or-first] [places] [locales | bcp47 | posix] COMMAND [json [supplement]]",
}


class Words(argparse.ArgumentParser):
    """The words of a script: `--help` prints its text, and a wrong word is told in one line, with status 2."""

    def __init__(self, name, description, **kept):
        raw = argparse.RawDescriptionHelpFormatter
        super().__init__(name, description=description, **{"formatter_class": raw, "allow_abbrev": False, **kept})

    def error(self, message):
        stop(self.prog, f"{message}; --help says which words there are")


def stop(name, why):
    """One line on standard error, and status 2."""
    print(f"{name}: {why}", file=sys.stderr)
    sys.exit(2)


def the_program(name, word, wanted="icu_locale_cli"):
    """The path of a file that is the wanted program; no other is run."""
    path = Path(word).resolve()
    if not path.exists():
        stop(name, f"there is no {word}; make builds the program")
    if not (path.is_file() and os.access(path, os.X_OK) and says_its_usage(path, wanted)):
        stop(name, f"{word} is not {wanted}")
    return path


def says_its_usage(path, wanted="icu_locale_cli"):
    """Whether a program says how the wanted one is used, where it is given no words."""
    try:
        ended = subprocess.run([path], stdin=subprocess.DEVNULL, capture_output=True, check=False, timeout=10)
    except (OSError, subprocess.TimeoutExpired):
        return False
    return ended.stderr.decode(errors="replace").split("\n")[0] == USAGES[wanted]


def a_file(name, word):
    """The path of a file that is there."""
    path = Path(word)
    if not path.is_file():
        stop(name, f"there is no file {word}")
    return path


def above_zero(text):
    """A whole number above 0."""
    number = int(text)
    if number < 1:
        raise ValueError(text)
    return number
