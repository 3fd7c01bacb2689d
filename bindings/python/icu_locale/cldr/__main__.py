"""Writes the JSON tables of a CLDR folder: `python3 -m icu_locale.cldr --help` says more."""
import argparse
import sys

from .command import main


class Words(argparse.ArgumentParser):
    """The words of the command: a wrong one is told in one line, with status 2."""

    def error(self, message):
        self.exit(2, f"{self.prog}: {message}; --help says which words there are\n")


sys.exit(main(Words, "python3 -m icu_locale.cldr", sys.argv[1:]))
