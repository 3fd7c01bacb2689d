"""The command `icu-locale`: `python3 -m icu_locale --help` says more."""
import sys

from ._command import main

if __name__ == "__main__":
    sys.exit(main())
