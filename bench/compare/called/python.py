"""Nanoseconds a call from Python: `python.py TABLES IDENTIFIERS OWN`, the same identifiers in ICU's own form. Each line has
a command, what it costs by the package of this repository, and by PyICU where that is installed."""
import sys
import time
from pathlib import Path
from statistics import median

sys.path.insert(0, str(Path(__file__).resolve().parents[3] / "bindings" / "python"))
sys.dont_write_bytecode = True

from icu_locale import Tables  # noqa: E402

try:
    import icu
except ImportError:
    icu = None

TIMES = 20


def one_pass(call, lines):
    """Nanoseconds a call."""
    begin = time.process_time_ns()
    for line in lines:
        call(line)
    return (time.process_time_ns() - begin) / len(lines)


def costs(calls):
    """The median of some passes of each call with its lines. The calls pass in turn."""
    passes = [[one_pass(*call) for call in calls] for _ in range(TIMES)]
    return [str(round(median(found))) for found in zip(*passes)]


def main():
    tables = Tables.from_json(Path(sys.argv[1]).read_bytes())
    lines, own = (Path(path).read_text().split("\n")[:-1] for path in sys.argv[2:4])
    theirs = {
        "maximize": lambda line: icu.Locale(line).addLikelySubtags().getName(),
        "minimize": lambda line: icu.Locale(line).minimizeSubtags().getName(),
        "canonicalize": lambda line: icu.Locale.createCanonical(line).getName(),
    }
    print(f"PyICU {icu.VERSION}" if icu else "-")
    for command, call in theirs.items():
        print(command, *costs([(getattr(tables, command), lines), *([(call, own)] if icu else [])]), "" if icu else "-")


if __name__ == "__main__":
    main()
