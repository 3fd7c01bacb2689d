"""One run beside parts of it that run side by side, by GNU parallel."""
import os
import subprocess
import time

from .inputs import first_lines, joined
from .programs import Stop

COMMAND = "maximize"
BLOCK = "10M"
# The lines are written so many times, since a run of few is over before its parts have begun.
TIMES = 10


def timed(words, path, target):
    """How long a command takes on the clock, from a file to a file."""
    start = time.monotonic()
    with open(path, "rb") as stdin, open(target, "wb") as stdout:
        subprocess.run(words, stdin=stdin, stdout=stdout, stderr=subprocess.DEVNULL)
    return time.monotonic() - start


def is_same(one, other):
    return subprocess.run(["cmp", "-s", one, other]).returncode == 0


def runs(program, path):
    """Each way to run, by the words that are shown, with its own words."""
    run = program.run_words(COMMAND)
    by_pipe = ["parallel", "--pipe", "--header", "1", "-k", "--block", BLOCK]
    by_part = ["parallel", "--pipepart", "-a", str(path), "--header", "1", "-k", "--block", "-1"]
    every = str(os.cpu_count())
    yield "one run", "1", run
    yield "`parallel --pipe`", "1", [*by_pipe, "-j", "1", *run]
    yield "`parallel --pipe`", every, [*by_pipe, "-j", every, *run]
    yield "`parallel --pipepart`", every, [*by_part, "-j", every, *run]


def report(program, inputs, lines):
    """The section of parts, as lines of Markdown."""
    some = first_lines(inputs.work / "lines", inputs.identifiers, lines)
    path = joined(inputs.work / "large", inputs.tables, *[some] * TIMES)
    whole, part = inputs.work / "whole", inputs.work / "part"
    yield f"`{COMMAND}` over {lines * TIMES:,} lines and CLDR's tables, seconds on the clock:"
    yield ""
    yield "| | processors | seconds | output |"
    yield "|---|---|---|---|"
    for title, processors, words in runs(program, path):
        first = title == "one run"
        seconds = timed(words, path, whole if first else part)
        if not first and not is_same(whole, part):
            raise Stop(f"{title} on {processors} processors wrote something else than one run")
        yield f"| {title} | {processors} | {seconds:.2f} | {'' if first else 'equal to that of one run'} |"
