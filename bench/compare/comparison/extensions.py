"""What it costs to read a text with extensions and to write it again, here and in others.

Ours is what bench/calls has counted, as bench/results/README.md tells it: that script proves the libraries first.
"""
import re
import subprocess

from . import measure, programs, report as reports

TEXTS = ["en-US-u-ca-buddhist-hc-h12", "en-t-ja-m0-ungegn-x-mine", "zh-Hant-TW"]
HERE = programs.HERE / "extended"
# Instructions are what so many turns take beyond fewer ones, so that start-up drops out.
MANY, FEW = 2_200, 200
TIMED = 50_000
OURS = r"reading and writing `{}` as a locale identifier \| ([0-9,]+)"


def ours(text):
    """What bench/calls has counted for a text."""
    found = re.search(OURS.format(text), (programs.ROOT / "bench" / "results" / "README.md").read_text())
    if not found:
        raise programs.Stop(f"bench/results/README.md does not tell what bench/calls counts for {text}")
    return int(found[1].replace(",", ""))


def icu_program(work):
    path = work / "extended"
    subprocess.run(["g++", "-std=c++17", "-O2", "-o", path, HERE / "icu.cpp", "-licuuc", "-licui18n"], check=True)
    return str(path)


def said(words):
    """What a program says, word by word."""
    return subprocess.run(words, capture_output=True, text=True, check=True).stdout.split()


def collected(words):
    """The instructions of a run, as bench/calls counts them."""
    tool = ["valgrind", "--tool=callgrind", "--callgrind-out-file=/dev/null"]
    ran = subprocess.run([*tool, *words], stdout=subprocess.DEVNULL, stderr=subprocess.PIPE, text=True, check=True)
    return int(re.search(r"Collected : ([0-9]+)", ran.stderr)[1])


def instructions(words, text):
    """Instructions a turn. The text has to come back as it is."""
    if said([*words, text, "1"])[-1] != text:
        raise programs.Stop(f"{words[0]} does not write {text} as it is")
    many, few = (collected([*words, text, str(turns)]) for turns in (MANY, FEW))
    return (many - few) / (MANY - FEW)


def times_as_long(one, other, text, rounds):
    """The quartiles of the ratios of two programs' nanoseconds a turn, which run in turn."""
    costs = measure.in_rounds([[*one, text], [*other, text]], lambda *words: float(said([*words, str(TIMED)])[0]), rounds)
    return measure.spread([first / second for first, second in zip(*costs)])


def cells(text, counted, node, locale, rounds):
    """The cells of a row: ours, each peer's instructions with how many times as many that is, and Node.js's time."""
    mine = ours(text)
    yield f"{mine:,}"
    for words in counted:
        theirs = words and instructions(words, text)
        yield f"{theirs:,.0f} | {theirs / mine:.1f}" if theirs else "– | –"
    low, middle, high = times_as_long(node, locale, text, rounds) if node else (0, 0, 0)
    yield f"{middle:.2f} ({low:.2f} to {high:.2f})" if middle else "–"


def report(work, rounds):
    """The section of texts with extensions, as lines of Markdown."""
    icu, tags = icu_program(work), programs.crate_program(work, HERE / "tags", "language-tags", "tags")
    node = programs.node_program() and ["node", str(HERE / "node.mjs")]
    versions = [programs.first_line_of(words) for words in (["g++", "--version"], [icu, "versions"])]
    versions += [programs.first_line_of([*programs.node_program().words, "versions"])] if node else []
    versions += [programs.crate_version("language-tags")] if tags else []
    yield from reports.machine([*versions, programs.first_line_of(["valgrind", "--version"])])
    yield from ["", "| text | here | `uloc_forLanguageTag`, `uloc_toLanguageTag` | times | `Locale` | times | language-tags | times "
                "| Node.js: time beside `Locale` |", "|---|---|---|---|---|---|---|---|---|"]
    locale = [icu, "Locale"]
    for text in TEXTS:
        row = cells(text, [[icu, "uloc"], locale, tags and [tags]], node, locale, rounds)
        yield f"| `{text}` | {' | '.join(row)} |"
