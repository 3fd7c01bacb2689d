"""What a new process takes up to its first right answer over CLDR's data, here and in others."""
import os
import re
import shutil
import subprocess
import time
from dataclasses import dataclass
from functools import cache
from pathlib import Path

from . import inputs, measure, programs, report as reports

HERE = programs.HERE / "opened"
LIBRARY = Path(os.environ.get("LIBRARY", programs.OUT)).resolve() / "libicu_locale.a"
DATA = Path(os.environ.get("ICU_LOCALE_DATA") or programs.ROOT / "out" / "data").resolve()
# The kinds of processes, and how those of a language run a script.
NATIVE, PYTHON, NODE = "native code", "Python", "Node.js"
RUN = {PYTHON: [programs.PYTHON, "-c"], NODE: ["node", "-e"]}
# What each command is asked, the locales of its tables, and its right answers: some name dialects. An empty process has
# no command.
MAXIMIZE, NAME = "maximize", "name light en"
ASKED = {MAXIMIZE: "zh-TW", NAME: "zh-Hant-TW"}
LOCALES = {MAXIMIZE: "", NAME: "en"}
RIGHT = {"": [""], MAXIMIZE: ["zh-Hant-TW"], NAME: ["Chinese (Traditional, Taiwan)", "Traditional Chinese (Taiwan)"]}
NOTHING, OURS = "nothing", "this "


@dataclass
class Process:
    """A new process that ends with its first answer: its kind, by what it answers, its words, and the command."""

    kind: str
    by: str
    words: list
    asks: str = ""
    stdin: Path = Path(os.devnull)


@dataclass
class Package:
    """What answers in a language: where it is from, a script that tells its version, and one for each command."""

    kind: str
    name: str
    source: str
    version: str
    scripts: dict

    def told(self):
        """Its version; None where it is not there."""
        if not shutil.which(RUN[self.kind][0]):
            return None
        ran = subprocess.run([*RUN[self.kind], self.version], capture_output=True, text=True)
        if ran.returncode:
            return programs.without(f"{self.name} for {self.kind}", self.source)
        return ran.stdout.strip()

    def processes(self):
        return [Process(self.kind, self.name, [*RUN[self.kind], script], asks) for asks, script in self.scripts.items()]


# Scripts of Node.js that write what is in place of the braces: that write it alone, and over our package.
written = "require('fs').writeSync(1, {})".format
opened = "const {{ Tables, implementation }} = require('icu_locale'); require('fs').writeSync(1, {})".format
PACKAGES = [
    Package(PYTHON, NOTHING, "Debian's package python3", "import platform; print('Python', platform.python_version())",
            {"": "pass"}),
    Package(PYTHON, "Babel", "Debian's package python3-babel", "import babel; print('Babel', babel.__version__)",
            {NAME: "import babel; print(babel.Locale.parse('zh_Hant_TW').get_display_name('en'))"}),
    Package(PYTHON, "PyICU", "Debian's package python3-icu",
            "import icu; print('PyICU', icu.VERSION, 'with ICU', icu.ICU_VERSION)",
            {NAME: "import icu; print(icu.Locale('zh_Hant_TW').getDisplayName(icu.Locale('en')))"}),
    Package(PYTHON, f"{OURS}package", "`make wheel` leaves it (PYTHON=COMMAND or PYTHONPATH=FOLDER has it)",
            "import icu_locale as it; print('icu_locale', it.__version__, 'with CLDR', it.Tables.cldr().data_name)",
            {MAXIMIZE: "import icu_locale; print(icu_locale.Tables.cldr().maximize('zh-TW'))",
             NAME: "import icu_locale; print(icu_locale.Tables.cldr(['en']).name('zh-Hant-TW', 'en'))"}),
    Package(NODE, NOTHING, "Debian's package nodejs", written("`Node.js ${process.versions.node}`"), {"": "0"}),
    Package(NODE, "`Intl`", "Debian's package nodejs",
            written("`Intl with ICU ${process.versions.icu} and CLDR ${process.versions.cldr}`"),
            {MAXIMIZE: written("new Intl.Locale('zh-TW').maximize().toString()"),
             NAME: written("new Intl.DisplayNames(['en'], { type: 'language' }).of('zh-Hant-TW')")}),
    Package(NODE, f"{OURS}package", "`make npm` leaves it (NODE_PATH=FOLDER has it)",
            opened("`icu_locale by the ${implementation} with CLDR ${Tables.cldr().dataName()}`"),
            {MAXIMIZE: opened("Tables.cldr().maximize('zh-TW')"),
             NAME: opened("Tables.cldr(['en']).name('zh-Hant-TW', 'en')")}),
]


def others_in_c(work):
    """An empty process, and ICU4C in its own form."""
    (work / "empty.c").write_text("int main(void) { return 0; }\n")
    yield Process(NATIVE, NOTHING, [programs.compiled(work / "empty", work / "empty.c")])
    path = programs.compiled(work / "uloc", HERE / "uloc.c", "-licuuc")
    yield from (Process(NATIVE, "ICU4C", [path, asks, text.replace("-", "_")], asks) for asks, text in ASKED.items())


@cache
def tables_of(work, asks):
    """The file of a command's tables, which is made once."""
    programs.need_cldr()
    return inputs.cldr_tables(work / f"{asks}.json", programs.COMMON, *LOCALES[asks].split())


def by_library(work):
    """The library for C, where it is there: over a text of tables, and over the data of packages."""
    if not LIBRARY.exists():
        if "LIBRARY" in os.environ:
            raise programs.Stop(f"missing: {LIBRARY}")
        return programs.without("the library for C", "`make c` leaves it (or LIBRARY=FOLDER)")
    programs.need(Path("/usr/include/zlib.h").exists(), "zlib1g-dev")
    path = programs.compiled(work / "ours", HERE / "ours.c", f"-I{LIBRARY.parent}", LIBRARY, "-lz")
    for asks, text in ASKED.items():
        yield Process(NATIVE, f"{OURS}library, `icu_locale_open`", [path, asks, text, tables_of(work, asks)], asks)
    if not DATA.is_dir():
        return programs.without("`icu_locale_open_cldr`", "`make out/data` makes its data (or ICU_LOCALE_DATA=FOLDER)")
    for asks, text in ASKED.items():
        yield Process(NATIVE, f"{OURS}library, `icu_locale_open_cldr`", [path, asks, text, DATA, LOCALES[asks]], asks)


def by_program(work):
    """The program, where it is there."""
    if "PROGRAM" not in os.environ and not programs.CLI.exists():
        return programs.without("icu_locale_cli", "`make` builds it (or PROGRAM=PATH)")
    [path] = programs.this_program().words
    for asks, text in ASKED.items():
        line = work / f"{asks} line"
        line.write_text(f"{text}\n")
        stdin = inputs.joined(work / f"{asks} input", tables_of(work, asks), line)
        yield Process(NATIVE, f"{OURS}program", [path, *asks.split(), "json"], asks, stdin)


def milliseconds(process, target):
    """What a new process takes, on the clock and of processors; its answer has to be right."""
    actions = [(os.POSIX_SPAWN_OPEN, 0, process.stdin, os.O_RDONLY, 0),
               (os.POSIX_SPAWN_OPEN, 1, target, os.O_WRONLY | os.O_CREAT | os.O_TRUNC, 0o600),
               (os.POSIX_SPAWN_OPEN, 2, os.devnull, os.O_WRONLY, 0)]
    start = time.monotonic()
    number = os.posix_spawnp(process.words[0], process.words, os.environ, file_actions=actions)
    usage, clock = os.wait4(number, 0)[2], time.monotonic() - start
    answer = target.read_text().split("\t")[0].strip().replace("_", "-")
    if answer not in RIGHT[process.asks]:
        raise programs.Stop(f"{process.by} of {process.kind} answers `{answer}` at {process.asks}")
    return clock * 1000, (usage.ru_utime + usage.ru_stime) * 1000


def counts(process):
    """The instructions of a native process, and how often it asks for memory, as valgrind counts them."""
    if process.kind != NATIVE or not programs.has_valgrind():
        return "– | –"
    with open(process.stdin, "rb") as stdin:
        instructions = programs.counted(process.words, stdin).instructions
        stdin.seek(0)
        said = subprocess.run(["valgrind", *process.words], stdin=stdin, capture_output=True, text=True).stderr
    return f"{instructions:,} | {re.search('total heap usage: ([0-9,]+) allocs', said)[1]}"


def cells(costs, empty):
    """What a process takes, and what that is beyond the empty one of the same round, in each round."""
    shown = "{1:.1f} ({0:.1f} to {2:.1f})".format
    for whole, part in zip(zip(*costs), zip(*empty)):
        yield shown(*measure.spread(whole))
        yield "–" if costs is empty else shown(*measure.spread([one - other for one, other in zip(whole, part)]))


def table(processes, costs):
    """A row for each process."""
    empty = {it.kind: found for it, found in zip(processes, costs) if not it.asks}
    yield ("| a new process of | by | asked | ms on the clock | beyond nothing | ms of processors | beyond nothing "
           "| instructions | requests for memory |")
    yield "|---|---|---|---|---|---|---|---|---|"
    for process, found in zip(processes, costs):
        asked, times = f"`{process.asks}`" if process.asks else "–", cells(found, empty[process.kind])
        yield f"| {process.kind} | {process.by} | {asked} | {' | '.join(times)} | {counts(process)} |"


def report(work, rounds):
    """The section of first answers, as lines of Markdown."""
    programs.need(shutil.which(programs.PYTHON), "python3 (or PYTHON=COMMAND)")
    ours = [*by_program(work), *by_library(work)]
    there = [(package, version) for package in PACKAGES if (version := package.told())]
    processes = [*others_in_c(work), *ours, *(it for package, _ in there for it in package.processes())]
    icu, _ = programs.icu_programs(work)
    versions = [programs.first_line_of(words) for words in (["cc", "--version"], [*icu.words, "versions"])]
    versions += [version for _, version in there]
    versions += [programs.first_line_of(["valgrind", "--version"])] if programs.has_valgrind() else []
    yield from reports.machine(versions)
    if not any(it.by.startswith(OURS) for it in processes):
        yield from ["", "Nothing of this repository was there: these are the others alone."]
    yield from ["", f"Each figure is the median of {rounds} rounds, with its quartiles:", ""]
    yield from table(processes, measure.in_rounds([(it, work / "answer") for it in processes], milliseconds, rounds))
