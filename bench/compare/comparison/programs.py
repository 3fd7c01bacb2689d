"""The programs that are compared: where they are, how they are run, and what a run costs."""
import os
import re
import shutil
import subprocess
import sys
from dataclasses import dataclass
from pathlib import Path

from script import says_its_usage

HERE = Path(__file__).resolve().parent.parent
ROOT = HERE.parent.parent
COMMON = Path(os.environ.get("CLDR", "/usr/share/unicode/cldr/common"))
# Where Debian keeps the sources of crates and of Go's packages.
CRATES = Path("/usr/share/cargo/registry")
GO_SOURCES = Path("/usr/share/gocode")
# The program that `make` builds, what `make c` leaves, and the Python that has Debian's packages.
CLI = ROOT / "icu_locale_cli"
OUT = ROOT / "out" / "c"
PYTHON = os.environ.get("PYTHON", "/usr/bin/python3")
COMMANDS = ["maximize", "minimize", "minimize-script", "canonicalize", "direction", "negotiate", "name"]
NAMED_IN = "en"
ACCEPTED = (0, 1)
# Starts a program from a small process, since the memory of what starts it counts as its own, and says what it took.
COSTS = """
import os, sys
process = os.spawnvp(os.P_NOWAIT, sys.argv[1], sys.argv[1:])
_, status, usage = os.wait4(process, 0)
print(os.waitstatus_to_exitcode(status), usage.ru_utime + usage.ru_stime, usage.ru_maxrss * 1024, file=sys.stderr)
"""


class Stop(Exception):
    """Why a comparison stops: what is missing, or what went wrong."""


@dataclass
class Program:
    """A program, the words before those of a command, and what it can do."""

    name: str
    words: list
    commands: list
    takes_tables: bool = False
    is_counted: bool = True
    is_slow: bool = False
    name_word: str = "name"

    def run_words(self, command, locale=NAMED_IN):
        """The words of a run."""
        if self.takes_tables:
            middle = [self.name_word, "light", locale] if command == "name" else [command]
            return [*self.words, *middle, "json"]
        return [*self.words, command, *([locale] if command == "name" else [])]


@dataclass
class Cost:
    """What a run took: processor time in seconds, and the most memory in bytes."""

    seconds: float
    memory: int


@dataclass
class Counts:
    """What was counted of a run."""

    instructions: int
    mispredicted: int


def need(found, package):
    """Stops where something is missing, and names its Debian package."""
    if not found:
        raise Stop(f"missing: Debian's package {package}")


def need_cldr():
    """Stops where CLDR is missing."""
    need(COMMON.is_dir(), "unicode-cldr-core (or CLDR=FOLDER for its folder `common`)")


def without(what, source):
    """Says what is left out since it is not there, and where it is from."""
    print(f"without {what}, whose figures are left out: {source}", file=sys.stderr)


def check_packages(has_lines):
    """Stops where a package is missing that every comparison needs, or one of lines."""
    if has_lines:
        need_cldr()
    need(not has_lines or shutil.which("rustc"), "rustc")
    need(shutil.which("g++"), "g++")
    need(Path("/usr/include/unicode/uloc.h").exists(), "libicu-dev")
    for word, package in (("valgrind", "valgrind"), ("node", "nodejs"), ("parallel", "parallel")):
        if not shutil.which(word) and (has_lines or word != "parallel"):
            without(word, f"Debian's package {package}")


def has_valgrind():
    return shutil.which("valgrind") is not None


def this_program():
    """The program of this repository."""
    path = Path(os.environ.get("PROGRAM", CLI)).resolve()
    if not path.exists():
        raise Stop(f"missing: {path}, which `make` builds (or PROGRAM=PATH)")
    if not says_its_usage(path):
        raise Stop(f"{path} is not icu_locale_cli")
    return Program("this program", [str(path)], COMMANDS, takes_tables=True)


def the_stream():
    """The program of streams of this repository: its path."""
    path = Path(os.environ.get("STREAM", ROOT / "icu_locale_stream")).resolve()
    if not path.exists():
        raise Stop(f"missing: {path}, which `make` builds (or STREAM=PATH)")
    return path


def compiled(path, source, *words):
    """A program in C, built: its path."""
    subprocess.run(["cc", "-D_GNU_SOURCE", "-std=c11", "-O2", source, *words, "-o", path], check=True)
    return str(path)


def built(work, name):
    """A program of plain Rust in a folder beside this one, built: its path."""
    path = work / name
    subprocess.run(["rustc", "--edition", "2024", "-O", "-o", path, HERE / name / "main.rs"], check=True)
    return str(path)


def plain_program(work):
    """The plain Rust program."""
    return Program("plain Rust", [built(work, "plain")], COMMANDS, takes_tables=True)


def floor_program(work):
    """Plain Rust over subtags that are packed into numbers."""
    commands = ["maximize", "minimize", "minimize-script", "direction"]
    return Program("the floor", [built(work, "floor")], commands, takes_tables=True)


def by_arrays(plain):
    """The plain Rust program where it names by an array for each kind of name."""
    return Program("plain Rust by arrays", plain.words, ["name"], takes_tables=True, name_word="name-by-arrays")


def icu_programs(work):
    """The program over ICU4C, built: over language tags, and over identifiers of ICU's own form."""
    path = work / "icu"
    words = ["g++", "-std=c++17", "-O2", "-o", path, HERE / "icu.cpp", "-licuuc", "-licui18n"]
    subprocess.run(words, check=True)
    commands = [command for command in COMMANDS if command != "minimize-script"]
    by_tags = Program("ICU4C", [str(path)], commands, is_slow=True)
    return by_tags, Program("ICU4C, own form", [str(path), "own"], commands, is_slow=True)


def node_program():
    """The program over Intl, where Node.js is installed."""
    if not shutil.which("node"):
        return None
    commands = [command for command in COMMANDS if command not in ("minimize-script", "negotiate")]
    return Program("Node.js", ["node", str(HERE / "intl.mjs")], commands, is_counted=False, is_slow=True)


def crate_program(work, folder, crate, name):
    """A program over a crate, built by cargo from Debian's crate sources, where they are installed: its path."""
    if not shutil.which("cargo") or not list(CRATES.glob(f"{crate}-[0-9]*")):
        without(crate, f"Debian's packages cargo and librust-{crate}-dev")
        return None
    source = work / f"{crate}-program"
    shutil.copytree(folder, source)
    (source / ".cargo").mkdir()
    (source / ".cargo" / "config.toml").write_text(
        f'[source.crates-io]\nreplace-with = "debian"\n[source.debian]\ndirectory = "{CRATES}"\n')
    subprocess.run(["cargo", "build", "--offline", "--release", "--quiet"], cwd=source, check=True)
    return str(source / "target" / "release" / name)


def langid_program(work):
    """The program over unic-langid."""
    path = crate_program(work, HERE / "langid", "unic-langid", "langid-lines")
    return path and Program("unic-langid", [path], ["maximize", "minimize"])


def golang_program(work):
    """The program over Go's package golang.org/x/text, where that is installed. Valgrind cannot run it."""
    if not shutil.which("go") or not (GO_SOURCES / "src" / "golang.org" / "x" / "text").is_dir():
        without("Go", "Debian's packages golang-go and golang-golang-x-text-dev")
        return None
    path = work / "golang"
    paths = {"GO111MODULE": "off", "GOPATH": str(GO_SOURCES), "GOCACHE": str(work / "golang-cache"), "GOFLAGS": ""}
    words = ["go", "build", "-o", path, HERE / "golang" / "main.go"]
    subprocess.run(words, env={**os.environ, **paths}, check=True)
    return Program("Go", [str(path)], ["canonicalize", "negotiate", "name"], is_counted=False, is_slow=True)


def output_of(program, command, path, locale=NAMED_IN):
    """What a run writes, as lines."""
    with open(path, "rb") as stdin:
        ran = subprocess.run(program.run_words(command, locale), stdin=stdin, stdout=subprocess.PIPE)
    if ran.returncode not in ACCEPTED:
        raise Stop(f"{program.name} ended with status {ran.returncode} at {command}")
    return ran.stdout.decode().split("\n")[:-1]


def write_output(program, command, path, target):
    """Puts what a run writes into a file."""
    with open(path, "rb") as stdin, open(target, "wb") as stdout:
        subprocess.run(program.run_words(command), stdin=stdin, stdout=stdout)


def cost_of(program, command, path):
    """What a run costs."""
    words = [sys.executable, "-S", "-E", "-c", COSTS, *program.run_words(command)]
    with open(path, "rb") as stdin:
        ran = subprocess.run(words, stdin=stdin, stdout=subprocess.DEVNULL, stderr=subprocess.PIPE, text=True)
    status, seconds, memory = ran.stderr.split("\n")[-2].split()
    if int(status) not in ACCEPTED:
        raise Stop(f"{program.name} ended with status {status} at {command}: {ran.stderr}")
    return Cost(float(seconds), int(memory))


def counted(words, stdin=subprocess.DEVNULL):
    """The instructions of a run, and how many branches were mispredicted, as valgrind counts them."""
    tool = ["valgrind", "--tool=cachegrind", "--cachegrind-out-file=/dev/null", "--cache-sim=no", "--branch-sim=yes"]
    ran = subprocess.run([*tool, *words], stdin=stdin, stdout=subprocess.DEVNULL, stderr=subprocess.PIPE, text=True)
    if ran.returncode not in ACCEPTED:
        raise Stop(f"{words[0]} ended with status {ran.returncode} under valgrind: {ran.stderr}")
    found = (re.search(rf"{name}: +([0-9,]+)", ran.stderr) for name in ("I +refs", "Mispredicts"))
    return Counts(*(int(number[1].replace(",", "")) for number in found))


def counts_of(program, command, path):
    """What is counted of a run of lines."""
    with open(path, "rb") as stdin:
        return counted(program.run_words(command), stdin)


def first_line_of(words):
    ran = subprocess.run(words, capture_output=True, text=True)
    return (ran.stdout.strip() or ran.stderr.strip()).split("\n")[0]


def crate_version(crate):
    """The version of Debian's crate."""
    return sorted(CRATES.glob(f"{crate}-[0-9]*"))[-1].name.replace(f"{crate}-", f"{crate} ")


def versions(icu, node, langid, golang):
    """The versions of everything that is compared, one a line."""
    found = [first_line_of(["rustc", "--version"]), first_line_of(["g++", "--version"])]
    found += [first_line_of([*it.words, "versions"]) for it in (icu, node, golang) if it]
    if langid:
        found.append(crate_version("unic-langid"))
    if has_valgrind():
        found.append(first_line_of(["valgrind", "--version"]))
    if shutil.which("parallel"):
        found.append(first_line_of(["parallel", "--version"]))
    return found
