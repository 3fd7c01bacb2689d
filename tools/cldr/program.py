"""Runs of the program."""
import subprocess

NOT_RUN = 77  # the status of a test that is not run, since a package is missing
REFUSED_TABLES = "tables: "
REFUSED_SUPPLEMENT = "supplement: "
LEAST_TABLES = b'{"likely_language":{"und":["en","Latn","US"]},"likely_script_region":{}}'


def run(program, words, tables, lines=()):
    """What the program says of some lines over tables: its lines, and what it says on standard error."""
    given = b"".join(line.encode() + b"\n" for line in lines)
    ended = subprocess.run([program, *words, "json"], input=tables + b"\n" + given, capture_output=True, check=False)
    return ended.stdout.decode().split("\n")[:-1], ended.stderr.decode().strip()


def reads(program, tables):
    """`Json` or `Shape` where the program refuses a text as tables, and else `holds`."""
    _, said = run(program, ["settled"], tables)
    return said[len(REFUSED_TABLES):] if said.startswith(REFUSED_TABLES) else "holds"


def reads_supplement(stream, supplement):
    """`Json` or `Shape` where the stream refuses a text as a supplement, `holds` where it takes it, else how it ended."""
    given = LEAST_TABLES + b"\n" + supplement + b"\n"
    ended = subprocess.run([stream, "fallback", "json", "supplement"], input=given, capture_output=True, check=False)
    said = ended.stderr.decode().strip()
    if said.startswith(REFUSED_SUPPLEMENT) and ended.returncode == 2:
        return said[len(REFUSED_SUPPLEMENT):]
    return "holds" if not said and ended.returncode == 0 else f"status {ended.returncode}, {said}"


def chains(stream, tables, supplement, locales):
    """The chain of each locale over tables and their supplement, of what has one."""
    given = b"".join(text + b"\n" for text in (tables, supplement, *(locale.encode() for locale in locales)))
    ended = subprocess.run([stream, "fallback", "json", "supplement"], input=given, capture_output=True, check=True)
    return [line.split(" ") for line in ended.stdout.decode().splitlines()]
