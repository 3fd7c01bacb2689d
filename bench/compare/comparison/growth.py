"""How the cost of a line grows with the lines and with the rows of tables, and memory with the input."""
from statistics import median

from .inputs import joined, made_lines, made_tables, repeated
from .measure import in_rounds
from .programs import cost_of, counts_of, has_valgrind
from .speed import INSTRUCTIONS, TIME

LINES = [1_000, 10_000, 100_000]
ROWS = [100, 1_000, 8_000]
COMMANDS = ["maximize", "minimize", "canonicalize", "name"]
MEGABYTE = 1_000_000
# Runs of fewer lines are not timed: what they take beside their lines is more.
TIMED = 10_000


def costs(program, work, command, rows, count, rounds):
    """The instructions and the time of a line, over made tables with so many rows and as many lines as said."""
    tables = made_tables(work / "made.json", rows)
    both = joined(work / "made", tables, made_lines(work / "made-lines", rows, count))
    runs = [(program, command, path) for path in (both, tables)]
    counted = a_line(runs, counts_of, 1, INSTRUCTIONS, count) if has_valgrind() else "–"
    return counted if count < TIMED else f"{counted} | {a_line(runs, cost_of, rounds, TIME, count)}"


def a_line(runs, cost, rounds, unit, count):
    """What each of so many lines costs: a run with them beyond one without, as the median of some rounds."""
    found = zip(*in_rounds(runs, cost, rounds))
    return f"{median(unit.of(whole) - unit.of(part) for whole, part in found) / count:,.0f}"


def table(program, work, counts, what, sizes, rounds):
    """A table by command; sizes gives the rows and the lines of each column."""
    is_timed = [sizes(count)[1] >= TIMED for count in counts]
    yield "| command |" + "".join(f" {count:,} {what} |" + " ns |" * timed for count, timed in zip(counts, is_timed))
    yield "|---|" + "".join("---|" + "---|" * timed for timed in is_timed)
    for command in COMMANDS:
        cells = (costs(program, work, command, *sizes(count), rounds) for count in counts)
        yield f"| `{command}` | " + " | ".join(cells) + " |"


def memory_rows(programs, inputs, sizes):
    yield "| input |" + "".join(f" {program.name}: memory | seconds |" for program in programs)
    yield "|---|" + "---|---|" * len(programs)
    for size in sizes:
        path = joined(inputs.work / "large", inputs.tables)
        repeated(path, inputs.identifiers, size * MEGABYTE)
        costs = [cost_of(program, "maximize", path) for program in programs]
        cells = (f"{cost.memory / MEGABYTE:,.0f} MB | {cost.seconds:.2f}" for cost in costs)
        yield f"| {size:,} MB | " + " | ".join(cells) + " |"
        path.unlink()


def report(program, plain, inputs, sizes, rounds):
    """The section of growth, as lines of Markdown."""
    few, many = ROWS[0], LINES[-1]
    yield f"Instructions and nanoseconds a line, by the number of lines, over tables of {few:,} rows:"
    yield ""
    yield from table(program, inputs.work, LINES, "lines", lambda lines: (few, lines), rounds)
    yield ""
    yield f"The same by the number of rows, over {many:,} lines:"
    yield ""
    yield from table(program, inputs.work, ROWS, "rows", lambda rows: (rows, many), rounds)
    yield ""
    yield "The most memory that `maximize` held over CLDR's tables, by the size of its input, and its processor time:"
    yield ""
    yield from memory_rows([program, plain], inputs, sizes)
