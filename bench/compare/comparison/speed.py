"""What a line costs, command by command, in each program."""
from .measure import COUNTED, Costs, Runs, Unit, fewer
from .programs import COMMANDS, Stop, by_arrays, cost_of, counts_of, has_valgrind, write_output

# The goals: at most so much of what a line costs in plain Rust, or so many branches, and so many times ahead of others.
AHEAD = {"ICU4C": 40, "ICU4C, own form": 40, "Node.js": 40}
TIME = Unit(lambda cost: cost.seconds * 1e9, 0,
            {"maximize": 0.75, "minimize": 0.50, "canonicalize": 0.90, "name": 0.60}, AHEAD | {"unic-langid": 1.5})
INSTRUCTIONS = Unit(lambda counts: counts.instructions, 0,
                    {"maximize": 0.72, "minimize": 0.40, "minimize-script": 0.48, "canonicalize": 0.75, "direction": 0.70,
                     "negotiate": 0.52, "name": 0.42}, AHEAD)
BRANCHES = Unit(lambda counts: counts.mispredicted, 1, {"maximize": 3.2, "canonicalize": 4, "name": 20}, {})


def check_equal(program, other, inputs, command, lines):
    """Stops where two programs do not write the same bytes."""
    path = inputs.of(program, command, lines)
    mine, theirs = inputs.work / "output", inputs.work / "other-output"
    write_output(program, command, path, mine)
    write_output(other, command, path, theirs)
    with open(mine, "rb") as one, open(theirs, "rb") as another:
        for place, (ours, others) in enumerate(zip(one, another), 1):
            if ours != others:
                raise Stop(f"{command}, line {place}: {ours} here, and {others} of {other.name}")
    if mine.stat().st_size != theirs.stat().st_size:
        raise Stop(f"{command}: the output of {other.name} has not the same size")


def bold(text, reaches):
    """A figure that reaches its goal is bold."""
    return f"**{text}**" if reaches else text


def ratio(costs, program, plain, command):
    """What a line costs beside plain Rust, and the goal."""
    goal, found = costs.unit.goals.get(command), costs.ratio(program, plain, command)
    shown = bold(costs.shown_ratio(program, plain, command), goal and found and found[1] <= goal)
    return f"{shown}, {goal:.2f}" if goal else shown


def times_ahead(costs, program, other, command):
    """How many times as much another program costs."""
    least, found = costs.unit.ahead.get(other.name), costs.ratio(other, program, command)
    return bold(costs.times(program, other, command), least and found and found[1] >= least)


def table(costs, program, plain, others):
    """A line's cost in this program and in plain Rust, their ratio and its goal, and how far the others are behind."""
    yield f"| command | {program.name} | {plain.name} | ratio, goal |" + "".join(f" {it.name} | times |" for it in others)
    yield "|---|---|---|---|" + "---|---|" * len(others)
    for command in COMMANDS:
        cells = [costs.shown(program, command), costs.shown(plain, command), ratio(costs, program, plain, command)]
        for other in others:
            cells += [costs.shown(other, command), times_ahead(costs, program, other, command)]
        yield f"| `{command}` | {' | '.join(cells)} |"


def table_beside(costs, program, others):
    """The cost in programs that have some of the commands alone, with this program's ratio to each."""
    yield "| command |" + "".join(f" {it.name} | ratio |" for it in others)
    yield "|---|" + "---|---|" * len(others)
    for command in COMMANDS:
        cells = []
        for other in others:
            goal, found = costs.unit.ahead.get(other.name), costs.ratio(program, other, command)
            cells += [costs.shown(other, command),
                      bold(costs.shown_ratio(program, other, command), goal and found and found[1] * goal <= 1)]
        yield f"| `{command}` | {' | '.join(cells)} |"


def section(costs, program, plain, others, beside):
    """All that is told of a unit."""
    yield from table(costs, program, plain, others)
    yield ""
    yield from table_beside(costs, program, beside)


def branches(costs, program, plain, others):
    """The mispredicted branches of a line, and how many they are to be at most."""
    yield ""
    yield "| command | goal |" + "".join(f" {it.name} |" for it in (program, plain, *others))
    yield "|---|---|" + "---|" * (2 + len(others))
    for command in COMMANDS:
        goal, found = costs.unit.goals.get(command), costs.of(program, command)
        cells = [bold(costs.shown(program, command), goal and found and found <= goal)]
        cells += [costs.shown(it, command) for it in (plain, *others)]
        yield f"| `{command}` | {goal or '–'} | {' | '.join(cells)} |"


def report(program, plain, others, beside, inputs, lines, rounds):
    """The section of speed, as lines of Markdown. `beside` has the programs that have tables of their own."""
    beside = [*beside, by_arrays(plain)]
    for other in [plain, *(it for it in beside if it.takes_tables)]:
        for command in other.commands:
            check_equal(program, other, inputs, command, lines)
    runs = Runs([program, plain, *beside, *others], inputs, lines, cost_of, rounds)
    yield f"Nanoseconds of processor time a line, over {lines:,} lines, or a tenth of them for ICU4C, Node.js and Go. Each"
    yield f"figure is the median of {rounds} rounds, and so is each ratio, with its quartiles:"
    yield ""
    yield from section(Costs(runs, TIME), program, plain, others, beside)
    if not has_valgrind():
        return
    count = fewer(lines, COUNTED)
    others, beside = ([it for it in group if it.is_counted] for group in (others, beside))
    runs = Runs([program, plain, *beside, *others], inputs, count, counts_of, rounds=1)
    yield ""
    yield f"Instructions a line, counted by valgrind over {count:,} lines, or a tenth of them for ICU4C:"
    yield ""
    yield from section(Costs(runs, INSTRUCTIONS), program, plain, others, beside)
    yield ""
    yield "Mispredicted branches a line, as valgrind simulates a processor:"
    yield from branches(Costs(runs, BRANCHES), program, plain, [*beside, *others])
