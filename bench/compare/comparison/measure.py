"""What a line costs: runs in rounds, and what one of many lines costs beyond one of a tenth of them."""
from dataclasses import dataclass
from statistics import median, quantiles
from typing import Callable

from .programs import COMMANDS

# A machine has fast and slow phases of some seconds. In a round each program runs once, so a round's ratios compare
# what ran in the same phase.
ROUNDS = 15
# Of the lines that are timed one in so many is counted under valgrind, and one in so many is for the slow programs.
COUNTED = 100
SLOW = 10
FEWEST = 1_000


@dataclass
class Unit:
    """What is measured: what it is of a cost, how many decimals are shown, and the goals, by command and by program."""

    of: Callable
    decimals: int
    goals: dict
    ahead: dict


def fewer(lines, share):
    """One line in so many, but not too few."""
    return min(lines, max(lines // share, FEWEST))


def in_rounds(runs, cost, rounds):
    """The costs of each run, which is a program, a command and an input: one of each round. Every second round goes
    through the runs backwards."""
    found = [[] for _ in runs]
    for number in range(rounds):
        for place in range(len(runs)) if number % 2 == 0 else reversed(range(len(runs))):
            found[place].append(cost(*runs[place]))
    return found


def spread(numbers):
    """The first quartile, the median and the third quartile."""
    return quantiles(numbers, n=4, method="inclusive") if len(numbers) > 1 else numbers * 3


class Runs:
    """The costs of many lines and of a tenth of them, in each program and at each command, round by round. Slow programs
    get fewer lines."""

    def __init__(self, programs, inputs, lines, cost, rounds):
        self.programs = programs
        self.found = {}
        for command in COMMANDS:
            able = [program for program in programs if command in program.commands]
            counts = [fewer(lines, SLOW) if program.is_slow else lines for program in able]
            runs = [(program, command, inputs.of(program, command, asked))
                    for program, count in zip(able, counts) for asked in (count, count // 10)]
            costs = in_rounds(runs, cost, rounds)
            for program, count, whole, part in zip(able, counts, costs[::2], costs[1::2]):
                self.found[program.name, command] = (count - count // 10, whole, part)

    def a_line(self, unit):
        """What a line costs in a unit, in each round, by program and command."""
        return {key: [(unit.of(one) - unit.of(other)) / lines for one, other in zip(whole, part)]
                for key, (lines, whole, part) in self.found.items()}


class Costs:
    """What a line costs in a unit. Lines too few to tell anything give no figure."""

    def __init__(self, runs, unit):
        self.unit = unit
        self.rounds = {key: costs for key, costs in runs.a_line(unit).items() if median(costs) > 0}

    def of(self, program, command):
        """The median of all rounds, or None."""
        costs = self.rounds.get((program.name, command))
        return costs and median(costs)

    def ratio(self, one, other, command):
        """The quartiles of the rounds' ratios of one program to another, or None."""
        costs = [self.rounds.get((program.name, command), []) for program in (one, other)]
        ratios = [first / second for first, second in zip(*costs) if first > 0 and second > 0]
        return spread(ratios) if ratios else None

    def shown(self, program, command):
        cost = self.of(program, command)
        return "–" if cost is None else f"{cost:,.{self.unit.decimals}f}"

    def shown_ratio(self, one, other, command):
        """The median of a ratio, and its quartiles where there were several rounds."""
        found = self.ratio(one, other, command)
        if found is None:
            return "–"
        low, middle, high = (f"{number:.2f}" for number in found)
        return middle if low == high else f"{middle} ({low} to {high})"

    def times(self, one, other, command):
        """How many times as much the other program costs."""
        found = self.ratio(other, one, command)
        return "–" if found is None else f"{found[1]:,.0f}"
