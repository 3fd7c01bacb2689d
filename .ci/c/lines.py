"""The program over Python's package: `lines.py TABLES COMMAND` answers each line of its input, and ends with the status of
the program: 0, 1 where a line is refused, and 2 with a number on standard error where there is no answer. At `negotiate`
the first line is the list, and the places of each negotiation are written, which have to be those of the line of its
answer: where they are not, the status is 3."""
import sys
from pathlib import Path

sys.path.insert(0, str(Path(__file__).resolve().parents[2] / "bindings" / "python"))
sys.dont_write_bytecode = True

from icu_locale import InvalidList, LineRefused, Refused, Tables  # noqa: E402


def listed(line):
    """The identifiers of a list: an empty line lists none."""
    return line.split(b" ") if line else []


def by_places(negotiator, line):
    """What the places of a negotiation tell, over a list in written form."""
    try:
        match = negotiator.negotiate(listed(line))
    except InvalidList:
        return "?"
    return f"{match.request}\t{negotiator.available[match.available].decode()}" if match else "none"


def write_answers(asked, command, lines):
    """Answers each line, by tables or by a negotiator, and gives the status."""
    status = 0
    for line in lines:
        try:
            answer = told = asked.answer(command, line)
        except LineRefused as refused:
            answer, told, status = f"?\t{refused.name}", "?", 1
        print(answer)
        if command == "negotiate" and by_places(asked, line) != told:
            return 3
    return status


def main():
    command = sys.argv[2]
    lines = sys.stdin.buffer.read().split(b"\n")
    if not lines[-1]:
        lines.pop()
    try:
        with Tables.from_json(Path(sys.argv[1]).read_bytes()) as tables:
            if command == "settled":
                print("yes" if tables.is_settled else "no")
                return 0
            if command == "negotiate":
                negotiator = tables.negotiator(listed(b"".join(lines[:1])))
                negotiator.negotiate([])  # tables that are not settled are told before the first request
                return write_answers(negotiator, command, lines[1:])
            return write_answers(tables, command, lines)
    except Refused as refused:
        print(refused.number, file=sys.stderr)
        return 2


if __name__ == "__main__":
    sys.exit(main())
