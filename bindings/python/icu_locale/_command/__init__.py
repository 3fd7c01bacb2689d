"""The command `icu-locale`: it hands texts to the library, and writes what that answers or refuses."""
import os
import signal
import sys
from typing import Any, List, Optional, Sequence

from .._calls import calls, version
from .._data import cldr_version, data_folder
from .._refusals import LineRefused, NoCldr, Refused
from .lines import (Table, Written, as_json, on_one_line, standard_input, standard_output, tell, tell_refusal, texts_of,
                    watched)
from .tasks import Task, menu, regions, task_of
from .words import COMMANDS, NAME, Stopped, about_itself, read

# Each text was answered; one was refused; the command could not go on.
DONE, LINE_REFUSED, STOPPED = 0, 1, 2


def main(words: Optional[Sequence[str]] = None) -> int:
    """Runs the command with some words, those of the program if none are handed in, and answers its status."""
    try:
        try:
            return _run(sys.argv[1:] if words is None else words)
        finally:
            if sys.stdout is not None:
                sys.stdout.flush()
    except BrokenPipeError:
        _write_nowhere()
        return 128 + signal.SIGPIPE
    except KeyboardInterrupt:
        return 128 + signal.SIGINT
    except (Stopped, Refused, OSError) as fault:
        _write_nowhere()
        tell(str(fault))
        return STOPPED


def _write_nowhere() -> None:
    """Lets go of what is written and can no longer be: the end of Python would try once more."""
    try:
        if sys.stdout is not None:
            sys.stdout.flush()
    except OSError:
        nowhere = os.open(os.devnull, os.O_WRONLY)
        os.dup2(nowhere, sys.stdout.fileno())
        os.close(nowhere)


def _run(words: Sequence[str]) -> int:
    output = standard_output()
    if not words or words[0] not in COMMANDS:
        output.write(about_itself(words))
        return DONE
    try:
        chosen = read(words)
    except SystemExit:  # the help of a command is printed
        return DONE
    if chosen.command == "version":
        output.write(_version(chosen.form))
        return DONE
    calls()  # tells where there is no library
    if chosen.command == "menu":
        return _menu(chosen, Written(chosen.form, output))
    if chosen.command == "regions":
        return _regions(chosen, Written(chosen.form, output))
    with task_of(chosen) as task:
        if chosen.form in ("csv", "tsv-input"):
            table = Table(standard_input(), chosen.form, output)
            return _answer_column(task, table, chosen.column or 1, chosen.header)
        return _answer(task, chosen, Written(chosen.form, output))


def _version(form: Optional[str]) -> str:
    """The version of the package, that of its data, and where that is."""
    try:
        data: Optional[str] = str(data_folder())
    except NoCldr:
        data = None
    told = {NAME: version(), "CLDR": cldr_version(), "data": data}
    return f"{as_json(told)}\n" if form else "".join(f"{name}: {on_one_line(each)}\n" for name, each in told.items())


def _answer(task: Task, chosen: Any, written: Written) -> int:
    """Answers each text, and tells which are refused."""
    status = DONE
    for number, text in watched(texts_of(chosen.texts)):
        try:
            answer = task(text)
        except LineRefused as refusal:
            status = LINE_REFUSED
            tell_refusal(number, text, refusal)
            written.refusal(text, refusal.name, is_block=chosen.command == "parts")
        else:
            written.answer(text, answer)
    return status


def _answer_column(task: Task, table: Table, column: int, has_header: bool) -> int:
    """Writes a table with the answers in the place of a column. All other columns, and rows without any, stay."""
    status, is_header = DONE, has_header
    for number, row in watched(table.rows):
        if row and not is_header and not _answer_cell(task, number, row, column - 1):
            status = LINE_REFUSED
        is_header = False
        table.write(row)
    return status


def _answer_cell(task: Task, number: int, row: List[str], place: int) -> bool:
    """Puts an answer in the place of a text in a row, nothing where it is refused, and says whether it was answered."""
    if place >= len(row):
        tell(f"line {number}: there is no column {place + 1}")
        return False
    text, row[place] = row[place], ""
    try:
        row[place] = on_one_line(task(text))
    except LineRefused as refusal:
        tell_refusal(number, text, refusal)
        return False
    return True


def _menu(chosen: Any, written: Written) -> int:
    """Writes the rows of a menu, and after them what was refused."""
    asked = list(texts_of(chosen.texts))
    rows, refused = menu([text for _, text in asked], chosen.language)
    for row in rows:
        if chosen.form == "json":
            written.answer(row.locale, {"own": row.own, "name": row.name})
        elif chosen.form == "tsv":
            written.answer(row.locale, f"{row.own}\t{row.name}")
        else:
            written.answer(row.locale, f"{row.locale}\t{row.own}\t{row.name}")
    for place, refusal in refused.items():
        number, text = asked[place]
        tell_refusal(number, text, refusal)
        if chosen.form:
            written.refusal(text, refusal.name)
    return LINE_REFUSED if refused else DONE


def _regions(chosen: Any, written: Written) -> int:
    """Writes the regions that have a name in a language."""
    for code, name in regions(chosen.language):
        written.answer(code, name if chosen.form else f"{code}\t{name}")
    return DONE
