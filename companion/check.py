"""`./compose check`: what is wrong with a problem file, and what is taken and surely not meant."""

import argparse
import re
import sys
from pathlib import Path

from companion import engine
from companion.bells import order_of
from companion.classes import lead_head
from companion.cures import notation_cure, problem_cure
from companion.faults import NUMBERS, Fault, Values, read_values
from companion.locate import place_of
from companion.mistakes import Mistake
from companion.warnings import warnings_of

CHECKPOINT = b"ringsearch checkpoint "


def add_arguments(parser: argparse.ArgumentParser) -> None:
    parser.add_argument("file", metavar="FILE", help="a problem file, or - for standard input")


def run(args: argparse.Namespace) -> int:
    data = read_file(args.file)
    refuse_other_kinds(args.file, data)
    try:
        values = read_values(data)
    except Fault as fault:
        return tell_fault(args.file, data, fault)
    return tell_taken(args.file, data, values)


def read_file(name: str) -> bytes:
    """The bytes of a file, or of standard input."""
    if name == "-":
        return sys.stdin.buffer.read()
    try:
        return Path(name).read_bytes()
    except OSError as error:
        raise Mistake(f"{name} can't be read: {error.strerror.lower() if error.strerror else error}.") from None


def refuse_other_kinds(name: str, data: bytes) -> None:
    if data.startswith(CHECKPOINT):
        raise Mistake(f"{name} is a checkpoint and no problem file: `./ringsearch < {name}` goes on from it.")
    if re.match(rb"(\d+ [A-Za-z]+\r?\n)*touches \d+\r?\n", data):
        raise Mistake(f"{name} is a book and no problem file: `./compose show PROBLEM {name}` shows it.")


def place_words(name: str, data: bytes, fault: Fault) -> str:
    """The file, and the line and the column of the fault where they are known."""
    place = (fault.line, fault.column) if fault.line else None
    if fault.at:
        place = place_of(data.decode().removeprefix("\ufeff"), *fault.at)
    return f"{name}:{place[0]}:{place[1]}" if place else name


def cure_of(fault: Fault) -> str:
    if fault.notation:
        return notation_cure(fault.notation)
    return problem_cure(NUMBERS[fault.name], fault.name)


def tell_fault(name: str, data: bytes, fault: Fault) -> int:
    status, said = program_says(data)
    if status in (0, 3):
        print(f"{name}: the program takes this file, and ./compose check can't read it: {fault.words}.")
        return 0
    print(f"{place_words(name, data, fault)}: {fault.words}.")
    cure = cure_of(fault)
    if cure:
        print(f"  To mend, docs/formats.md says: {cure}.")
    if said is None:
        print(f"  The program, which is not built, would say: {fault.note()}")
    else:
        print(f"  The program says: {said}")
    return 2


def program_says(data: bytes) -> tuple[int | None, str | None]:
    path = engine.program()
    return engine.ask(path, data) if path else (None, None)


def tell_taken(name: str, data: bytes, values: Values) -> int:
    status, said = program_says(data)
    if status is not None and status not in (0, 3):
        print(f"{name}: the program does not take this file, and ./compose check finds nothing: {said}")
        return 2
    print(f"{name}: {'taken' if status is not None else 'nothing is wrong; the program is not built and was not asked'}.")
    for index in range(len(values.methods)):
        print(f"  {method_line(values, index)}")
    for warning in warnings_of(values):
        print(f"  Warning: {warning}")
    return 0


def method_line(values: Values, index: int) -> str:
    lead = values.leads[index]
    leads = order_of(lead_head(lead, values.stage))
    name = values.methods[index].get("name", "")
    course = f"a lead of {len(lead)} changes, a plain course of {leads} leads and {leads * len(lead)} changes"
    calls = "".join(mark for call, mark in enumerate(values.marks) if values.is_for(call, index))
    called = f", calls {', '.join(calls)}" if calls else ", no call"
    return f"{values.letters[index]}: {name + ', ' if name else ''}{course}{called}."
