"""`./compose show`: a book as a table, or one touch of it."""

import argparse
import sys
from dataclasses import dataclass
from pathlib import Path

from companion import music, page, table
from companion.bells import SYMBOLS, row_text, rounds
from companion.check import read_file
from companion.faults import Fault, Values, read_values
from companion.mistakes import Mistake
from companion.touches import Callings, Lead, Ringer, Touch, calling_line, read_book

# What a table may be sorted by beside the kinds of music; these go from the least to the most.
RISING = ("number", "length", "calls", "courses")


def add_arguments(parser: argparse.ArgumentParser) -> None:
    parser.add_argument("problem", metavar="PROBLEM", help="the problem file")
    parser.add_argument("book", metavar="BOOK", help="the book that the program wrote, or - for standard input")
    words = "number, length, calls, courses, or a kind of music"
    parser.add_argument("--sort", default="number", metavar="WHAT,WHAT", help=words)
    parser.add_argument("--first", type=int, default=40, metavar="N", help="so many touches of the table; 0 is all of them")
    parser.add_argument("--music", type=Path, default=music.TABLE, metavar="FILE", help="another table of music")
    parser.add_argument("--touch", type=int, metavar="N", help="one touch, by its number in the book")
    parser.add_argument("--html", type=Path, metavar="FILE", help="write the touch as a page, with its blue line")
    parser.add_argument("--bells", metavar="BELLS", help="the bells whose line is drawn, as 18; the treble and the tenor else")


@dataclass(frozen=True)
class Shown:
    """A touch with what is told of it."""

    touch: Touch
    music: tuple[int, ...]
    calls: int
    courses: int
    calling: str


class Shower:
    """What is told of the touches of a problem."""

    def __init__(self, values: Values, kinds: list[music.Kind]):
        self.values = values
        self.kinds = kinds
        self.ringer = Ringer(values)
        self.callings = Callings(values)
        self.counted: dict[int, tuple[int, ...]] = {}

    def leads_of(self, touch: Touch) -> list[Lead]:
        """The leads of a touch, which must come home after its length."""
        leads = self.ringer.leads(touch.calling)
        if leads[-1].after != rounds(self.values.stage):
            raise Mistake(f"touch {touch.number} does not come home: is the book another problem's?")
        if sum(len(lead.rows) for lead in leads) != touch.length:
            raise Mistake(f"touch {touch.number} has not {touch.length} changes: is the book another problem's?")
        return leads

    def music_of(self, leads: list[Lead]) -> tuple[int, ...]:
        counts = [self.music_of_lead(lead) for lead in leads]
        return tuple(map(sum, zip(*counts))) if self.kinds else ()

    def music_of_lead(self, lead: Lead) -> tuple[int, ...]:
        if id(lead) not in self.counted:
            self.counted[id(lead)] = music.count_rows(self.kinds, list(lead.rows))
        return self.counted[id(lead)]

    def shown(self, touch: Touch) -> Shown:
        leads = self.leads_of(touch)
        parts = self.values.root["query"].get("parts", 1)
        courses = self.callings.courses(leads)
        part = self.callings.courses(leads[: len(leads) // parts]) if parts > 1 else courses
        calling = calling_line(part) + (f"  ({parts} parts)" if parts > 1 else "")
        calls = sum(len(course.calls) for course in courses)
        return Shown(touch, self.music_of(leads), calls, len(courses), calling)


def run(args: argparse.Namespace) -> int:
    values = read_problem(args.problem)
    touches = read_book(read_file(args.book), args.book)
    shower = Shower(values, music.read_kinds(args.music, values.stage))
    if args.touch is None:
        if args.html:
            raise Mistake("--html is for one touch: name it with --touch.")
        show_table(shower, touches, args)
        return 0
    if not 1 <= args.touch <= len(touches):
        raise Mistake(f"the book has touches 1 to {len(touches)}, and no touch {args.touch}.")
    show_touch(shower, touches[args.touch - 1], args)
    return 0


def read_problem(name: str) -> Values:
    try:
        return read_values(read_file(name))
    except Fault as fault:
        raise Mistake(f"{name} is refused: {fault.words}; `./compose check {name}` tells more.") from None


# The table


def show_table(shower: Shower, touches: list[Touch], args: argparse.Namespace) -> None:
    names = [kind.name for kind in shower.kinds]
    rows = first_rows(shower, touches, args.sort.split(","), args.first)
    spliced = len(shower.values.methods) > 1 and not shower.callings.six_places
    head = ["no", "length", "calls", *names, "courses", "calling", *(["in the book"] if spliced else [])]
    table.show(head, [table_line(one, spliced) for one in rows], sys.stdout)
    rest = len(touches) - len(rows)
    if rest:
        print(f"{rest} more; --first 0 shows all {len(touches)}.")


def first_rows(shower: Shower, touches: list[Touch], asked: list[str], first: int) -> list[Shown]:
    """The first touches in the order that is asked for. Where they need not be rung for it, only they are rung."""
    names = [kind.name for kind in shower.kinds]
    for word in asked:
        if word not in (*RISING, *names):
            raise Mistake(f"--sort takes {', '.join([*RISING, *names])}, and not “{word}”.")
    count = first if first > 0 else len(touches)
    if set(asked) <= {"number", "length"}:
        touches = sorted(touches, key=lambda touch: (touch.length if "length" in asked else 0, touch.number))
        return [shower.shown(touch) for touch in touches[:count]]
    return sorted(map(shower.shown, touches), key=lambda one: sort_key(one, asked, names))[:count]


def table_line(one: Shown, spliced: bool) -> list[str]:
    """A line of the table; of spliced methods it has the calling as it stands in the book, which tells the methods."""
    numbers = [one.touch.number, one.touch.length, one.calls, *one.music, one.courses]
    return [*map(str, numbers), one.calling, *([one.touch.calling] if spliced else [])]


def sort_key(one: Shown, asked: list[str], names: list[str]) -> list[int]:
    """Where a touch stands: kinds of music go from the most to the least, all else from the least to the most."""
    told = {"number": one.touch.number, "length": one.touch.length, "calls": one.calls, "courses": one.courses}
    return [told[word] if word in told else -one.music[names.index(word)] for word in asked] + [one.touch.number]


# One touch


def show_touch(shower: Shower, touch: Touch, args: argparse.Namespace) -> None:
    leads = shower.leads_of(touch)
    bells = drawn_bells(args.bells, shower.values.stage)
    if args.html:
        text = page.page_text(shower, touch, leads, bells)
        try:
            args.html.write_text(text, encoding="utf-8")
        except OSError as error:
            raise Mistake(f"{args.html} can't be written: {error.strerror.lower() if error.strerror else error}.") from None
        return
    print(f"{touch.length} {touch.calling}")
    lines = [[str(course.leads), row_text(course.end), " ".join(call.name for call in course.calls)]
             for course in shower.callings.courses(leads)]
    table.show(["leads", shower.callings.end_name, "calls"], lines, sys.stdout)
    for kind, count in zip(shower.kinds, shower.music_of(leads)):
        print(f"{kind.name}: {count}")
    for row, names in named_rows(shower, leads):
        print(f"{row}: {names}")


def named_rows(shower: Shower, leads: list[Lead]) -> list[tuple[str, str]]:
    """The rows of a touch that have a name."""
    found = []
    for lead in leads:
        for row in lead.rows:
            names = music.names_of(shower.kinds, row)
            if names:
                found.append((row_text(row), ", ".join(names)))
    return found


def drawn_bells(asked: str | None, stage: int) -> list[int]:
    """The bells whose line is drawn."""
    if asked is None:
        return [1, stage]
    for symbol in asked:
        if symbol not in SYMBOLS[:stage]:
            raise Mistake(f"--bells takes bells of {row_text(rounds(stage))}, and not “{symbol}”.")
    return [SYMBOLS.index(symbol) + 1 for symbol in dict.fromkeys(asked)]
