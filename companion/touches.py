"""Books and touches: a touch's leads, its calls by where the tenor is, and its courses."""

import re
from dataclasses import dataclass
from functools import cached_property

from companion import library
from companion.bells import SYMBOLS, Change, Row, ring, rounds
from companion.classes import lead_head
from companion.faults import Values
from companion.mistakes import Mistake

# A lead's method and its call, by their indices; no call where it is plain.
Step = tuple[int, int | None]


@dataclass(frozen=True)
class Lead:
    """A lead of a touch: what is rung, the row before it and its rows."""

    method: int
    mark: str
    before: Row
    rows: tuple[Row, ...]

    @property
    def after(self) -> Row:
        return self.rows[-1]


class Ringer:
    """Rings callings of a problem; leads that were rung are kept."""

    def __init__(self, values: Values):
        self.values = values
        self.steps: dict[str, tuple[int, str, list[Change]]] = {}
        self.rung: dict[tuple[Row, str], Lead] = {}
        several = len(values.methods) > 1
        for method, letter in enumerate(values.letters):
            front = letter if several else ""
            lead = values.leads[method]
            self.steps[front + "p"] = (method, "p", lead)
            for call, mark in enumerate(values.marks):
                if values.is_for(call, method):
                    changes = lead[: len(lead) - values.over(call)] + values.tunes[call]
                    self.steps[front + mark] = (method, mark, changes)
        self.width = 2 if several else 1

    def words(self, calling: str) -> list[str]:
        return [calling[at:at + self.width] for at in range(0, len(calling), self.width)]

    def lead(self, head: Row, word: str) -> Lead:
        if (head, word) not in self.rung:
            if word not in self.steps:
                raise Mistake(f"the problem has no lead “{word}”: is the book another problem's?")
            method, mark, changes = self.steps[word]
            self.rung[head, word] = Lead(method, mark, head, tuple(ring(head, changes)))
        return self.rung[head, word]

    def leads(self, calling: str) -> list[Lead]:
        """The leads of a touch, from rounds."""
        head, found = rounds(self.values.stage), []
        for word in self.words(calling):
            found.append(self.lead(head, word))
            head = found[-1].after
        return found


@dataclass(frozen=True)
class Touch:
    """A line of a book, by its number from 1."""

    number: int
    length: int
    calling: str


def read_book(data: bytes, name: str) -> list[Touch]:
    """The touches of a whole book."""
    try:
        lines = data.decode("ascii").splitlines()
    except UnicodeDecodeError:
        raise Mistake(f"{name} is no book: a byte of it is no letter, digit or blank.") from None
    if not lines or not re.fullmatch(r"touches \d+", lines[-1]):
        raise Mistake(f"{name} is no whole book: its last line is not `touches` and their number.")
    touches = []
    for number, line in enumerate(lines[:-1], start=1):
        match = re.fullmatch(r"(\d+) ([A-Za-z]+)", line)
        if not match:
            raise Mistake(f"{name} is no book: its line {number} is not a length and a calling.")
        touches.append(Touch(number, int(match[1]), match[2]))
    if len(touches) != int(lines[-1].split()[1]):
        raise Mistake(f"{name} is no whole book: it has {len(touches)} touches, and its last line says {lines[-1].split()[1]}.")
    return touches


# Calls by where the tenor is


PLACE_NAMES = {2: "I", 3: "B", 4: "F", 5: "V"}
PLACE_WORDS = {"W": "Wrong", "M": "Middle", "H": "Home", "I": "In", "B": "Before", "F": "Fourths", "V": "Fifths"}


def position_name(place: int, stage: int) -> str:
    """The calling position of a call after which the tenor stands at a place of the lead head."""
    if place == stage:
        return "H"
    if place == stage - 1:
        return "W"
    if place in PLACE_NAMES:
        return PLACE_NAMES[place]
    return "M" if place == stage - 2 else SYMBOLS[place - 1]


def call_name(mark: str, position: str) -> str:
    """A bob by its position alone, and another call with its mark before it."""
    return position if mark == "b" else mark + position


@dataclass(frozen=True)
class Call:
    """A call: its mark, its position, and its row in the lead, from 1. Where the treble works too, its position is a number."""

    mark: str
    position: str
    row: int

    @property
    def name(self) -> str:
        return call_name(self.mark, self.position)


@dataclass(frozen=True)
class Course:
    """The leads up to a course end, at which the tenor is home, and their calls."""

    leads: int
    calls: tuple[Call, ...]
    end: Row


class Callings:
    """How the calls of a problem's touches are named: by the tenor's place, or by numbers where the treble works too."""

    def __init__(self, values: Values):
        self.values = values
        self.by_tenor = all(lead_head(lead, values.stage)[0] == 1 for lead in values.leads)
        self.end_name = "course end" if self.by_tenor else "end"

    @cached_property
    def six_places(self) -> tuple[int, ...]:
        """For leads of two sixes the changes at which calls stand; none where leads are no such leads."""
        for method in library.methods().values():
            if method.calls_at and method.stage == self.values.stage and method.changes() == self.values.leads[0]:
                return method.calls_at
        return ()

    @cached_property
    def first_marks(self) -> list[str]:
        """For leads of two sixes the call at each method's first six end, as a mark; empty where it is plain."""
        at = self.six_places[0] - 1
        plain = self.values.leads[0]
        return ["" if lead[at] == plain[at] else letter.lower() for lead, letter in zip(self.values.leads, self.values.letters)]

    def calls_of(self, lead: Lead, number: int) -> list[Call]:
        """The calls of a touch's lead, by its number from 1."""
        mark = [] if lead.mark == "p" else [lead.mark]
        if self.six_places:
            first, second = self.six_places
            front = self.first_marks[lead.method]
            calls = [Call(front, str(2 * number - 1), first)] if front else []
            return calls + [Call(one, str(2 * number), second) for one in mark]
        if not mark:
            return []
        place = lead.after.index(self.values.stage) + 1
        position = position_name(place, self.values.stage) if self.by_tenor else str(number)
        return [Call(lead.mark, position, len(lead.rows))]

    def courses(self, leads: list[Lead]) -> list[Course]:
        """The courses of a touch; the last one ends it, whether the tenor is home or not."""
        found: list[Course] = []
        calls: list[Call] = []
        begun, tenor = 0, self.values.stage
        for number, lead in enumerate(leads, start=1):
            if lead.mark != "p" or self.six_places:
                calls += self.calls_of(lead, number)
            if number == len(leads) or (self.by_tenor and lead.rows[-1][-1] == tenor):
                found.append(Course(number - begun, tuple(calls), lead.after))
                calls, begun = [], number
        return found


def calling_line(courses: list[Course]) -> str:
    """The calls of all courses on one line, a bar at each course end."""
    return " | ".join(" ".join(call.name for call in course.calls) or "." for course in courses)
