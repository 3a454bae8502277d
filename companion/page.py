"""One touch as a page: its courses, and each lead with its rows and the blue line of chosen bells."""

from __future__ import annotations

from html import escape
from pathlib import Path
from string import Template
from typing import TYPE_CHECKING

from companion.bells import STAGE_NAMES, SYMBOLS, Row, row_text
from companion.touches import Call, Course, Lead, Touch

if TYPE_CHECKING:
    from companion.show import Shower

TEMPLATE = Path(__file__).with_name("page.html")

# The treble's line is red and the tenor's blue; further bells have these.
COLOURS = ["#0a58ca", "#2b8a3e", "#b35900", "#7b2cbf", "#087f8c", "#a61e4d", "#5c5c00"]
TREBLE_COLOUR = "#d6232a"

COLUMN, LINE, MARGIN, CALL_ROOM = 10, 12, 6, 26


def page_text(shower: Shower, touch: Touch, leads: list[Lead], bells: list[int]) -> str:
    """The page."""
    stage = shower.values.stage
    wide = MARGIN + stage * COLUMN + CALL_ROOM
    return Template(TEMPLATE.read_text(encoding="utf-8")).substitute(
        title=escape(title_of(shower, touch)),
        told=escape(told_of(shower, touch, leads)),
        calling=escape(f"{touch.length} {touch.calling}"),
        key=key_of(bells, stage),
        courses=courses_table(shower, leads),
        truth=escape(truth_of(leads)),
        leads="\n".join(figures_of(shower, leads, bells)),
        width=round(wide * 1.15),
        narrow=round(wide * 0.97),
        printed=round(wide * 0.22, 1),
    )


def title_of(shower: Shower, touch: Touch) -> str:
    names = [method.get("name") or letter for method, letter in zip(shower.values.methods, shower.values.letters)]
    if shower.callings.six_places:
        names = names[:1]
    several = "Spliced " + STAGE_NAMES[shower.values.stage]
    return f"{touch.length} {names[0] if len(names) == 1 else several}"


def told_of(shower: Shower, touch: Touch, leads: list[Lead]) -> str:
    """The touch's number, its methods, parts and music."""
    told = [f"Touch {touch.number} of its book", f"{len(leads)} leads"]
    parts = shower.values.root["query"].get("parts", 1)
    if parts > 1:
        told.append(f"{parts} equal parts")
    told += [f"{kind.name} {count}" for kind, count in zip(shower.kinds, shower.music_of(leads)) if count]
    line = "; ".join(told) + "."
    if len(shower.values.methods) > 1:
        methods = [f"{letter} is {method.get('name') or method['notation']}"
                   for method, letter in zip(shower.values.methods, shower.values.letters)]
        line += " " + ", ".join(methods) + "."
    return line


def truth_of(leads: list[Lead]) -> str:
    rows = [row for lead in leads for row in lead.rows]
    different = len(set(rows))
    if different == len(rows):
        return f"{len(rows)} rows, all different. Each stands once below, and the last is rounds."
    return f"{len(rows)} rows, of which {different} are different."


def colours_of(bells: list[int]) -> dict[int, str]:
    others = iter(COLOURS * 2)
    return {bell: TREBLE_COLOUR if bell == 1 else next(others) for bell in sorted(bells, reverse=True)}


def key_of(bells: list[int], stage: int) -> str:
    colours = colours_of(bells)
    names = {1: "the treble", stage: "the tenor"}
    return "".join(
        f'<span><i style="background:{colours[bell]}"></i>{SYMBOLS[bell - 1]}{", " + names[bell] if bell in names else ""}</span>'
        for bell in bells
    )


def courses_table(shower: Shower, leads: list[Lead]) -> str:
    courses = shower.callings.courses(leads)
    where = "calls" if shower.callings.by_tenor else "calls, by number"
    lines = [f"<tr><th>leads</th><th>{shower.callings.end_name}</th><th>{where}</th></tr>"]
    for course in courses:
        calls = " ".join(call.name for call in course.calls) or "–"
        lines.append(f'<tr><td>{course.leads}</td><td class="row">{row_text(course.end)}</td><td>{escape(calls)}</td></tr>')
    return "<table>\n" + "\n".join(lines) + "\n</table>"


def course_ends(courses: list[Course]) -> dict[int, int]:
    """The number of the course that ends with a lead, by the lead's number."""
    ends, count = {}, 0
    for number, course in enumerate(courses, start=1):
        count += course.leads
        ends[count] = number
    return ends


def figures_of(shower: Shower, leads: list[Lead], bells: list[int]) -> list[str]:
    ends = course_ends(shower.callings.courses(leads))
    figures = []
    for number, lead in enumerate(leads, start=1):
        calls = shower.callings.calls_of(lead, number)
        drawing = lead_drawing(shower, lead, bells, calls, number == 1, number in ends)
        caption = lead_caption(shower, lead, number, ends.get(number))
        figures.append(f"<figure>\n{drawing}\n<figcaption>{escape(caption)}</figcaption>\n</figure>")
    return figures


def lead_caption(shower: Shower, lead: Lead, number: int, course: int | None) -> str:
    caption = f"lead {number}"
    if len(shower.values.methods) > 1:
        caption += f", {shower.values.letters[lead.method]}"
    if course and shower.callings.by_tenor:
        caption += f", course end {course}"
    return caption


def place_x(place: int) -> float:
    return MARGIN + (place - 0.5) * COLUMN


def row_y(index: int) -> float:
    """The base line of a row; the row before the lead has index 0."""
    return LINE * (index + 1)


def row_drawing(row: Row, index: int, kind: str) -> str:
    places = " ".join(f"{place_x(place):g}" for place in range(1, len(row) + 1))
    return f'<text class="{kind}" x="{places}" y="{row_y(index):g}">{row_text(row)}</text>'


def line_drawing(rows: list[Row], bell: int, colour: str) -> str:
    """The line of a bell through rows."""
    points = " ".join(f"{place_x(row.index(bell) + 1):g},{row_y(index) - 3.5:g}" for index, row in enumerate(rows))
    return f'<polyline class="bell{SYMBOLS[bell - 1]}" stroke="{colour}" points="{points}"/>'


def lead_drawing(
    shower: Shower, lead: Lead, bells: list[int], calls: list[Call], is_first: bool, is_course_end: bool
) -> str:
    """A lead: its rows, the lines of the bells, its calls, and a rule at its end."""
    rows = [lead.before, *lead.rows]
    stage = len(lead.before)
    wide, high = MARGIN + stage * COLUMN + CALL_ROOM, LINE * len(rows) + 8
    parts = [f'<svg viewBox="0 0 {wide} {high}">']
    colours = colours_of(bells)
    parts += [line_drawing(rows, bell, colours[bell]) for bell in bells]
    parts.append(row_drawing(lead.before, 0, "start" if is_first else "head"))
    for index, row in enumerate(lead.rows, start=1):
        text = row_text(row)
        is_music = any(kind.count(text) for kind in shower.kinds)
        parts.append(row_drawing(row, index, "row music" if is_music else "row"))
    edge = MARGIN + stage * COLUMN
    rule = "course" if is_course_end else "end"
    below = row_y(len(lead.rows)) + 3
    parts.append(f'<line class="{rule}" x1="{MARGIN}" x2="{edge}" y1="{below:g}" y2="{below:g}"/>')
    for call in calls:
        parts.append(f'<text class="call" x="{edge + 3}" y="{row_y(call.row):g}">{escape(call.name)}</text>')
    return "\n".join([*parts, "</svg>"])
