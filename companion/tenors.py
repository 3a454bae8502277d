"""Patterns that keep the tenors together: each lead head at which they are split has a row that no touch may have.

The tenors are the two heaviest bells. They are together at the lead heads at which they stand as at some lead head of
the plain course. A touch begins with them together, so it is enough to forbid each split lead head that comes right
after a lead with the tenors together. It is told by itself, or by a row of each lead that it begins, of which only the
places of the treble and of the tenors are looked at.
"""

from collections.abc import Iterable
from dataclasses import dataclass

from companion.bells import SYMBOLS, Change, Row, ring
from companion.mistakes import Mistake

# The places of the two tenors at a lead head.
Pair = tuple[int, int]
# The places of the treble and of the two tenors in a row.
Places = tuple[int, int, int]
Lead = list[Change]

MOST_PATTERNS = 32


def head_row(pair: Pair, stage: int) -> Row:
    """A lead head with the tenors at these places; its other bells are of no account."""
    others = iter(range(2, stage - 1))
    fixed = {1: 1, pair[0]: stage - 1, pair[1]: stage}
    return tuple(fixed.get(place) or next(others) for place in range(1, stage + 1))


def places_in(row: Row) -> Places:
    stage = len(row)
    return row.index(1) + 1, row.index(stage - 1) + 1, row.index(stage) + 1


def lead_places(pair: Pair, lead: Lead, stage: int) -> list[Places]:
    """Where the treble and the tenors are in each row of a lead; the last one is the next lead head."""
    return [places_in(row) for row in ring(head_row(pair, stage), lead)]


def next_pair(pair: Pair, lead: Lead, stage: int) -> Pair:
    treble, *tenors = lead_places(pair, lead, stage)[-1]
    if treble != 1:
        raise Mistake("--tenors-together is for methods whose treble leads at each lead end, with calls too.")
    return tenors[0], tenors[1]


def together_pairs(plain_leads: list[Lead], stage: int, starts: Iterable[Pair] = ()) -> set[Pair]:
    """The pairs of places that plain leads lead to from home, and from other starts."""
    found: set[Pair] = set()
    waiting = [(stage - 1, stage), *starts]
    while waiting:
        pair = waiting.pop()
        if pair not in found:
            found.add(pair)
            waiting += [next_pair(pair, lead, stage) for lead in plain_leads]
    return found


def allowed_places(together: set[Pair], leads: list[Lead], stage: int) -> set[Places]:
    """What the rows show of leads that begin and end with the tenors together."""
    allowed = set()
    for pair in together:
        for lead in leads:
            if next_pair(pair, lead, stage) in together:
                allowed.update(lead_places(pair, lead, stage))
    return allowed


def split_pairs(together: set[Pair], leads: list[Lead], stage: int) -> set[Pair]:
    """Where the tenors are at the first lead head of a touch at which they are split."""
    ends = {next_pair(pair, lead, stage) for pair in together for lead in leads}
    return ends - together


def telling_places(together: set[Pair], leads: list[Lead], stage: int) -> dict[Pair, list[set[Places]]]:
    """For each such lead head, and each lead from it, what its rows show and no allowed row does: one is to be forbidden."""
    allowed = allowed_places(together, leads, stage)
    return {
        pair: [{(1, *pair), *lead_places(pair, lead, stage)[:-1]} - allowed for lead in leads]
        for pair in sorted(split_pairs(together, leads, stage))
    }


def hitting_set(wanted: list[set[Places]]) -> list[Places]:
    """A few places such that each set has one of them: again and again the one that most sets have."""
    chosen, left = [], list(wanted)
    while left:
        candidates = sorted(set().union(*left))
        best = max(candidates, key=lambda places: sum(places in one for one in left))
        chosen.append(best)
        left = [one for one in left if best not in one]
    return sorted(chosen)


def pattern_text(places: Places, stage: int) -> str:
    cells = ["?"] * stage
    for place, bell in zip(places, (1, stage - 1, stage)):
        cells[place - 1] = SYMBOLS[bell - 1]
    return "".join(cells)


@dataclass(frozen=True)
class TenorPatterns:
    """Patterns that no row may fit, and whether lead heads are allowed that no row tells, as where a single swaps the tenors."""

    patterns: list[str]
    is_wider: bool


def tenor_patterns(plain_leads: list[Lead], leads: list[Lead], stage: int) -> TenorPatterns:
    """Patterns that forbid each split lead head that can be told, and no lead with the tenors together."""
    course = together_pairs(plain_leads, stage)
    together, hidden = course, {(stage - 1, stage)}
    while hidden:
        together = together | together_pairs(plain_leads, stage, hidden)
        telling = telling_places(together, leads, stage)
        hidden = {pair for pair, shown in telling.items() if not all(shown)}
    if not telling:
        raise Mistake("--tenors-together asks nothing here: no lead parts the tenors, or no row tells that they are parted.")
    chosen = hitting_set([one for shown in telling.values() for one in shown])
    if len(chosen) > MOST_PATTERNS:
        raise Mistake(f"--tenors-together takes {len(chosen)} patterns here, and a file has room for {MOST_PATTERNS}.")
    if not forbids_splits_alone(chosen, together, leads, stage):
        raise Mistake("--tenors-together found patterns that are not right: this is a fault of ./compose.")
    return TenorPatterns([pattern_text(places, stage) for places in chosen], together != course)


def forbids_splits_alone(chosen: Iterable[Places], together: set[Pair], leads: list[Lead], stage: int) -> bool:
    """Whether each lead that begins at a first split lead head has a forbidden row, and none with the tenors together."""
    forbidden = set(chosen)
    for pair in together | split_pairs(together, leads, stage):
        for lead in leads:
            shown = {(1, *pair), *lead_places(pair, lead, stage)}
            if pair not in together and not shown & forbidden:
                return False
            if pair in together and next_pair(pair, lead, stage) in together and shown & forbidden:
                return False
    return True
