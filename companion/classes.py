"""What a lead is: where its treble goes, whether it dodges, and the places made as it goes."""

from companion.bells import SYMBOLS, Change, Row, order_of, ring, rounds, times
from companion.notation import read_notation


def lead_head(changes: list[Change], stage: int) -> Row:
    return ring(rounds(stage), changes)[-1]


def path_of(bell: int, changes: list[Change], stage: int) -> list[int]:
    """The places of a bell in one lead that is rung from rounds, its first place included."""
    rows = [rounds(stage), *ring(rounds(stage), changes)]
    return [row.index(bell) + 1 for row in rows]


def course_of(changes: list[Change], stage: int) -> list[Row]:
    """The rows of the plain course."""
    return ring(rounds(stage), changes * order_of(lead_head(changes, stage)))


def hunts_of(changes: list[Change], stage: int) -> list[int]:
    """The bells that come home at each lead end."""
    head = lead_head(changes, stage)
    return [bell for bell in rounds(stage) if head[bell - 1] == bell]


def is_symmetric(changes: list[Change]) -> bool:
    """Whether the lead is the same there and back about its half lead, its last change not compared."""
    inner = changes[:-1]
    return inner == inner[::-1]


def plain_path(top: int) -> list[int]:
    """A treble that hunts to a place and back."""
    up = list(range(1, top + 1))
    return up + up[::-1]


def dodging_path(top: int) -> list[int]:
    """A treble that dodges once in each pair of places on its way to a place and back."""
    up = [place for low in range(1, top, 2) for place in (low, low + 1, low, low + 1)]
    return up + up[::-1]


def makes_inner_place(change: Change, stage: int) -> bool:
    return any(1 < place < stage for place in change)


def cross_sections(stage: int) -> range:
    """The changes of a treble dodging lead, from 0, in which the treble goes from one pair of places to the next."""
    return range(3, 2 * stage - 1, 4)


def class_of(changes: list[Change], stage: int) -> str:
    """`Plain`, `Little`, `Treble Bob`, `Delight`, `Surprise`, or `Principle` where the treble does not come home."""
    path = path_of(1, changes, stage)
    if path[-1] != 1:
        return "Principle"
    if path[:-1] == plain_path(stage):
        return "Plain"
    if stage % 2 == 0 and path[:-1] == dodging_path(stage):
        return _dodging_class(changes, stage)
    return "Little" if path[:-1] == plain_path(max(path)) else "Other"


def _dodging_class(changes: list[Change], stage: int) -> str:
    made = [makes_inner_place(changes[at], stage) for at in cross_sections(stage)]
    if all(made):
        return "Surprise"
    return "Delight" if any(made) else "Treble Bob"


def plain_bob_head(stage: int) -> Row:
    """The first lead head of Plain Bob."""
    last = SYMBOLS[stage - 1]
    if stage % 2 == 0:
        return lead_head(read_notation(f"x1{last}" * (stage // 2) + ",12", stage), stage)
    return lead_head(read_notation(f"{last}.1." * (stage // 2) + f"{last},12{last}", stage), stage)


def plain_bob_power(head: Row) -> int | None:
    """Which lead head of the plain course of Plain Bob this is, from 0 for rounds; None where it is none."""
    step = plain_bob_head(len(head))
    row, power = rounds(len(head)), 0
    while row != head:
        row, power = times(row, step), power + 1
        if row == rounds(len(head)):
            return None
    return power
