"""Rows and changes, and the symbols and names that ringers have for bells and stages."""

from collections.abc import Iterable

SYMBOLS = "1234567890ETABCD"

STAGE_NAMES = {
    3: "Singles",
    4: "Minimus",
    5: "Doubles",
    6: "Minor",
    7: "Triples",
    8: "Major",
    9: "Caters",
    10: "Royal",
    11: "Cinques",
    12: "Maximus",
    13: "Sextuples",
    14: "Fourteen",
    15: "Septuples",
    16: "Sixteen",
}

# The bells of a row, from the first place on.
Row = tuple[int, ...]
# The places that are made in a change, in ascending order.
Change = tuple[int, ...]


def rounds(stage: int) -> Row:
    return tuple(range(1, stage + 1))


def row_text(row: Iterable[int]) -> str:
    return "".join(SYMBOLS[bell - 1] for bell in row)


def row_of(text: str) -> Row:
    return tuple(SYMBOLS.index(symbol) + 1 for symbol in text)


def after(row: Row, change: Change) -> Row:
    """The row that a change makes of a row: the bells at its places stay, the others swap in pairs."""
    bells = list(row)
    place = 1
    while place < len(bells):
        if place in change:
            place += 1
        else:
            bells[place - 1], bells[place] = bells[place], bells[place - 1]
            place += 2
    return tuple(bells)


def ring(row: Row, changes: Iterable[Change]) -> list[Row]:
    """The rows that changes make, one after another; the row before them is not among them."""
    rows = []
    for change in changes:
        row = after(row, change)
        rows.append(row)
    return rows


def times(row: Row, places: Row) -> Row:
    """The row in which the bell at each place is the one that stands in `row` at the place that `places` names."""
    return tuple(row[place - 1] for place in places)


def order_of(row: Row) -> int:
    """How often a lead with this head is rung until it comes home."""
    home = rounds(len(row))
    power, count = row, 1
    while power != home:
        power, count = times(power, row), count + 1
    return count
