"""Place notation, read and written as docs/formats.md says."""

from companion.bells import SYMBOLS, Change

CROSS: Change = ()
MOST_CHANGES = 128


class NotationFault(Exception):
    """The first fault of a notation: its name, and the byte at which it comes, counted from 0."""

    def __init__(self, name: str, at: int):
        super().__init__(f"{name} {at}")
        self.name = name
        self.at = at


class _Reader:
    """Reads a notation byte by byte into blocks of changes."""

    def __init__(self, stage: int):
        self.stage = stage
        self.blocks: list[list[Change]] = [[]]
        self.group: list[int] = []
        self.dot: int | None = None

    def end_group(self) -> None:
        if self.group:
            self.blocks[-1].append(whole_change(self.group, self.stage))
            self.group = []

    def take_place(self, place: int, at: int) -> None:
        before = self.group[-1] if self.group else 0
        if place > self.stage:
            raise NotationFault("Above", at)
        if place <= before:
            raise NotationFault("Order", at)
        if self.group and (place - before) % 2 == 0:
            raise NotationFault("Gap", at)
        self.group.append(place)
        self.dot = None

    def take_cross(self, at: int) -> None:
        if self.stage % 2:
            raise NotationFault("CrossOnOdd", at)
        self.end_group()
        self.blocks[-1].append(CROSS)
        self.dot = None

    def take_dot(self, at: int) -> None:
        self.end_group()
        if self.dot is not None or not self.blocks[-1]:
            raise NotationFault("Dot", at)
        self.dot = at

    def end_block(self, at: int, is_comma: bool) -> None:
        self.end_group()
        if self.dot is not None:
            raise NotationFault("Dot", self.dot)
        if is_comma and len(self.blocks) == 2:
            raise NotationFault("SecondComma", at)
        if not self.blocks[-1]:
            raise NotationFault("EmptyBlock", at)

    def take(self, byte: int, at: int) -> None:
        symbol = chr(byte)
        if symbol in " \t":
            return
        if symbol in SYMBOLS:
            self.take_place(SYMBOLS.index(symbol) + 1, at)
        elif symbol in "xX-":
            self.take_cross(at)
        elif symbol == ".":
            self.take_dot(at)
        elif symbol == ",":
            self.end_block(at, is_comma=True)
            self.blocks.append([])
        else:
            raise NotationFault("Symbol", at)


def whole_change(named: list[int], stage: int) -> Change:
    """The change of a group: the first and the last place are made too where they must be."""
    first = [1] if named[0] % 2 == 0 else []
    last = [stage] if (stage - named[-1]) % 2 else []
    return tuple(first + named + last)


def there_and_back(block: list[Change]) -> list[Change]:
    return block + block[-2::-1]


def read_notation(text: str, stage: int) -> list[Change]:
    """The changes that a notation spells; its first fault is raised."""
    spelled = text.encode()
    reader = _Reader(stage)
    for at, byte in enumerate(spelled):
        reader.take(byte, at)
    reader.end_block(len(spelled), is_comma=False)
    blocks = reader.blocks if len(reader.blocks) == 1 else map(there_and_back, reader.blocks)
    changes = [change for block in blocks for change in block]
    if len(changes) > MOST_CHANGES:
        raise NotationFault("Long", len(spelled))
    return changes


def change_text(change: Change) -> str:
    return "".join(SYMBOLS[place - 1] for place in change) or "x"


def write_notation(changes: list[Change]) -> str:
    """The changes in one block, with dots between groups and nowhere else."""
    text = ""
    for change in changes:
        dot = "." if text and text[-1] != "x" and change else ""
        text += dot + change_text(change)
    return text
