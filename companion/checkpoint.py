"""Checkpoints, blocks and books, in the form that docs/formats.md tells."""

import re
from collections.abc import Iterator
from dataclasses import dataclass
from pathlib import Path
from typing import BinaryIO

from companion.mistakes import Mistake

CHUNK = 1 << 20
MOST_STEPS = 24


@dataclass(frozen=True)
class Leads:
    """How the leads of a problem's callings are written, by the letters of its methods in the order of the file."""

    letters: str
    # How many kinds of leads there are: a node has no more children.
    steps: int = MOST_STEPS

    def width(self) -> int:
        """The bytes of a lead: a method's letter and a mark, or of one method the mark alone."""
        return 2 if len(self.letters) > 1 else 1

    def sorted(self, lines: list[bytes]) -> list[bytes]:
        """Lines of a book in its order: by length, and then by leads, where plain comes before calls."""
        ranks = bytes(range(2, 2 + len(self.letters)))
        order = bytes.maketrans(self.letters.encode() + b"p", ranks + b"\x01")
        return sorted(lines, key=lambda line: (int(line.split()[0]), line.split()[1].translate(order)))


@dataclass
class Checkpoint:
    """What a search has found, as lines of the book in its order, and the nodes that are left, each a calling."""

    problem: bytes
    found: list[bytes]
    nodes: list[bytes]


def read_checkpoint(text: bytes, leads: Leads) -> Checkpoint:
    """What a checkpoint holds that the program wrote."""
    first = text.index(b"\n") + 1
    second = text.index(b"\n", first) + 1
    end = second + int(text[first:second].split()[1])
    lines = text[end + 1:].split(b"\n")
    count = int(lines[0].split()[1])
    return Checkpoint(text[second:end], lines[1:1 + count], list(_nodes(lines[2 + count:], leads.width())))


def _nodes(lines: list[bytes], width: int) -> Iterator[bytes]:
    before = b""
    for line in lines:
        words = line.split()
        if len(words) == 2 and words[0] != b"job":
            before = before[:int(words[0]) * width] + (words[1] if words[1] != b"-" else b"")
            yield before


def checkpoint_text(checkpoint: Checkpoint, leads: Leads) -> bytes:
    """The checkpoint with its nodes in one job."""
    width = leads.width()
    lines = [head(checkpoint.problem, len(checkpoint.found)), *(line + b"\n" for line in checkpoint.found)]
    if not checkpoint.nodes:
        return b"".join([*lines, NO_NODES])
    lines.append(b"jobs 1\njob %d\n" % len(checkpoint.nodes))
    before = b""
    for node in checkpoint.nodes:
        shared = shared_leads(before, node, width)
        lines.append(b"%d %b\n" % (shared, node[shared * width:] or b"-"))
        before = node
    return b"".join([*lines, b"end\n"])


NO_NODES = b"jobs 0\nend\n"


def head(problem: bytes, found: int) -> bytes:
    """A checkpoint's lines before those of its found touches."""
    return b"ringsearch checkpoint 2\nproblem %d\n%b\nfound %d\n" % (len(problem), problem, found)


def shared_leads(before: bytes, node: bytes, width: int) -> int:
    """With how many leads two callings begin alike."""
    most = min(len(before), len(node)) // width
    return next((lead for lead in range(most) if before[:(lead + 1) * width] != node[:(lead + 1) * width]), most)


# Blocks


def block_head(size: int) -> bytes:
    return b"block %d\n" % size


def block_places(path: Path, place: int = 0) -> list[tuple[int, int]]:
    """Where the bodies of a file's whole blocks stand, from the block at a place on, and their lengths."""
    places = []
    size = path.stat().st_size
    with path.open("rb") as file:
        while place < size:
            file.seek(place)
            told = re.fullmatch(rb"block ([1-9]\d*)\n", file.readline(40))
            if not told or file.tell() + int(told[1]) > size:
                break
            places.append((file.tell(), int(told[1])))
            place = file.tell() + int(told[1])
    return places


def body_at(path: Path, place: tuple[int, int]) -> bytes:
    with path.open("rb") as file:
        file.seek(place[0])
        return file.read(place[1])


def found_at(path: Path, place: tuple[int, int], most: int) -> tuple[int, list[bytes]]:
    """How many touches the checkpoint at a place has found, and the first of them, at most so many."""
    with path.open("rb") as file:
        file.seek(place[0])
        file.readline()
        file.seek(int(file.readline().split()[1]) + 1, 1)
        count = int(file.readline().split()[1])
        return count, [file.readline().rstrip(b"\n") for _ in range(min(count, most))]


# Books


def touches_of(book: Path) -> int | None:
    """The number of touches that a book's last line tells, or None where it is not there or not whole."""
    if not book.exists():
        return None
    with book.open("rb") as file:
        file.seek(max(0, book.stat().st_size - 40))
        told = re.search(rb"(?:^|\n)touches (\d+)\n$", file.read())
    return int(told[1]) if told else None


def whole_touches(book: Path) -> int:
    """The number of touches of a book, which must be whole."""
    touches = touches_of(book)
    if touches is None:
        raise Mistake(f"{book} is not whole: take it away, and the same command writes it again.")
    return touches


def first_touches(book: Path, most: int) -> list[bytes]:
    """The first touches of a book, at most so many."""
    with book.open("rb") as file:
        lines = [file.readline().rstrip(b"\n") for _ in range(most)]
    return [line for line in lines if line and not line.startswith(b"touches")]


def put_book(out: BinaryIO, problem: bytes, book: Path) -> None:
    """A book as a block, whose body is the checkpoint without nodes that has found its touches."""
    touches = whole_touches(book)
    lines = book.stat().st_size - len(b"touches %d\n" % touches)
    front = head(problem, touches)
    out.write(block_head(len(front) + lines + len(NO_NODES)) + front)
    with book.open("rb") as file:
        copy_bytes(file, out, lines)
    out.write(NO_NODES)


def put_file(out: BinaryIO, path: Path) -> None:
    """A file as a block."""
    size = path.stat().st_size
    out.write(block_head(size))
    with path.open("rb") as file:
        copy_bytes(file, out, size)


def copy_bytes(file: BinaryIO, out: BinaryIO, size: int) -> None:
    while size:
        part = file.read(min(size, CHUNK))
        if not part:
            raise OSError(0, "a file is shorter than it was")
        out.write(part)
        size -= len(part)
