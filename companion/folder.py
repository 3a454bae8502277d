"""The folder of a search: each file stands there whole or not at all."""

import fcntl
import os
import time
from collections.abc import Iterator
from contextlib import contextmanager
from pathlib import Path
from typing import BinaryIO

from companion.mistakes import Mistake

PART = ".part"
PROBLEM, OPENING, BOOK, TIMES = "problem.toml", "opening.txt", "book.txt", "times.txt"
CUTS, BOOKS, TRAILS = "cuts", "books", "trails"
LOCK = "lock"
PAUSE = 0.1
# So long it is waited for one who only looks whether the folder is free.
SHORT_WAIT = 0.5


class Folder:
    """The folder, which belongs to one search and to one process at a time."""

    def __init__(self, top: Path):
        self.top = top

    def path(self, name: str) -> Path:
        return self.top / name

    def has(self, name: str) -> bool:
        return self.path(name).exists()

    def read(self, name: str) -> bytes:
        return self.path(name).read_bytes()

    def part(self, name: str) -> BinaryIO:
        """A new file under another name, which `keep` gives its own."""
        return self.path(name + PART).open("wb")

    def keep(self, name: str) -> None:
        """Gives a file that is written its name, once its bytes are on the disk."""
        part = self.path(name + PART)
        with part.open("rb") as file:
            os.fsync(file.fileno())
        os.replace(part, self.path(name))

    def write(self, name: str, data: bytes) -> None:
        with self.part(name) as file:
            file.write(data)
        self.keep(name)

    def drop(self, name: str) -> None:
        self.path(name).unlink(missing_ok=True)

    def names(self, folder: str) -> list[str]:
        """The files of a folder in this one, without their last four letters."""
        return sorted(file.stem for file in self.path(folder).glob("*.txt"))

    def drop_parts(self) -> None:
        """Takes away what was not whole when an earlier run ended."""
        for file in self.top.rglob("*" + PART):
            file.unlink(missing_ok=True)


def take_lock(lock: BinaryIO, patience: float) -> bool:
    """Whether the lock could be taken, for which it waits so many seconds at most."""
    until = time.monotonic() + patience
    while True:
        try:
            fcntl.flock(lock, fcntl.LOCK_EX | fcntl.LOCK_NB)
            return True
        except BlockingIOError:
            if time.monotonic() >= until:
                return False
            time.sleep(PAUSE)


@contextmanager
def open_folder(top: Path, problem: bytes, patience: float = SHORT_WAIT) -> Iterator[Folder]:
    """The folder of this problem's search, made where it isn't there, and kept from other processes.

    It waits so many seconds for one that works in it.
    """
    folder = Folder(top)
    refuse_strange(folder)
    for name in (CUTS, BOOKS, TRAILS):
        folder.path(name).mkdir(parents=True, exist_ok=True)
    with folder.path(LOCK).open("wb") as lock:
        if not take_lock(lock, patience):
            raise Mistake(f"another ./compose works in {top}.")
        folder.drop_parts()
        take_problem(folder, problem)
        yield folder


def refuse_strange(folder: Folder) -> None:
    """Refuses a folder in which something else stands than what a search begins with."""
    if not folder.top.exists() or folder.has(PROBLEM):
        return
    own = {LOCK, CUTS, BOOKS, TRAILS, PROBLEM + PART}
    if not folder.top.is_dir() or any(file.name not in own for file in folder.top.iterdir()):
        raise Mistake(f"{folder.top} is there, and no folder of a search: name one that is new.")


def take_problem(folder: Folder, problem: bytes) -> None:
    if not folder.has(PROBLEM):
        folder.write(PROBLEM, problem)
    elif folder.read(PROBLEM) != problem:
        raise Mistake(f"{folder.top} has the search of another problem ({folder.path(PROBLEM)}): name another folder.")
