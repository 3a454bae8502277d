"""The tasks of a search on many machines: what an engine is given, and what is told of it."""

import re
import shlex
import signal
from dataclasses import dataclass
from pathlib import Path

from companion import folder as files
from companion.checkpoint import touches_of
from companion.engine import NO_MEMORY, TOP, signal_name
from companion.folder import Folder
from companion.shards import Shard, book_file

LIST, SCRIPT, PROGRAM, TOLD = "tasks.txt", "task.sh", "ringsearch", "told"
# What a task writes has a name with this end until it is whole.
OWN = ".task"
WORK, DONE, FAILED = "work", "done", "failed"
# What a shell makes of a signal. By these an engine ends a task that it gives up: HUP comes of an end of ssh.
BY_SIGNAL = 128
ENDED = tuple(BY_SIGNAL + name for name in (signal.SIGHUP, signal.SIGTERM, signal.SIGKILL))
FORM = re.compile(r"(work|done|failed) (\S+) (\S+) (\d+) ?(?:(-?\d+)(?: (\d+) ?(.*))?)?\n")


@dataclass(frozen=True)
class Told:
    """What is told of the last task of a shard."""

    state: str
    machine: str
    # Its process, or the number that Slurm gave it.
    id: str
    began: int
    seconds: int = 0
    status: int = 0
    line: str = ""

    def is_given_up(self, longest: float) -> bool:
        """Whether it took longer than the engine lets a task, or more memory than there was. Its seconds may be off by one."""
        took_long = self.status in ENDED and self.seconds >= longest - 1
        return self.state == FAILED and (took_long or self.status == NO_MEMORY)

    def why(self) -> str:
        if self.state == WORK:
            return "it ended without a word"
        if self.status > BY_SIGNAL:
            return f"ended by the signal {signal_name(self.status - BY_SIGNAL)} after {self.seconds} s"
        return f"status {self.status}" + (f", {self.line}" if self.line else "")


def read_told(folder: Folder, name: str) -> Told | None:
    """What is told of a shard, if anything is."""
    try:
        read = FORM.fullmatch(folder.read(f"{TOLD}/{name}.txt").decode(errors="replace"))
    except FileNotFoundError:
        return None
    if not read:
        return None
    state, machine, task, began, seconds, status, line = read.groups()
    return Told(state, machine, task, int(began), int(seconds or 0), int(status or 0), line or "")


class Tasks:
    """The list of tasks: each line has a shard's name, the cut that it is in, its place there and its size.

    It only grows, so that a line's number means the same as long as the search goes on.
    """

    def __init__(self, folder: Folder):
        self.folder = folder
        self.lines = folder.read(LIST).decode().splitlines() if folder.has(LIST) else []

    def names(self) -> list[str]:
        return [line.split()[0] for line in self.lines]

    def add(self, shards: list[Shard]) -> range:
        """Adds lines, and tells their numbers, which are counted from 1."""
        before = len(self.lines)
        self.lines += [f"{shard.name} {shard.cut} {shard.place[0]} {shard.place[1]}" for shard in shards]
        self.folder.write(LIST, "".join(line + "\n" for line in self.lines).encode())
        return range(before + 1, len(self.lines) + 1)

    def unlisted(self, shards: list[Shard]) -> list[Shard]:
        listed = set(self.names())
        return [shard for shard in shards if shard.name not in listed]


def prepare(folder: Folder, program: Path) -> None:
    """Puts into the folder what a machine needs that sees it: the program and the script of a task."""
    folder.path(TOLD).mkdir(exist_ok=True)
    for name, source in ((SCRIPT, TOP / "companion" / SCRIPT), (PROGRAM, program)):
        data = source.read_bytes()
        if not folder.has(name) or folder.read(name) != data:
            folder.write(name, data)
        folder.path(name).chmod(0o755)


def drop_left(folder: Folder) -> None:
    """Takes away what tasks left that were killed. None may be at work."""
    for file in [*folder.path(files.BOOKS).glob("*" + OWN), *folder.path(TOLD).glob(f"*{OWN}*")]:
        file.unlink(missing_ok=True)


def drop_torn(folder: Folder, waiting: list[Shard]) -> None:
    """Takes away the books that are there and not whole, as after a crash of a machine."""
    for name in (book_file(shard.name) for shard in waiting):
        if folder.has(name) and touches_of(folder.path(name)) is None:
            folder.drop(name)


def command(folder: Folder, line: str, kilobytes: int | None) -> str:
    """The words of a shell for the task of a line."""
    words = f"sh {shlex.quote(str(folder.path(SCRIPT).resolve()))} {line}"
    return words if kilobytes is None else f"{words} {kilobytes}"
