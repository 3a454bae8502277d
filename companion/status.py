"""`./compose shards --status`: how far a search on many machines is, by machine, and why tasks failed."""

import fcntl
import os
from collections import Counter
from pathlib import Path
from typing import TextIO

from companion import folder as files
from companion import parallel, slurm, table
from companion.checkpoint import touches_of
from companion.folder import Folder
from companion.mistakes import Mistake
from companion.shards import FIRST, Shards, cut_file
from companion.tasks import WORK, Told, read_told

ENGINE = "engine.txt"
AT_WORK, WAITING, FAILED, GIVEN_UP = "at work", "waiting", "failed", "given up"
# So many shards that failed are told one by one.
MOST_FAILED = 20


def keep_engine(folder: Folder, name: str, longest: float) -> None:
    """Keeps which engine carries a search, and after how many seconds it gives a task up."""
    folder.write(ENGINE, f"{name} {longest}\n".encode())


def read_engine(folder: Folder) -> tuple[str, float]:
    words = folder.read(ENGINE).decode().split() if folder.has(ENGINE) else []
    return (words[0], float(words[1])) if len(words) == 2 else ("", 0.0)


class Carrier:
    """What the engine that carries a search knows of its tasks."""

    def __init__(self, folder: Folder):
        self.name, self.longest = read_engine(folder)
        self.is_locked = is_locked(folder)
        self.entries = parallel.last_entries(folder) if self.name == parallel.NAME else {}
        self.jobs = slurm_jobs() if self.name == slurm.NAME else None

    def has(self, shard: str, told: Told) -> bool:
        """Whether the task is at work: one that was killed has not said that it ended."""
        if self.name == parallel.NAME:
            return self.is_locked and (shard not in self.entries or self.entries[shard].end() < told.began)
        if self.jobs is not None:
            return told.id in self.jobs
        return told.machine != os.uname().nodename or not told.id.isdecimal() or Path(f"/proc/{told.id}").exists()

    def has_queued(self, told: Told) -> bool:
        """Whether the task is to run again, as one that Slurm has requeued."""
        return (self.jobs or {}).get(told.id) == "PENDING"

    def gave_up(self, shard: str, told: Told) -> bool:
        entry = self.entries.get(shard)
        return told.is_given_up(self.longest) or bool(entry and entry.is_overdue(self.longest))


def is_locked(folder: Folder) -> bool:
    """Whether a ./compose works in the folder."""
    try:
        with folder.path(files.LOCK).open("rb") as lock:
            fcntl.flock(lock, fcntl.LOCK_SH | fcntl.LOCK_NB)
    except BlockingIOError:
        return True
    except FileNotFoundError:
        return False
    return False


def slurm_jobs() -> dict[str, str] | None:
    """Slurm's jobs, or None where it does not tell them here."""
    try:
        return slurm.jobs_at_work()
    except Mistake:
        return None


class Standing:
    """How the shards of a folder stand."""

    def __init__(self, folder: Folder):
        self.folder = folder
        self.shards = Shards(folder)
        self.carrier = Carrier(folder)
        every = [*self.shards.done, *(shard.name for shard in self.shards.waiting)]
        self.told = {name: read_told(folder, name) for name in every}
        self.waiting = {shard.name: self.group(shard.name) for shard in reversed(self.shards.waiting)}

    def group(self, name: str) -> str:
        """How a shard that is not done stands."""
        told = self.told[name]
        if told is None or self.carrier.has_queued(told):
            return WAITING
        if told.state == WORK and self.carrier.has(name, told):
            return AT_WORK
        return GIVEN_UP if self.carrier.gave_up(name, told) else FAILED

    def words(self) -> str:
        counts = Counter(self.waiting.values())
        done = self.shards.done
        split = len(self.folder.names(files.CUTS)) - 1
        return (f"{len(done) + len(self.waiting)} shards: {len(done)} done, {counts[AT_WORK]} at work, {counts[WAITING]} waiting, "
                f"{counts[FAILED]} failed; {split + counts[GIVEN_UP]} given up, of which {split} are split; touches {sum(done.values())}")

    def machines(self) -> list[list[str]]:
        """A line for each machine."""
        counts: Counter = Counter()
        for name, told in self.told.items():
            if told is not None:
                counts[told.machine, self.waiting.get(name, "done")] += 1
        names = sorted({machine for machine, _ in counts})
        return [[name, *(str(counts[name, group]) for group in ("done", AT_WORK, FAILED, GIVEN_UP))] for name in names]

    def failed(self) -> list[str]:
        """A line for each shard that failed, or for the first of them."""
        names = [name for name, group in self.waiting.items() if group == FAILED]
        lines = [f"failed: {name} on {self.told[name].machine}, {self.told[name].why()}" for name in names[:MOST_FAILED]]
        return lines + ([f"and {len(names) - MOST_FAILED} more"] if len(names) > MOST_FAILED else [])


def show(folder: Folder, out: TextIO) -> None:
    """Says how far the search of a folder is."""
    if not folder.has(files.PROBLEM):
        raise Mistake(f"{folder.top} is no folder of a search.")
    touches = touches_of(folder.path(files.BOOK))
    if touches is not None:
        print(f"{folder.path(files.BOOK)}: touches {touches}", file=out)
    if not folder.has(cut_file(FIRST)):
        print("the tree is not cut into shards yet", file=out)
        return
    standing = Standing(folder)
    print(standing.words(), file=out)
    if standing.machines():
        table.show(["machine", "done", AT_WORK, FAILED, GIVEN_UP], standing.machines(), out)
    at_work = AT_WORK in standing.waiting.values()
    for line in [*standing.failed(), *([] if at_work else dealers_words(folder))]:
        print(line, file=out)


def dealers_words(folder: Folder) -> list[str]:
    """What the job of Slurm that deals said last, where it was a mistake."""
    line = parallel.last_line(folder, slurm.NOTES)
    return [f"Slurm's dealing job: {line.removeprefix('compose: ')}"] if line.startswith("compose: ") else []
