"""A search shard by shard: which shards there are, and which of them are done, stands in the folder."""

import random
import time
from dataclasses import dataclass

from companion import folder as files
from companion import interrupts
from companion.checkpoint import block_places, body_at, first_touches, touches_of, whole_touches
from companion.engine import FINISHED, NO_MEMORY, Engine, Run
from companion.estimate import Family, Rest, duration, rest_of, rest_words
from companion.folder import Folder
from companion.opening import Opener
from companion.progress import Progress

FIRST = "all"
# A shard that is given up is split into so many nodes, or some more.
SPLIT = 12
# The loop looks at its runs after so many seconds at most.
LONGEST_PAUSE = 0.1


@dataclass(frozen=True)
class Shard:
    """A shard, by its name: its number in the first cut, and those in the cuts of what was split, as 17-3."""

    name: str
    cut: str
    place: tuple[int, int]

    def family(self) -> str:
        return self.name.split("-")[0]

    def is_child(self) -> bool:
        return "-" in self.name

    def turn(self) -> tuple[bool, float]:
        """When it is its turn: in a random order, always the same, so that those that are done tell of the others."""
        return not self.is_child(), random.Random(self.name).random()


def cut_file(name: str) -> str:
    return f"{files.CUTS}/{name}.txt"


def book_file(name: str) -> str:
    return f"{files.BOOKS}/{name}.txt"


class Shards:
    """The shards of a folder: those that wait, those that are done, and the times that they took."""

    def __init__(self, folder: Folder):
        self.folder = folder
        # The next one is the last.
        self.waiting: list[Shard] = []
        self.done: dict[str, int] = {}
        self.unbegun: set[str] = set()
        self.families: dict[str, Family] = {}
        self.child_times: list[float] = []
        self.read_cut(FIRST)
        self.read_times()
        self.waiting.sort(key=Shard.turn, reverse=True)

    def read_cut(self, name: str) -> None:
        """Takes the shards of a cut, and those of the cuts of what was split."""
        for number, place in enumerate(block_places(self.folder.path(cut_file(name)))):
            shard = Shard(f"{number}" if name == FIRST else f"{name}-{number}", name, place)
            if self.folder.has(cut_file(shard.name)):
                self.family_of(shard)
                self.read_cut(shard.name)
            elif not self.read_book(shard):
                self.waiting.append(shard)
                self.count_waiting(shard)

    def read_book(self, shard: Shard) -> bool:
        """Whether a shard's book stands in the folder."""
        touches = touches_of(self.folder.path(book_file(shard.name)))
        if touches is None:
            return False
        self.family_of(shard)
        self.done[shard.name] = touches
        return True

    def family_of(self, shard: Shard) -> Family:
        return self.families.setdefault(shard.family(), Family())

    def count_waiting(self, shard: Shard) -> None:
        if shard.is_child():
            self.family_of(shard).waiting += 1
        else:
            self.unbegun.add(shard.name)

    def count_begun(self, shard: Shard) -> None:
        if shard.is_child():
            self.family_of(shard).waiting -= 1
        else:
            self.unbegun.discard(shard.name)
            self.family_of(shard)

    def read_times(self) -> None:
        """The times of what is done, as earlier runs wrote them."""
        if not self.folder.has(files.TIMES):
            return
        for line in self.folder.read(files.TIMES).decode(errors="replace").splitlines():
            words = line.split()
            if len(words) == 3 and words[0].split("-")[0] in self.families:
                self.add_time(words[0], float(words[1]), words[2] == "done")

    def add_time(self, name: str, seconds: float, is_done: bool) -> None:
        self.families[name.split("-")[0]].spent += seconds
        if is_done and "-" in name:
            self.child_times.append(seconds)

    def took(self, shard: Shard, seconds: float, is_done: bool) -> None:
        self.add_time(shard.name, seconds, is_done)
        with self.folder.path(files.TIMES).open("a") as times:
            times.write(f"{shard.name} {seconds:.3f} {'done' if is_done else 'split'}\n")

    def body(self, shard: Shard) -> bytes:
        return body_at(self.folder.path(cut_file(shard.cut)), shard.place)


def split_shard(shards: Shards, opener: Opener, shard: Shard) -> None:
    """Cuts what is below a shard."""
    opener.cut(opener.opened(shards.body(shard), SPLIT), shards.folder, cut_file(shard.name))


class ShardSearch:
    """The search of what waits, several shards at a time."""

    def __init__(self, shards: Shards, engine: Engine, opener: Opener, longest: float, progress: Progress):
        self.shards = shards
        self.folder = shards.folder
        self.engine = engine
        self.opener = opener
        self.longest = longest
        self.progress = progress
        self.running: dict[Shard, Run] = {}
        self.pause = 0.0
        # The seconds of all runs that ended, and when the first began.
        self.spent = 0.0
        self.began = time.monotonic()

    def search(self) -> None:
        """Searches until each shard has its book."""
        try:
            while self.shards.waiting or self.running:
                interrupts.check()
                self.begin_some()
                if not self.take_ended():
                    self.wait_a_moment()
                if self.progress.is_due():
                    self.progress.show(self.words())
        finally:
            for run in self.running.values():
                run.stop()

    def begin_some(self) -> None:
        while self.shards.waiting and len(self.running) < self.engine.jobs:
            shard = self.shards.waiting.pop()
            with self.folder.part(book_file(shard.name)) as sink:
                self.running[shard] = self.engine.start_on([], self.shards.body(shard), sink, self.engine.jobs)
            self.shards.count_begun(shard)

    def wait_a_moment(self) -> None:
        """Waits a moment, a longer one each time."""
        self.pause = min(LONGEST_PAUSE, self.pause * 2 or 0.001)
        time.sleep(self.pause)

    def take_ended(self) -> bool:
        """Takes what ended or took too long; whether there was any."""
        ended = [shard for shard, run in self.running.items() if run.status() is not None or run.age() > self.longest]
        for shard in ended:
            self.pause = 0.0
            self.spent += self.running[shard].age()
            self.take(shard, self.running[shard])
            del self.running[shard]
        return bool(ended)

    def take(self, shard: Shard, run: Run) -> None:
        status = run.status()
        if status == FINISHED:
            self.finish(shard, run.age())
        elif status is None:
            run.stop()
            self.split(shard, run.age(), f"takes longer than {duration(self.longest)}")
        elif status == NO_MEMORY:
            self.split(shard, run.age(), "takes more memory than there is")
        else:
            raise run.mistake()

    def finish(self, shard: Shard, seconds: float) -> None:
        """Keeps the book of a shard."""
        name = book_file(shard.name)
        self.folder.keep(name)
        book = self.folder.path(name)
        self.shards.done[shard.name] = whole_touches(book)
        self.shards.took(shard, seconds, True)
        if self.progress.wants_touches():
            self.progress.touches(first_touches(book, self.progress.wants_touches()))

    def split(self, shard: Shard, seconds: float, why: str) -> None:
        """Gives a shard up, and cuts what is below it."""
        self.folder.drop(book_file(shard.name) + files.PART)
        split_shard(self.shards, self.opener, shard)
        self.shards.took(shard, seconds, False)
        before = len(self.shards.waiting)
        self.shards.read_cut(shard.name)
        self.progress.note(f"  shard {shard.name} {why}: {len(self.shards.waiting) - before} shards in its place")

    def words(self) -> str:
        """The line of progress."""
        done, touches = len(self.shards.done), sum(self.shards.done.values())
        every = done + len(self.running) + len(self.shards.waiting)
        return f"{done} of {every} shards done, touches {touches}, {duration(self.progress.gone())} gone, {rest_words(self.rest_now())}"

    def rest_now(self) -> Rest | None:
        """How long the rest takes, where runs go on side by side as they did so far."""
        for family in self.shards.families.values():
            family.running = []
        for shard, run in self.running.items():
            self.shards.family_of(shard).running.append(run.age())
        times = self.shards.child_times
        child = sum(times) / len(times) if times else self.longest
        ages = self.spent + sum(run.age() for run in self.running.values())
        at_once = max(0.1, min(self.engine.jobs, ages / max(0.001, time.monotonic() - self.began)))
        return rest_of(list(self.shards.families.values()), len(self.shards.unbegun), child, at_once)
