"""A search with a trail: one run that writes a checkpoint after each so many turns."""

import time
from pathlib import Path

from companion import folder as files
from companion import interrupts
from companion.checkpoint import block_places, found_at
from companion.ending import run_to, write_book
from companion.engine import FINISHED, Engine, Run
from companion.estimate import duration
from companion.folder import Folder
from companion.mistakes import Mistake
from companion.progress import Progress

NEXT, DONE = "next.txt", "done.txt"
PAUSE = 0.1


def trail_file(number: int) -> str:
    return f"{files.TRAILS}/{number:04}.txt"


class TrailSearch:
    """The search by trails: each goes on from the last whole checkpoint of the one before."""

    def __init__(self, folder: Folder, engine: Engine, every: int, progress: Progress):
        self.folder = folder
        self.engine = engine
        self.every = every
        self.progress = progress
        # The whole checkpoints of the trail at work.
        self.places: list[tuple[int, int]] = []
        self.found = 0

    def search(self) -> None:
        """Searches to the end, and writes the book."""
        number, source = self.beginning()
        run = self.begin(number, source)
        try:
            while run.status() is None:
                interrupts.check()
                self.look(number)
                time.sleep(PAUSE)
        finally:
            run.stop()
        if run.status() != FINISHED:
            raise run.mistake()
        self.look(number)
        run_to(self.folder, self.engine, ["--do", "last"], trail_file(number), DONE)
        write_book(self.folder, self.engine, DONE)
        self.folder.drop(NEXT)
        self.folder.drop(DONE)

    def beginning(self) -> tuple[int, str]:
        """The number of the trail to write, and the file to go on from."""
        numbers = [int(name) for name in self.folder.names(files.TRAILS)]
        for number in sorted(numbers, reverse=True):
            if block_places(self.folder.path(trail_file(number))):
                run_to(self.folder, self.engine, ["--do", "last"], trail_file(number), NEXT)
                return number + 1, NEXT
            self.folder.drop(trail_file(number))
        # The trail that the checkpoint was taken from stays until the one that goes on from it has a checkpoint.
        return 1, files.PROBLEM

    def begin(self, number: int, source: str) -> Run:
        words = ["--every", str(self.every), "--workers", str(self.engine.jobs)]
        with self.folder.path(source).open("rb") as file, self.folder.path(trail_file(number)).open("wb") as sink:
            return self.engine.start(words, file, sink)

    def look(self, number: int) -> None:
        """Takes the new checkpoints of the trail, and shows what they tell."""
        trail = self.folder.path(trail_file(number))
        more = block_places(trail, sum(self.places[-1]) if self.places else 0)
        if more and not self.places:
            self.drop_before(number)
        self.places += more
        if more:
            self.read_found(trail)
        self.progress.show(self.words())

    def read_found(self, trail: Path) -> None:
        found, first = found_at(trail, self.places[-1], self.progress.wants_touches())
        if found and not self.progress.touches_shown:
            self.progress.touches(first)
        self.found = found

    def drop_before(self, number: int) -> None:
        for name in self.folder.names(files.TRAILS):
            if int(name) < number:
                self.folder.drop(trail_file(int(name)))

    def words(self) -> str:
        turns = max(0, len(self.places) - 1) * self.every
        return (f"{turns:,} turns and {len(self.places)} checkpoints in this run, touches {self.found}, "
                f"{duration(self.progress.gone())} gone; how many turns are left is not known")


def refuse_every(every: int) -> None:
    if not 1 <= every < 2 ** 63:
        raise Mistake("--every takes a number of turns, from 1 to 9223372036854775807.")
