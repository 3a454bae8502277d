"""What a search on many machines does between the runs of its engine: shards that were given up are split."""

from collections.abc import Set as AbstractSet

from companion import tasks
from companion.estimate import duration
from companion.folder import Folder
from companion.mistakes import Mistake
from companion.opening import Opener
from companion.progress import Progress
from companion.shards import Shard, Shards, split_shard
from companion.tasks import Told, read_told

# So many tasks of which none is done are not split: they would become ever more.
ENOUGH = 100


class Dealing:
    """The shards of a folder, and what becomes of those that an engine gave up after so many seconds."""

    def __init__(self, folder: Folder, opener: Opener, longest: float, progress: Progress):
        self.folder = folder
        self.opener = opener
        self.longest = longest
        self.progress = progress
        self.shards = Shards(folder)

    def look(self) -> None:
        """Reads anew what stands in the folder."""
        self.shards = Shards(self.folder)

    def waiting(self) -> list[Shard]:
        """The shards that are neither done nor split, in the order of the list: those of the first cut come first."""
        return sorted(self.shards.waiting, key=order)

    def split_given_up(self, also: AbstractSet[str] = frozenset()) -> int:
        """Splits the shards that were given up, by what their tasks tell or by what the engine does; how many there were."""
        given_up = [shard for shard in self.waiting() if shard.name in also or self.is_given_up(shard)]
        if len(given_up) >= ENOUGH and not self.shards.done:
            raise Mistake(f"each of {len(given_up)} tasks took longer than {duration(self.longest)}, or wanted more memory than there was: "
                          "give more by --minutes or --memory.")
        for number, shard in enumerate(given_up):
            self.progress.show(f"splitting: {number} of {len(given_up)} shards")
            split_shard(self.shards, self.opener, shard)
        if given_up:
            self.look()
            self.progress.note(f"  {len(given_up)} shards were given up; {len(self.shards.waiting)} wait now")
        return len(given_up)

    def is_given_up(self, shard: Shard) -> bool:
        told = read_told(self.folder, shard.name)
        return told is not None and told.is_given_up(self.longest)

    def told(self) -> list[tuple[Shard, Told]]:
        """What is told of the shards that wait."""
        every = [(shard, read_told(self.folder, shard.name)) for shard in self.waiting()]
        return [(shard, told) for shard, told in every if told]

    def failed(self, log: str) -> Mistake:
        """What is wrong where shards are left that nothing was done with."""
        left, told = self.waiting(), self.told()
        if not told:
            return Mistake(f"{len(left)} shards wait, and no task began: see {self.folder.path(log)}.")
        shard, first = told[0]
        return Mistake(f"{len(left)} shards failed, the first of which is {shard.name} on {first.machine} ({first.why()}); "
                       f"`./compose shards --status {self.folder.top}` tells of all, and the same command goes on.")

    def listed(self, again: bool, most: int | None = None) -> range:
        """Lists shards that wait: those that were not listed, or all of them again, so many at most; their lines."""
        listed = tasks.Tasks(self.folder)
        waiting = self.waiting()
        tasks.drop_torn(self.folder, waiting)
        return listed.add((waiting if again else listed.unlisted(waiting))[:most])


def order(shard: Shard) -> tuple[int, list[int]]:
    """Shards by how often they were split, and then by their numbers."""
    numbers = [int(number) for number in shard.name.split("-")]
    return len(numbers), numbers
