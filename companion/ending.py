"""The end of a search: the books of all shards as one book."""

import re
from collections.abc import Callable
from dataclasses import dataclass

from companion import folder as files
from companion.checkpoint import put_book, put_file, whole_touches
from companion.engine import NO_JOIN, Engine, Run
from companion.folder import Folder
from companion.mistakes import Mistake

# So many bodies are joined at a time.
MOST_BODIES = 1024
JOIN = "join.txt"


def groups_of(bodies: list) -> list[list]:
    return [bodies[at:at + MOST_BODIES] for at in range(0, len(bodies), MOST_BODIES)]


def run_to(folder: Folder, engine: Engine, words: list[str], source: str, name: str, mistake: Callable[[Run], Mistake] | None = None) -> None:
    """Runs the program on one file of the folder to its end, and keeps what it writes as another."""
    with folder.path(source).open("rb") as file, folder.part(name) as sink:
        engine.start(words, file, sink).finish(mistake)
    folder.keep(name)


@dataclass(frozen=True)
class Body:
    """A book or a checkpoint of the folder that is joined, and the books that it has the touches of, in words."""

    name: str
    words: str
    is_book: bool


def join(folder: Folder, engine: Engine, bodies: list[Body], name: str) -> Body:
    """Joins at most 1,024 bodies into one checkpoint."""
    blocks = JOIN + files.PART
    with folder.path(blocks).open("wb") as out:
        for body in bodies:
            if body.is_book:
                put_book(out, folder.read(files.PROBLEM), folder.path(body.name))
            else:
                put_file(out, folder.path(body.name))
    run_to(folder, engine, ["--do", "join"], blocks, name, lambda run: join_mistake(run, bodies))
    folder.drop(blocks)
    return Body(name, f"one of {bodies[0].words} to {bodies[-1].words}", False)


def join_mistake(run: Run, bodies: list[Body]) -> Mistake:
    """What is wrong where some bodies can't be joined: which of them overlap."""
    told = re.fullmatch(r"ringsearch: join 5 Overlap (\d+) (\d+)", run.said)
    if run.status() != NO_JOIN or not told:
        return run.mistake()
    one, two = (bodies[int(number)].words for number in told.groups())
    return Mistake(f"the join says no: {one} and {two} overlap, which no search writes: take both away, and the same command writes them again.")


def join_all(folder: Folder, engine: Engine, books: list[str]) -> str:
    """The name of a checkpoint without nodes that has all touches of some books."""
    bodies, level = [Body(name, name, True) for name in books], 0
    while bodies[0].is_book or len(bodies) > 1:
        joined = [join(folder, engine, group, f"joined-{level}-{number}.txt") for number, group in enumerate(groups_of(bodies))]
        drop_all(folder, [body.name for body in bodies if not body.is_book])
        bodies, level = joined, level + 1
    return bodies[0].name


def drop_all(folder: Folder, names: list[str]) -> None:
    for name in names:
        folder.drop(name)


def write_book(folder: Folder, engine: Engine, checkpoint: str) -> int:
    """Searches a checkpoint without nodes, which writes the book; the number of its touches."""
    run_to(folder, engine, ["--workers", str(engine.jobs)], checkpoint, files.BOOK)
    return whole_touches(folder.path(files.BOOK))


def join_books(folder: Folder, engine: Engine, books: list[str], touches: int) -> None:
    """The book of a search whose shards are done, and have so many touches in all."""
    checkpoint = join_all(folder, engine, books)
    told = write_book(folder, engine, checkpoint)
    if told != touches:
        folder.drop(files.BOOK)
        raise Mistake(f"the books of the shards have {touches} touches, and all together {told}: begin in a new folder.")
    folder.drop(checkpoint)
