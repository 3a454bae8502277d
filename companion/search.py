"""`./compose search`: a long search of which nothing that is done is lost."""

import argparse
from dataclasses import dataclass
from pathlib import Path

from companion import folder as files
from companion import machine
from companion.check import read_file, refuse_other_kinds
from companion.checkpoint import Checkpoint, Leads, checkpoint_text, touches_of, whole_touches
from companion.ending import join_books
from companion.engine import Engine, ready_program
from companion.faults import Fault, read_values
from companion.folder import Folder, open_folder
from companion.keeping import kept
from companion.mistakes import Mistake
from companion.opening import Opener
from companion.progress import Progress
from companion.shards import FIRST, Shards, ShardSearch, book_file, cut_file
from companion.trails import TrailSearch, refuse_every

# So many shards, or so many for each run where there are many runs; a cut gives 1,024 at most.
SHARDS, SHARDS_FOR_EACH, MOST_SHARDS = 400, 16, 1000
# A shard is given up after so many minutes.
MINUTES = 5.0
# The turns of a trail from one checkpoint to the next.
EVERY = 10_000_000_000


def add_arguments(parser: argparse.ArgumentParser) -> None:
    parser.add_argument("file", metavar="FILE", help="a problem file, or - for standard input")
    parser.add_argument("--into", type=Path, required=True, metavar="DIR", help="the folder of the search; the same command goes on in it")
    parser.add_argument("--jobs", type=int, metavar="N", help="so many shards at a time, or workers; as many as processors else")
    parser.add_argument("--memory", type=float, metavar="GB", help="the memory that all runs may take; else what is free but a tenth")
    parser.add_argument("--shards", type=int, metavar="N", help=f"into about so many shards, 1 to {MOST_SHARDS}")
    parser.add_argument("--minutes", type=float, default=MINUTES, metavar="M", help="a shard that takes longer is split; 5 minutes else")
    parser.add_argument("--counted", action="store_true", help="count the turns: one search with a trail in place of shards")
    parser.add_argument("--every", type=int, default=EVERY, metavar="N", help="the turns between the checkpoints of a trail")


@dataclass(frozen=True)
class Wish:
    """What the options ask for."""

    jobs: int
    memory: int
    shards: int
    seconds: float


def wish_of(args: argparse.Namespace) -> Wish:
    jobs = args.jobs if args.jobs is not None else min(64, machine.processors())
    if not 1 <= jobs <= 64:
        raise Mistake("--jobs takes a number from 1 to 64.")
    shards = args.shards if args.shards is not None else min(MOST_SHARDS, max(SHARDS, SHARDS_FOR_EACH * jobs))
    if not 1 <= shards <= MOST_SHARDS:
        raise Mistake(f"--shards takes a number from 1 to {MOST_SHARDS}.")
    if not args.minutes > 0:
        raise Mistake("--minutes takes a number above 0.")
    if args.memory is not None and not args.memory > 0:
        raise Mistake("--memory takes a number of gigabytes above 0.")
    refuse_every(args.every)
    memory = machine.usable_memory() if args.memory is None else int(args.memory * machine.GIGABYTE)
    return Wish(jobs, memory, shards, args.minutes * 60)


def run(args: argparse.Namespace) -> int:
    wish = wish_of(args)
    problem = read_file(args.file)
    refuse_other_kinds(args.file, problem)
    leads = leads_of(args.file, problem)
    engine = Engine(ready_program(problem), wish.jobs, wish.memory)
    progress = Progress()
    return kept(args.into, progress, lambda: search_in(args, problem, engine, leads, wish, progress))


def search_in(args: argparse.Namespace, problem: bytes, engine: Engine, leads: Leads, wish: Wish, progress: Progress) -> None:
    """Searches in the folder, and tells where the book is."""
    with open_folder(args.into, problem) as folder:
        if touches_of(folder.path(files.BOOK)) is None:
            search(folder, engine, Opener(engine, problem, leads), wish, progress, args)
        progress.close()
        tell_book(folder)


def tell_book(folder: Folder) -> None:
    print(f"{folder.path(files.BOOK)}: touches {whole_touches(folder.path(files.BOOK))}")


def leads_of(name: str, problem: bytes) -> Leads:
    try:
        values = read_values(problem)
    except Fault as fault:
        raise Mistake(f"{name} is refused: {fault.words}; `./compose check {name}` tells more.") from None
    called = sum(values.is_for(call, method) for call in range(len(values.calls)) for method in range(len(values.methods)))
    return Leads("".join(values.letters), len(values.methods) + called)


def search(folder: Folder, engine: Engine, opener: Opener, wish: Wish, progress: Progress, args: argparse.Namespace) -> None:
    """Goes on from what stands in the folder, and ends with the book."""
    if args.counted:
        TrailSearch(folder, engine, args.every, progress).search()
        return
    if not folder.has(cut_file(FIRST)):
        opened = open_tree(folder, opener, wish.shards, progress)
        opener.cut(opened, folder, cut_file(FIRST))
        folder.drop(files.OPENING)
    shards = Shards(folder)
    ShardSearch(shards, engine, opener, wish.seconds, progress).search()
    progress.show(f"{len(shards.done)} shards done, touches {sum(shards.done.values())}: writing the book")
    join_books(folder, engine, [book_file(name) for name in shards.done], sum(shards.done.values()))


def open_tree(folder: Folder, opener: Opener, wanted: int, progress: Progress) -> Checkpoint:
    """The tree opened breadth-first into so many nodes; each round of it stands in the folder."""

    def keep(told: Checkpoint) -> None:
        folder.write(files.OPENING, checkpoint_text(told, opener.leads))
        progress.show(f"opening: {len(told.nodes)} of {wanted} shards")

    begun = folder.read(files.OPENING) if folder.has(files.OPENING) else opener.text([], [b""])
    return opener.opened(begun, wanted, keep)
