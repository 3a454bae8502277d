"""`./compose shards`: one search on many machines, whose tasks GNU parallel or Slurm carries."""

import argparse
import math
import sys
from dataclasses import dataclass
from pathlib import Path

from companion import folder as files
from companion import machine, parallel, slurm, status, tasks
from companion.check import read_file, refuse_other_kinds
from companion.checkpoint import Checkpoint, touches_of
from companion.dealing import Dealing
from companion.ending import join_books
from companion.engine import Engine, ready_program
from companion.folder import Folder, open_folder
from companion.keeping import kept
from companion.mistakes import Mistake
from companion.opening import Opener
from companion.parallel import Hosts, ParallelSearch
from companion.progress import Progress
from companion.search import MINUTES, MOST_SHARDS, leads_of, open_tree, tell_book
from companion.shards import FIRST, Shards, book_file, cut_file
from companion.slurm import SlurmSearch

OTHER, WAITING = "other", "waiting.txt"
ENGINES = (parallel.NAME, slurm.NAME, OTHER)
REFUSALS = {parallel.NAME: parallel.refuse_missing, slurm.NAME: slurm.refuse_missing}


def add_arguments(parser: argparse.ArgumentParser) -> None:
    parser.add_argument("file", metavar="FILE", nargs="?", help="a problem file, or - for standard input")
    parser.add_argument("--into", type=Path, metavar="DIR", help="the folder of the search, which all machines see; the same command goes on in it")
    parser.add_argument("--engine", choices=ENGINES, help="what carries the tasks: GNU parallel, Slurm, or another one by hand")
    parser.add_argument("--status", type=Path, metavar="DIR", help="say how far the search of a folder is, and what failed")
    parser.add_argument("--slots", type=int, metavar="N", help="so many tasks at a time, with parallel on each host")
    parser.add_argument("--minutes", type=float, default=MINUTES, metavar="M", help="a task that takes longer is given up and split; 5 minutes else")
    parser.add_argument("--nodes", type=int, default=MOST_SHARDS, metavar="N", help=f"into about so many nodes is the tree opened; {MOST_SHARDS} else")
    parser.add_argument("--shards", type=int, metavar="N", help="so many tasks of one or several nodes; one for each node else")
    parser.add_argument("--memory", type=float, metavar="GB", help="the memory that one task may take")
    parser.add_argument("--sshlogin", action="append", default=[], metavar="HOST", help="a host for parallel, as its own option of this name; may stand more than once")
    parser.add_argument("--sshloginfile", metavar="FILE", help="hosts for parallel, as its own option of this name")


@dataclass(frozen=True)
class Wish:
    """What the options ask for."""

    engine: str
    longest: float
    nodes: int
    shards: int
    hosts: Hosts
    kilobytes: int | None

    def again(self) -> list[str]:
        """The options by which Slurm's dealing job asks for the same."""
        words = ["--engine", self.engine, "--minutes", f"{self.longest / 60}"]
        words += ["--slots", str(self.hosts.slots)] if self.hosts.slots else []
        return words + (["--memory", f"{self.kilobytes * 1024 / machine.GIGABYTE}"] if self.kilobytes else [])


def wish_of(args: argparse.Namespace) -> Wish:
    if args.file is None or args.into is None or args.engine is None:
        raise Mistake("a search needs FILE, --into and --engine; or ask by --status DIR.")
    refuse_numbers(args)
    if args.engine != parallel.NAME and (args.sshlogin or args.sshloginfile):
        raise Mistake("--sshlogin and --sshloginfile are for --engine parallel.")
    hosts = Hosts(args.slots, args.sshlogin, args.sshloginfile)
    if args.engine == parallel.NAME and args.slots is None and not hosts.are_elsewhere():
        hosts = Hosts(machine.processors(), [], None)
    # Slurm counts in whole minutes.
    minutes = math.ceil(args.minutes) if args.engine == slurm.NAME else args.minutes
    return Wish(args.engine, minutes * 60, args.nodes, args.shards or MOST_SHARDS, hosts, kilobytes_of(args, hosts))


def refuse_numbers(args: argparse.Namespace) -> None:
    for name, least, most in (("slots", 1, 100_000), ("nodes", 1, MOST_SHARDS), ("shards", 1, MOST_SHARDS)):
        value = getattr(args, name)
        if value is not None and not least <= value <= most:
            raise Mistake(f"--{name} takes a number from {least} to {most}.")
    if not 0 < args.minutes < 1_000_000:
        raise Mistake("--minutes takes a number above 0, and below 1000000.")
    if args.memory is not None and not 0 < args.memory < 1_000_000:
        raise Mistake("--memory takes a number of gigabytes above 0, and below 1000000.")


def kilobytes_of(args: argparse.Namespace, hosts: Hosts) -> int | None:
    """The memory of a task; where none is told and all tasks run here, its share of what is free."""
    if args.memory is not None:
        return max(1, int(args.memory * machine.GIGABYTE / 1024))
    if args.engine == parallel.NAME and not hosts.are_elsewhere():
        return machine.usable_memory() // (hosts.slots * 1024)
    return None


def run(args: argparse.Namespace) -> int:
    if args.status is not None:
        return run_status(args)
    wish = wish_of(args)
    if wish.engine in REFUSALS:
        REFUSALS[wish.engine]()
    problem = read_file(args.file)
    refuse_other_kinds(args.file, problem)
    leads = leads_of(args.file, problem)
    engine = Engine(ready_program(problem), min(64, machine.processors()), machine.usable_memory())
    progress = Progress()
    return kept(args.into, progress, lambda: search_in(args.into, Opener(engine, problem, leads), wish, progress))


def run_status(args: argparse.Namespace) -> int:
    if args.file is not None or args.into is not None or args.engine is not None:
        raise Mistake("--status DIR stands alone.")
    try:
        status.show(Folder(args.status), sys.stdout)
    except OSError as error:
        raise Mistake(f"{error.filename}: {(error.strerror or str(error)).lower()}.") from None
    return 0


def search_in(into: Path, opener: Opener, wish: Wish, progress: Progress) -> None:
    """Goes on from what stands in the folder, and ends with the book, or with what the engine has to do."""
    with open_folder(into, opener.problem, slurm.patience()) as folder:
        if touches_of(folder.path(files.BOOK)) is None:
            told = carry(folder, opener, wish, progress)
            if told:
                progress.close()
                print(f"{told}; `./compose shards --status {into}` tells how far it is.")
                return
            join_shards(folder, opener.engine, progress)
        progress.close()
        tell_book(folder)


def carry(folder: Folder, opener: Opener, wish: Wish, progress: Progress) -> str | None:
    """Lets the engine do what is left; what it has to do, or None where all is done."""
    if not folder.has(cut_file(FIRST)):
        opened = open_tree(folder, opener, wish.nodes, progress)
        opener.cut(shortest_first(opened), folder, cut_file(FIRST), wish.shards)
        folder.drop(files.OPENING)
    tasks.prepare(folder, opener.engine.path)
    status.keep_engine(folder, wish.engine, wish.longest)
    dealing = Dealing(folder, opener, wish.longest, progress)
    if wish.engine == slurm.NAME:
        return SlurmSearch(dealing, wish.hosts.slots, wish.kilobytes, wish.again()).search()
    if wish.engine == OTHER:
        return list_for_other(dealing)
    return ParallelSearch(dealing, wish.hosts, wish.kilobytes, progress).search()


def shortest_first(opened: Checkpoint) -> Checkpoint:
    """The same with its shortest nodes first, below which there is most."""
    return Checkpoint(opened.problem, opened.found, sorted(opened.nodes, key=lambda node: (len(node), node)))


def list_for_other(dealing: Dealing) -> str | None:
    """Writes which lines of the list wait, for an engine that is called by hand."""
    dealing.split_given_up()
    if not dealing.shards.waiting:
        return None
    lines = dealing.listed(again=True)
    dealing.folder.write(WAITING, "".join(f"{line}\n" for line in lines).encode())
    script = tasks.command(dealing.folder, "LINE", None)
    return f"{len(lines)} tasks wait, `{script}` for each LINE of {dealing.folder.path(WAITING)}, and then the same command"


def join_shards(folder: Folder, engine: Engine, progress: Progress) -> None:
    """Joins the books of all shards."""
    done = Shards(folder).done
    progress.show(f"{len(done)} shards done, touches {sum(done.values())}: joining")
    join_books(folder, engine, [book_file(name) for name in done], sum(done.values()))
    progress.show(f"{len(done)} shards joined: no touch is in two of them")
