"""The command line of ./compose."""

import argparse
import os
import sys

from companion import check, machines, problem, search, show
from companion.listing import add_arguments as add_listing
from companion.listing import run as run_listing
from companion.mistakes import Mistake

COMMANDS = {
    "problem": ("write a problem file of methods by name", problem.add_arguments, problem.run),
    "check": ("say what is wrong with a problem file, and what is surely not meant", check.add_arguments, check.run),
    "show": ("show a book as a table, or one touch of it with its blue line", show.add_arguments, show.run),
    "search": ("search a problem so that nothing that is done is lost", search.add_arguments, search.run),
    "shards": ("search a problem on many machines, by GNU parallel or Slurm", machines.add_arguments, machines.run),
    "methods": ("list the methods of the library", add_listing, run_listing),
}


class _Parser(argparse.ArgumentParser):
    """A parser that says what is wrong in one sentence."""

    def error(self, message: str):
        raise Mistake(f"{message}; `{self.prog} --help` tells what there is.")


def parser() -> argparse.ArgumentParser:
    top = _Parser(prog="./compose", description="A composer's companion to ./ringsearch.", allow_abbrev=False)
    commands = top.add_subparsers(dest="command", required=True, metavar="COMMAND")
    for name, (words, add_arguments, run) in COMMANDS.items():
        one = commands.add_parser(name, help=words, description=f"{words[:1].upper()}{words[1:]}.", allow_abbrev=False)
        add_arguments(one)
        one.set_defaults(run=run)
    return top


def main(words: list[str]) -> int:
    """The status: 0, or 2 with one sentence on standard error."""
    try:
        args = parser().parse_args(words)
        args.words = words[1:]
        return args.run(args)
    except Mistake as mistake:
        print(f"compose: {mistake}", file=sys.stderr)
        return 2
    except KeyboardInterrupt:
        print("compose: interrupted.", file=sys.stderr)
        return 130
    except BrokenPipeError:
        os.dup2(os.open(os.devnull, os.O_WRONLY), sys.stdout.fileno())
        return 0
