"""`./compose methods`: the titles of the library."""

import argparse

from companion import library
from companion.mistakes import Mistake


def add_arguments(parser: argparse.ArgumentParser) -> None:
    parser.add_argument("title_words", nargs="*", metavar="WORD", help="only titles with these words")


def run(args: argparse.Namespace) -> int:
    wanted = [library.plain_title(word) for word in args.title_words]
    titles = [title for title in [*library.methods(), *library.sets()] if has_all(title, wanted)]
    if not titles:
        raise Mistake(f"no title has the words {' '.join(args.title_words)}.")
    print("\n".join(titles))
    return 0


def has_all(title: str, wanted: list[str]) -> bool:
    return all(word in library.plain_title(title) for word in wanted)
