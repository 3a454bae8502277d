"""The library of methods: methods.toml, by title."""

import difflib
import tomllib
from dataclasses import dataclass
from functools import cache
from pathlib import Path

from companion.bells import Change
from companion.mistakes import Mistake
from companion.notation import read_notation

LIBRARY = Path(__file__).with_name("methods.toml")


@dataclass(frozen=True)
class Method:
    """A method: its title, the notation of one lead, and its usual calls."""

    title: str
    stage: int
    notation: str
    leads: int
    bob: str | None = None
    single: str | None = None
    # The changes of the lead that a call replaces, counted from 1; none where it replaces the last ones.
    calls_at: tuple[int, ...] = ()

    def changes(self) -> list[Change]:
        return read_notation(self.notation, self.stage)


def method_of(title: str, entry: dict) -> Method:
    values = dict(entry)
    places = tuple(values.pop("calls_at", ()))
    return Method(title=title, calls_at=places, **values)


@cache
def methods() -> dict[str, Method]:
    """All methods, by title."""
    return {title: method_of(title, entry) for title, entry in _library()["methods"].items()}


@cache
def sets() -> dict[str, list[str]]:
    """The sets of methods that are spliced, by title."""
    return _library()["sets"]


@cache
def _library() -> dict:
    with LIBRARY.open("rb") as file:
        return tomllib.load(file)


def plain_title(title: str) -> str:
    """A title as it is compared: without case, kind of apostrophe, and doubled blanks."""
    return " ".join(title.replace("’", "'").replace("'", "").casefold().split())


def find(title: str) -> list[Method]:
    """The method with this title, or the methods of the set with this title."""
    wanted = plain_title(title)
    for name, method in methods().items():
        if plain_title(name) == wanted:
            return [method]
    for name, titles in sets().items():
        if plain_title(name) == wanted:
            return [methods()[one] for one in titles]
    raise Mistake(f"the library has no method “{title}”{_near(wanted)}; `./compose methods` lists them all.")


def _near(wanted: str) -> str:
    known = {plain_title(name): name for name in [*methods(), *sets()]}
    close = difflib.get_close_matches(wanted, known, n=3)
    return f": is it {' or '.join(known[name] for name in close)}" if close else ""
