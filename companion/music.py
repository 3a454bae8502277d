"""Music: which rows of a touch are counted, by a table that a user can edit."""

import tomllib
from collections.abc import Callable
from dataclasses import dataclass
from pathlib import Path

from companion.bells import Row, row_text
from companion.faults import pattern_words
from companion.mistakes import Mistake

TABLE = Path(__file__).with_name("music.toml")

# A row's text and how often it counts.
Count = Callable[[str], int]


@dataclass(frozen=True)
class Kind:
    """A kind of music: its name, how often a row counts, and the names of the rows that have one."""

    name: str
    count: Count
    names: dict[str, str]


def read_kinds(path: Path, stage: int) -> list[Kind]:
    """The kinds of a table for so many bells."""
    try:
        table = tomllib.loads(path.read_text(encoding="utf-8"))
    except (OSError, UnicodeDecodeError, tomllib.TOMLDecodeError) as error:
        raise Mistake(f"the table of music {path} can't be read: {error}.") from None
    entries = table.get("kind")
    if not isinstance(entries, list) or not all(isinstance(entry, dict) for entry in entries):
        raise Mistake(f"the table of music {path} has no [[kind]].")
    return [kind_of(entry, path, stage) for entry in entries]


def kind_of(entry: dict, path: Path, stage: int) -> Kind:
    name = entry.get("name")
    if not isinstance(name, str) or not name:
        raise Mistake(f"a [[kind]] of the table of music {path} has no name.")
    if isinstance(entry.get("runs"), int):
        return Kind(name, run_counter(entry["runs"], stage), {})
    if isinstance(entry.get("patterns"), dict):
        return Kind(name, pattern_counter(entry["patterns"].get(str(stage), []), name, stage), {})
    if isinstance(entry.get("rows"), dict):
        names = {row: title for title, row in entry["rows"].get(str(stage), {}).items()}
        return Kind(name, pattern_counter(list(names), name, stage), names)
    raise Mistake(f"the kind {name} of the table of music {path} has neither runs, patterns nor rows.")


def run_counter(length: int, stage: int) -> Count:
    """Counts a row once for each of its ends at which so many bells stand in step."""
    up = row_text(range(1, stage + 1))
    runs = {text[at:at + length] for text in (up, up[::-1]) for at in range(stage - length + 1)}
    return lambda row: (row[:length] in runs) + (length < stage and row[-length:] in runs)


def pattern_counter(patterns: list[str], name: str, stage: int) -> Count:
    """Counts a row once if it fits one of the patterns."""
    for pattern in patterns:
        why = pattern_words(pattern, stage)
        if why:
            raise Mistake(f"the pattern “{pattern}” of the music {name}: {why}.")
    ends = [whole_pattern(pattern, stage) for pattern in patterns]
    return lambda row: int(any(fits(row, pattern) for pattern in ends))


def whole_pattern(pattern: str, stage: int) -> str:
    """A pattern with a cell for each bell."""
    return pattern.replace("*", "?" * (stage + 1 - len(pattern)))


def fits(row: str, pattern: str) -> bool:
    return all(cell in ("?", bell) for cell, bell in zip(pattern, row))


def count_rows(kinds: list[Kind], rows: list[Row]) -> tuple[int, ...]:
    """How much of each kind there is in some rows."""
    texts = [row_text(row) for row in rows]
    return tuple(sum(kind.count(text) for text in texts) for kind in kinds)


def names_of(kinds: list[Kind], row: Row) -> list[str]:
    """The names that a row has."""
    text = row_text(row)
    return [kind.names[text] for kind in kinds if text in kind.names]
