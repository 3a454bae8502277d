"""What to mend, fault by fault, as docs/formats.md says it."""

import re
from functools import cache
from pathlib import Path

FORMATS = Path(__file__).resolve().parent.parent / "docs" / "formats.md"


@cache
def _rows() -> list[list[str]]:
    """The rows of all tables of the document."""
    if not FORMATS.exists():
        return []
    lines = FORMATS.read_text(encoding="utf-8").splitlines()
    return [[cell.strip() for cell in re.split(r"(?<!\\)\|", line)[1:-1]] for line in lines if line.startswith("|")]


def problem_cure(number: int, name: str) -> str:
    """What to mend where a problem file has this fault."""
    for row in _rows():
        if len(row) == 4 and row[0] == str(number) and re.match(rf"`{name}\b", row[1]):
            return row[3]
    return ""


def notation_cure(name: str) -> str:
    """What to mend where a notation has this fault."""
    for row in _rows():
        if len(row) == 4 and row[0] == f"`{name}`":
            return row[3]
    return ""
