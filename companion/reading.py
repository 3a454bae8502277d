"""The bytes of a problem file, read as TOML, and what is wrong where they are none."""

import re
import tomllib
from dataclasses import dataclass
from typing import Any

LEAST_INTEGER, MOST_INTEGER = -(2**63), 2**63 - 1

TYPOGRAPHIC = "“”„‟‘’‚‛«»″′"
BLANKS = {
    "\u00a0": "a no-break space",
    "\u202f": "a narrow no-break space",
    "\u2007": "a figure space",
    "\u2009": "a thin space",
    "\u200b": "a space of no width",
    "\ufeff": "a byte order mark",
    "\u3000": "an ideographic space",
}


@dataclass(frozen=True)
class NotToml(Exception):
    """Why bytes are no TOML: a sentence without its full stop, and the line and the column, counted from 1, if known."""

    words: str
    line: int | None = None
    column: int | None = None


def read_toml(data: bytes) -> dict[str, Any]:
    """The table that the bytes spell; NotToml is raised where they spell none."""
    refuse_other_files(data)
    text = decoded(data).removeprefix("\ufeff")
    try:
        table = tomllib.loads(text)
    except tomllib.TOMLDecodeError as error:
        raise explained(text, str(error)) from None
    except RecursionError:
        raise NotToml("values lie too deep in one another") from None
    refuse_wide_integers(table)
    return table


def refuse_other_files(data: bytes) -> None:
    """Names what is no text in UTF-8 at all."""
    if data.startswith(b"\x1f\x8b"):
        raise NotToml("the file is compressed by gzip: unpack it first, with gunzip")
    if data.startswith(b"PK\x03\x04"):
        raise NotToml("the file is a zip archive: unpack it first")
    if data.startswith((b"\xff\xfe", b"\xfe\xff")) or looks_like_wide_text(data):
        raise NotToml("the file is in UTF-16: save it as UTF-8")
    if data.startswith(b"%PDF"):
        raise NotToml("the file is a PDF: a problem file is plain text")


def looks_like_wide_text(data: bytes) -> bool:
    """Whether every other byte at the start is 0, as in UTF-16 without its mark."""
    front = data[:40]
    return len(front) >= 8 and (not any(front[1::2]) or not any(front[0::2]))


def decoded(data: bytes) -> str:
    try:
        return data.decode("utf-8")
    except UnicodeDecodeError as error:
        line, column = position(data[: error.start].decode("utf-8"))
        words = f"byte {data[error.start]:#04x} is no UTF-8: save the file as UTF-8"
        raise NotToml(words, line, column) from None


def position(front: str) -> tuple[int, int]:
    """The line and the column of what follows a front of a text."""
    return front.count("\n") + 1, len(front) - (front.rfind("\n") + 1) + 1


def explained(text: str, message: str) -> NotToml:
    """What the reader of TOML says, with its place and the likely cause."""
    match = re.search(r"^(.*) \(at line (\d+), column (\d+)\)$", message, re.DOTALL)
    if match:
        said, line, column = match[1], int(match[2]), int(match[3])
    else:
        said = re.sub(r" \(at end of document\)$", "", message)
        line, column = position(text.rstrip("\n"))
    lines = text.split("\n")
    likely = likely_cause(lines[line - 1] if line <= len(lines) else "", said)
    if likely is None and line > 1:
        likely = unclosed_text(lines[line - 2])
    return NotToml(likely or said[:1].lower() + said[1:], line, column)


def without_texts(line: str) -> str:
    """A line without its comment, and with its closed texts made blank."""
    blanked = re.sub(r"\"(?:[^\"\\]|\\.)*\"|'[^']*'", lambda match: '"' + " " * (len(match[0]) - 2) + '"', line)
    return blanked.split("#", 1)[0]


def likely_cause(line: str, said: str) -> str | None:
    """What a beginner most likely did on this line."""
    bare = without_texts(line)
    if said.startswith(("Cannot overwrite", "Cannot declare", "Duplicate")):
        return "a key or a table stands twice: take one of the two out"
    found = next((mark for mark in bare if mark in TYPOGRAPHIC), None)
    if found:
        return f"{found} is a typographic quote: a text stands in straight ones, \"...\""
    blank = next((mark for mark in bare if mark in BLANKS), None)
    if blank:
        return f"{BLANKS[blank]} stands at column {line.index(blank) + 1}: write a plain space"
    if re.fullmatch(r"\s*[\w.-]+\s*=\s*", bare):
        return "nothing stands after `=`: write the value, a text in quotes or a number"
    if re.match(r"\s*[\w.-]+\s*=\s*(\"[^\"]*|'[^']*)$", bare):
        return "a text has no closing quote"
    if re.match(r"\s*[\w.-]+\s*:", bare):
        return "a key and its value stand with `=` between them, and not with `:`"
    value = re.match(r"\s*([\w.-]+)\s*=\s*([^\s\"'\[{].*?)\s*$", bare)
    if value:
        return f"a text stands in quotes: {value[1]} = \"{value[2]}\""
    if re.match(r"\s*\[{1,2}[\w.-]*\s*$", bare):
        return "a table's name stands in closed brackets, as [query] or [[method]]"
    if bare.strip() and "=" not in bare and not bare.lstrip().startswith("["):
        return "a line is a key with its value, as stage = 6, a table's name in brackets, or a comment after #"
    return None


def unclosed_text(line: str) -> str | None:
    if re.match(r"\s*[\w.-]+\s*=\s*(\"[^\"]*|'[^']*)$", without_texts(line)):
        return "the text on the line before has no closing quote"
    return None


def refuse_wide_integers(value: Any) -> None:
    """The program reads integers of 64 bits."""
    for number in integers_in(value):
        if not LEAST_INTEGER <= number <= MOST_INTEGER:
            raise NotToml(f"the number {number} does not fit 64 bits")


def integers_in(value: Any) -> list[int]:
    if isinstance(value, dict):
        return [number for item in value.values() for number in integers_in(item)]
    if isinstance(value, list):
        return [number for item in value for number in integers_in(item)]
    return [value] if isinstance(value, int) and not isinstance(value, bool) else []
