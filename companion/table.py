"""Tables: by rich where it is installed and the output is a terminal, and else as plain lines."""

from typing import TextIO


def show(head: list[str], lines: list[list[str]], out: TextIO) -> None:
    if out.isatty() and show_rich(head, lines):
        return
    print("\n".join(plain_lines(head, lines)), file=out)


def show_rich(head: list[str], lines: list[list[str]]) -> bool:
    """Whether rich is installed; the table is shown then."""
    try:
        from rich.box import SIMPLE_HEAD
        from rich.console import Console
        from rich.table import Table
    except ImportError:
        return False
    made = Table(box=SIMPLE_HEAD)
    for at, name in enumerate(head):
        made.add_column(name, justify="right" if is_numeric(lines, at) else "left")
    for line in lines:
        made.add_row(*line)
    Console(markup=False, highlight=False).print(made)
    return True


def is_numeric(lines: list[list[str]], at: int) -> bool:
    return bool(lines) and all(line[at].isdecimal() for line in lines)


def plain_lines(head: list[str], lines: list[list[str]]) -> list[str]:
    """Lines whose columns stand below one another: numbers to the right, texts to the left."""
    widths = [max(len(line[at]) for line in [head, *lines]) for at in range(len(head))]
    numeric = [is_numeric(lines, at) for at in range(len(head))]
    return [
        "  ".join(cell.rjust(width) if right else cell.ljust(width) for cell, width, right in zip(line, widths, numeric)).rstrip()
        for line in [head, *lines]
    ]
