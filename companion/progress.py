"""The line of progress: by rich where it is installed, else plain, and now and then where the output is no terminal."""

import shutil
import sys
import time
from typing import Protocol, TextIO

# Where the output is no terminal, so many seconds pass from one line to the next.
QUIET = 60.0
# On a terminal the line is written anew after so many seconds.
FRESH = 0.2
# So many touches are shown as they come.
TOUCHES = 10


class Line(Protocol):
    """A place for one line that changes, below lines that stay."""

    def show(self, text: str) -> None: ...

    def note(self, text: str) -> None: ...

    def close(self) -> None: ...


class PlainLine:
    """Lines one below the other, few of them."""

    def __init__(self, out: TextIO):
        self.out = out
        self.shown_at: float | None = None
        self.last = self.shown = ""

    def show(self, text: str) -> None:
        self.last = text
        now = time.monotonic()
        if self.shown_at is None or now - self.shown_at >= QUIET:
            self.shown_at = now
            self._write(text)

    def note(self, text: str) -> None:
        print(text, file=self.out, flush=True)

    def close(self) -> None:
        if self.last != self.shown:
            self._write(self.last)

    def _write(self, text: str) -> None:
        self.shown = text
        print(text, file=self.out, flush=True)


class TerminalLine:
    """One line that is written over."""

    def __init__(self, out: TextIO):
        self.out = out
        self.shown_at = 0.0
        self.text = ""

    def show(self, text: str) -> None:
        self.text = text
        now = time.monotonic()
        if now - self.shown_at >= FRESH:
            self.shown_at = now
            self._write()

    def note(self, text: str) -> None:
        print(f"\r\x1b[K{text}", file=self.out)
        self._write()

    def close(self) -> None:
        self._write()
        print(file=self.out, flush=True)

    def _write(self) -> None:
        room = shutil.get_terminal_size().columns - 1
        print(f"\r\x1b[K{self.text[:room]}", end="", file=self.out, flush=True)


class RichLine:
    """The same by rich."""

    def __init__(self, out: TextIO):
        from rich.console import Console
        from rich.live import Live
        from rich.spinner import Spinner
        self.spinner = Spinner("dots")
        self.live = Live(self.spinner, console=Console(file=out, markup=False, highlight=False), refresh_per_second=5)
        self.live.start()

    def show(self, text: str) -> None:
        self.spinner.update(text=text)

    def note(self, text: str) -> None:
        self.live.console.print(text)

    def close(self) -> None:
        self.live.stop()


def line_on(out: TextIO) -> Line:
    if not out.isatty():
        return PlainLine(out)
    try:
        return RichLine(out)
    except ImportError:
        return TerminalLine(out)


class Progress:
    """What a user sees of a search, on standard error."""

    def __init__(self, out: TextIO | None = None):
        self.out = out or sys.stderr
        self.line = line_on(self.out)
        self.began = time.monotonic()
        self.touches_shown = 0
        self.due = 0.0

    def is_due(self) -> bool:
        """Whether it is time for another line: some five times in a second."""
        if time.monotonic() < self.due:
            return False
        self.due = time.monotonic() + FRESH
        return True

    def show(self, text: str) -> None:
        self.line.show(text)

    def note(self, text: str) -> None:
        self.line.note(text)

    def touches(self, lines: list[bytes]) -> None:
        """Shows touches that were found, until there are enough."""
        for line in lines[:TOUCHES - self.touches_shown]:
            self.touches_shown += 1
            self.note(f"  found: {shortened(line.decode())}")

    def wants_touches(self) -> int:
        return TOUCHES - self.touches_shown

    def gone(self) -> float:
        return time.monotonic() - self.began

    def close(self) -> None:
        self.line.close()


def shortened(text: str) -> str:
    return text if len(text) <= 100 else text[:99] + "…"
