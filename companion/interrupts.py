"""Ctrl-C, `kill` and a closed terminal, each of which ends a search."""

import signal
from collections.abc import Iterator
from contextlib import contextmanager

NAMES = (signal.SIGINT, signal.SIGTERM, signal.SIGHUP)
_came = False


@contextmanager
def ended_by_signals() -> Iterator[None]:
    """Takes each signal as KeyboardInterrupt, but for those that are ignored, as under nohup."""
    global _came
    _came = False
    heard = [name for name in NAMES if signal.getsignal(name) is not signal.SIG_IGN]
    before = {name: signal.signal(name, _interrupt) for name in heard}
    try:
        yield
    finally:
        for name, handler in before.items():
            signal.signal(name, handler)


def _interrupt(*_: object) -> None:
    global _came
    _came = True
    raise KeyboardInterrupt


def check() -> None:
    """Raises it once more where it was lost: Python lets go what is raised while it forks, or ends an object."""
    if _came:
        raise KeyboardInterrupt
