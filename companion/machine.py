"""What the machine has, and what a program that is started may take of it."""

import ctypes
import os
import resource
import signal
from collections.abc import Callable
from pathlib import Path

GIGABYTE = 1_000_000_000
# Of the memory that is free, so much is left to the system.
LEFT = 0.1
# The name of the call by which a process ends with the one that started it, as Linux has it.
SET_DEATH_SIGNAL = 1


def processors() -> int:
    """How many processors this process may use."""
    return len(os.sched_getaffinity(0)) if hasattr(os, "sched_getaffinity") else os.cpu_count() or 1


def free_memory() -> int:
    """The bytes of memory that are free, or that this process may still take where that is less."""
    limits = [_number(f"/sys/fs/cgroup/{name}") for name in ("memory.max", "memory/memory.limit_in_bytes")]
    return min([limit for limit in limits if limit] + [_available()])


def _number(path: str) -> int | None:
    try:
        return int(Path(path).read_text())
    except (OSError, ValueError):
        return None


def _available() -> int:
    try:
        for line in Path("/proc/meminfo").read_text().splitlines():
            if line.startswith("MemAvailable:"):
                return int(line.split()[1]) * 1024
    except (OSError, ValueError):
        pass
    return os.sysconf("SC_PAGE_SIZE") * os.sysconf("SC_PHYS_PAGES")


def usable_memory() -> int:
    return int(free_memory() * (1 - LEFT))


def ending_with_starter(name: signal.Signals) -> Callable[[], None]:
    """What a new process does first: it gets this signal where the one that started it ends."""
    call = _death_signal()
    starter = os.getpid()

    def begin() -> None:
        if call:
            call(SET_DEATH_SIGNAL, name)
        # No signal comes of an end that was before.
        if os.getppid() != starter:
            os._exit(1)

    return begin


def bounded(memory: int) -> Callable[[], None]:
    """What a new process does first: it takes no more than so many bytes, and ends where the one that started it does."""
    end_with_starter = ending_with_starter(signal.SIGKILL)

    def begin() -> None:
        hard = resource.getrlimit(resource.RLIMIT_AS)[1]
        most = memory if hard == resource.RLIM_INFINITY else min(memory, hard)
        resource.setrlimit(resource.RLIMIT_AS, (most, hard))
        end_with_starter()

    return begin


def _death_signal() -> Callable | None:
    try:
        return ctypes.CDLL(None).prctl
    except (OSError, AttributeError):
        return None
