"""The program: where it is, what it says of a file, and its runs."""

import os
import signal
import subprocess
import tempfile
import time
from collections.abc import Callable
from contextlib import ExitStack, suppress
from dataclasses import dataclass
from pathlib import Path
from typing import BinaryIO

from companion import interrupts, machine
from companion.mistakes import Mistake

TOP = Path(__file__).resolve().parent.parent
BUILT = TOP / "crates/cr_main/out/cr_main"
# What the program is built by, where it isn't.
SMALL = TOP / "examples/plain-bob-minimus.toml"
# So many seconds pass at most until a signal that was lost is heard.
LONGEST_WAIT = 0.5
FINISHED, WORDS, STOPPED, PROBLEM, WRITE_FAULT, NO_MEMORY, NO_TRAIL, NO_JOIN = 0, 2, 3, 4, 7, 8, 10, 11


def program() -> Path | None:
    """The built program: where RINGSEARCH tells, or where ./ringsearch builds it; None where it isn't built."""
    path = Path(os.environ.get("RINGSEARCH") or BUILT)
    return path if path.is_file() and os.access(path, os.X_OK) else None


def ask(path: Path, problem: bytes) -> tuple[int, str]:
    """The status and the note of a search that may take no turn: it tells whether the file is taken, and searches nothing."""
    ran = subprocess.run([path, "--turns", "0"], input=problem, capture_output=True, check=False)
    return ran.returncode, ran.stderr.decode(errors="replace").strip()


def ready_program(problem: bytes) -> Path:
    """The program, which takes the problem. ./ringsearch builds it first where it isn't built or a source is newer."""
    told = os.environ.get("RINGSEARCH")
    if told and program() is None:
        raise Mistake(f"RINGSEARCH names {told}, and no program is there.")
    if not told:
        with SMALL.open("rb") as small:
            built = subprocess.run([TOP / "ringsearch"], stdin=small, stdout=subprocess.DEVNULL, check=False)
        if built.returncode or program() is None:
            raise Mistake("the program is not built: what ./ringsearch said above tells why.")
    path = program()
    status, note = ask(path, problem)
    if status not in (FINISHED, STOPPED):
        raise Mistake(f"the program does not take the problem ({note}); `./compose check` tells more.")
    return path


class Run:
    """The program at work on one input."""

    def __init__(self, path: Path, words: list[str], source: BinaryIO, sink: BinaryIO, memory: int):
        self.words = words
        self.began = time.monotonic()
        self.said = ""
        self.notes = tempfile.TemporaryFile()
        # Ctrl-C is for ./compose alone, which then ends the program.
        self.process = subprocess.Popen(
            [path, *words], stdin=source, stdout=sink, stderr=self.notes, preexec_fn=machine.bounded(memory), process_group=0)

    def age(self) -> float:
        return time.monotonic() - self.began

    def status(self) -> int | None:
        """Its status, or None as long as it is at work."""
        status = self.process.poll()
        if status is not None and not self.notes.closed:
            self.notes.seek(0)
            self.said = self.notes.read().decode(errors="replace").strip()
            self.notes.close()
        return status

    def wait(self) -> int:
        while self.process.returncode is None:
            with suppress(subprocess.TimeoutExpired):
                self.process.wait(LONGEST_WAIT)
            interrupts.check()
        return self.status()

    def stop(self) -> None:
        self.process.kill()
        self.process.wait()
        self.status()

    def finish(self, mistake: "Callable[[Run], Mistake] | None" = None) -> None:
        """Waits for its end. It must finish, or it is a mistake."""
        try:
            if self.wait() != FINISHED:
                raise mistake(self) if mistake else self.mistake()
        finally:
            self.stop()

    def mistake(self) -> Mistake:
        """What is wrong where it ended with a status that was not meant."""
        return Mistake(f"{why_ended(self)}; what is done is kept, and the same command goes on.")


def why_ended(run: Run) -> str:
    status = run.status()
    if status == NO_MEMORY:
        return "there is not enough memory: ask for fewer touches, or give more by --memory, or more to each run by --jobs 1"
    if status == WRITE_FAULT:
        return "a file can't be written: the disk is full, it seems"
    if status == WORDS:
        return f"the program does not know `{' '.join(run.words)}`: it is older than ./compose, and must be built anew"
    if status < 0:
        return f"a run of the program was ended by the signal {signal_name(-status)}"
    return f"a run of the program ended with status {status} ({run.said})"


def signal_name(number: int) -> str:
    try:
        return signal.Signals(number).name
    except ValueError:
        return str(number)


@dataclass(frozen=True)
class Engine:
    """The program, and the memory that one run of it may take where several run side by side."""

    path: Path
    jobs: int
    memory: int

    def start(self, words: list[str], source: BinaryIO, sink: BinaryIO, runs: int = 1) -> Run:
        """A run on a file, where so many runs share the memory."""
        return Run(self.path, words, source, sink, self.memory // runs)

    def start_on(self, words: list[str], data: bytes, sink: BinaryIO, runs: int = 1) -> Run:
        """The same on bytes."""
        with tempfile.TemporaryFile() as source:
            source.write(data)
            source.seek(0)
            return self.start(words, source, sink, runs)

    def answers(self, words: list[str], inputs: list[bytes], runs: int) -> list[tuple[int, bytes]]:
        """The statuses and the outputs of short runs on several inputs, side by side."""
        told = []
        for first in range(0, len(inputs), self.jobs):
            told += self._some_answers(words, inputs[first:first + self.jobs], runs)
        return told

    def _some_answers(self, words: list[str], inputs: list[bytes], runs: int) -> list[tuple[int, bytes]]:
        with ExitStack() as open_files:
            sinks = [open_files.enter_context(tempfile.TemporaryFile()) for _ in inputs]
            begun = [self.start_on(words, data, sink, runs) for data, sink in zip(inputs, sinks)]
            for run in begun:
                open_files.callback(run.stop)
            for run in begun:
                if run.wait() not in (FINISHED, STOPPED):
                    raise run.mistake()
            for sink in sinks:
                sink.seek(0)
            return [(run.status(), sink.read()) for run, sink in zip(begun, sinks)]
