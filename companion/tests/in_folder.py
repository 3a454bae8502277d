"""Tests of searches in a folder: problems, and the command in a process of its own that can be killed."""

import contextlib
import multiprocessing
import os
import signal
import subprocess
import sys
import tempfile
import time
import unittest
from pathlib import Path
from unittest import mock

from companion.command import main
from companion.tests.running import PROGRAM, compose, need_program

# A folder in memory, where there is one: to write a file safely takes long on a busy disk.
ROOM = "/dev/shm" if os.access("/dev/shm", os.W_OK) else None
MOMENT = 0.002
# A busy machine takes long.
PATIENCE = 300
# A process that begins as a copy of this one, and need not read its modules again.
FORK = multiprocessing.get_context("fork")

PROBLEMS = {
    "one method": ["Plain Bob Minor", "--length", "1-204", "--bobs", "--singles"],
    "spliced": ["Plain Bob Doubles", "St Simon's Bob Doubles", "--length", "1-120", "--bobs", "--at-least", "1", "*345", "--changes-of-method", "2-"],
    "parts": ["Grandsire Triples", "--length", "1-420", "--parts", "5", "--bobs"],
    "no touch": ["Plain Bob Minor", "--length", "61-71", "--bobs"],
    "one lead": ["Plain Bob Minor", "--length", "1-12"],
}


def problem_text(name):
    return compose("problem", *PROBLEMS[name])[0]


def book_of(problem):
    return subprocess.run([PROGRAM], input=problem.encode(), capture_output=True, check=True, timeout=110).stdout


def command(words, program, notes):
    """The command, in a process that begins here; what it prints goes to a file."""
    # What a shell starts in the background ignores SIGINT.
    signal.signal(signal.SIGINT, signal.default_int_handler)
    os.environ["RINGSEARCH"] = str(program)
    with notes.open("w") as out, contextlib.redirect_stdout(out), contextlib.redirect_stderr(out):
        status = main(words)
    sys.exit(status)


def is_at_work(pid):
    """Whether there is such a process, and it has not ended."""
    with contextlib.suppress(OSError):
        return Path(f"/proc/{pid}/stat").read_text().rsplit(")", 1)[1].split()[0] not in "ZX"
    return False


class InFolder(unittest.TestCase):
    def setUp(self):
        need_program()
        folder = tempfile.TemporaryDirectory(dir=ROOM)
        self.addCleanup(folder.cleanup)
        self.folder = Path(folder.name)
        self.problem = self.folder / "p.toml"
        self.into = self.folder / "search"

    def write_problem(self, name="one method"):
        self.problem.write_text(problem_text(name))
        return book_of(self.problem.read_text())

    def use(self, program):
        """Lets a program stand in for the true one."""
        changed = mock.patch.dict(os.environ, RINGSEARCH=str(program))
        changed.start()
        self.addCleanup(changed.stop)

    def search(self, *words, status=0):
        return compose("search", self.problem, "--into", self.into, "--jobs", "2", *words, status=status)

    def begin(self, *words, program=PROGRAM):
        """The command in a process of its own."""
        return self.start(["search", self.problem, "--into", self.into, "--jobs", "2", *words], program)

    def start(self, every, program):
        running = FORK.Process(target=command, args=([str(word) for word in every], program, self.folder / "notes"))
        running.start()
        return running

    def kill_when(self, running, ready, name):
        """Sends a signal as soon as it is time; what the command wrote. It must not have ended before."""
        until = time.monotonic() + PATIENCE
        try:
            while not ready():
                self.assertTrue(running.is_alive())
                self.assertLess(time.monotonic(), until)
                time.sleep(MOMENT)
            os.kill(running.pid, name)
            running.join(PATIENCE)
            self.assertFalse(running.is_alive())
            return (self.folder / "notes").read_text()
        finally:
            running.kill()
            running.join()

    def hold_book(self, book):
        self.assertEqual((self.into / "book.txt").read_bytes(), book)
