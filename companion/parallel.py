"""GNU parallel as the engine of a search on many machines."""

import re
import shutil
import signal
import subprocess
import time
from contextlib import suppress
from dataclasses import dataclass

from companion import folder as files
from companion import interrupts, machine, tasks
from companion.dealing import Dealing
from companion.estimate import duration
from companion.folder import Folder
from companion.mistakes import Mistake
from companion.progress import Progress

NAME, LOG, NOTES = "parallel", "joblog.txt", "parallel.log"
# A task that is given up has so many milliseconds to end, and is then ended.
END = "TERM,10000,KILL,1000"
# parallel ends its tasks and then itself within so many seconds, or is ended.
PATIENCE = 15.0
PAUSE = 0.1
# It ends with the number of tasks that failed, with this where these are more, and else for another reason.
MANY_FAILED = 101
ENTRY = re.compile(r"(\d+)\t([^\t]*)\t *(\d+\.\d+)\t *(\d+\.\d+)\t\d+\t\d+\t(-?\d+)\t(\d+)\t.*\n")


@dataclass(frozen=True)
class Entry:
    """A task that ended, as parallel tells it: its line, when it began, and the seconds that it took."""

    line: int
    began: float
    seconds: float
    failed: bool

    def end(self) -> float:
        return self.began + self.seconds

    def is_overdue(self, longest: float) -> bool:
        """Whether parallel gave the task up after so many seconds."""
        return self.failed and self.seconds >= longest


@dataclass(frozen=True)
class Hosts:
    """Where tasks run, and how many on each host at a time."""

    slots: int | None
    logins: list[str]
    file: str | None

    def words(self) -> list[str]:
        told = [] if self.slots is None else ["--jobs", str(self.slots)]
        for login in self.logins:
            told += ["--sshlogin", login]
        return told + (["--sshloginfile", self.file] if self.file else [])

    def are_elsewhere(self) -> bool:
        return bool(self.logins or self.file)


def refuse_missing() -> None:
    found = shutil.which(NAME)
    told = subprocess.run([found, "--version"], capture_output=True, check=False, timeout=60).stdout if found else b""
    if not told.startswith(b"GNU parallel"):
        raise Mistake("GNU parallel is not here: it is Debian's package `parallel`.")


def entries(folder: Folder) -> list[Entry]:
    """What parallel's log tells, but for a line that was torn off."""
    lines = folder.read(LOG).decode(errors="replace").splitlines(keepends=True) if folder.has(LOG) else []
    read = [ENTRY.fullmatch(line) for line in lines]
    return [Entry(int(one[1]), float(one[3]), float(one[4]), (one[5], one[6]) != ("0", "0")) for one in read if one]


def mend_log(folder: Folder) -> None:
    """Leaves in the log what parallel reads again: whole lines, in which no host has a space."""
    if not folder.has(LOG):
        return
    head, *lines = folder.read(LOG).decode(errors="replace").splitlines(keepends=True) or [""]
    read = [ENTRY.fullmatch(line) for line in lines]
    whole = [line.replace(one[2], one[2].replace(" ", "_"), 1) for line, one in zip(lines, read) if one]
    folder.write(LOG, "".join([head if head.endswith("\n") else "Seq\n", *whole]).encode())


def last_entries(folder: Folder) -> dict[str, Entry]:
    """What parallel's log tells last of each shard."""
    names = tasks.Tasks(folder).names()
    return {names[entry.line - 1]: entry for entry in entries(folder) if 0 < entry.line <= len(names)}


def overdue(folder: Folder, longest: float) -> set[str]:
    """The shards whose task parallel gave up; on another host it may be told so before the task itself has."""
    return {name for name, entry in last_entries(folder).items() if entry.is_overdue(longest)}


class ParallelSearch:
    """The search of what waits by one call of parallel, and another one for what was split, until none is left."""

    def __init__(self, dealing: Dealing, hosts: Hosts, kilobytes: int | None, progress: Progress):
        self.dealing = dealing
        self.folder = dealing.folder
        self.hosts = hosts
        self.kilobytes = kilobytes
        self.progress = progress

    def search(self) -> None:
        """Searches until each shard has its book."""
        self.split_given_up()
        while self.dealing.shards.waiting:
            tasks.drop_left(self.folder)
            self.dealing.listed(again=False)
            self.run()
            self.dealing.look()
            if not self.split_given_up() and self.dealing.shards.waiting:
                raise self.dealing.failed(NOTES)

    def split_given_up(self) -> int:
        return self.dealing.split_given_up(overdue(self.folder, self.dealing.longest))

    def command(self) -> list[str]:
        """The words of the call. A task's number is its line, since the list only grows."""
        folder = self.folder
        return [
            NAME, "--ungroup", "--joblog", str(folder.path(LOG)), "--resume-failed",
            "--timeout", f"{self.dealing.longest:.3f}", "--termseq", END, *self.hosts.words(),
            tasks.command(folder, "{#}", self.kilobytes), "::::", str(folder.path(tasks.LIST)),
        ]

    def run(self) -> None:
        """Calls parallel, and waits for its end."""
        mend_log(self.folder)
        with self.folder.path(NOTES).open("ab") as notes:
            process = subprocess.Popen(
                self.command(), stdin=subprocess.DEVNULL, stdout=notes, stderr=notes,
                preexec_fn=machine.ending_with_starter(signal.SIGTERM), process_group=0)
        try:
            while process.poll() is None:
                interrupts.check()
                if self.progress.is_due():
                    self.progress.show(self.words())
                time.sleep(PAUSE)
        finally:
            stop(process)
        if not 0 <= process.returncode <= MANY_FAILED:
            raise Mistake(f"parallel ended with status {process.returncode}: {last_line(self.folder, NOTES)}")

    def words(self) -> str:
        """The line of progress."""
        done = len(self.folder.names(files.BOOKS))
        left = len(self.dealing.shards.waiting) + len(self.dealing.shards.done) - done
        return f"{done} shards done, {left} left, {duration(self.progress.gone())} gone"


def stop(process: subprocess.Popen) -> None:
    """Ends parallel, which ends its tasks."""
    if process.poll() is None:
        process.terminate()
        with suppress(subprocess.TimeoutExpired):
            process.wait(PATIENCE)
    process.kill()
    process.wait()


def last_line(folder: Folder, name: str) -> str:
    lines = folder.read(name).decode(errors="replace").split("\n") if folder.has(name) else []
    return next((line.strip() for line in reversed(lines) if line.strip()), "it said nothing")
