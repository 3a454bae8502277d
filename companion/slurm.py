"""Slurm as the engine of a search on many machines: job arrays, each followed by a job that deals the next one."""

import os
import re
import shlex
import shutil
import subprocess
import sys
from dataclasses import dataclass

from companion import tasks
from companion.dealing import Dealing
from companion.engine import TOP
from companion.folder import PROBLEM, SHORT_WAIT, Folder
from companion.mistakes import Mistake

NAME, CHAIN, NOTES = "slurm", "slurm.txt", "slurm.log"
# Slurm's own commands answer within so many seconds, or are not waited for.
PATIENCE = 120
# An array has no more tasks where Slurm tells no other number.
MOST_TASKS = 1001


# The job that deals may begin before the command that asked for it has let go of the folder.
DEALER_WAITS = 60


def patience() -> float:
    return DEALER_WAITS if "SLURM_JOB_ID" in os.environ else SHORT_WAIT


@dataclass(frozen=True)
class Chain:
    """The numbers of the array at work, and of the job that deals after it."""

    array: str
    dealer: str

    def is_dealt_here(self) -> bool:
        """Whether this process is that job."""
        return os.environ.get("SLURM_JOB_ID") == self.dealer


def refuse_missing() -> None:
    if not shutil.which("sbatch"):
        raise Mistake("Slurm is not here: `sbatch` is not found; Debian's package is `slurm-wlm`.")


def ask(words: list[str]) -> str:
    """What a command of Slurm answers."""
    try:
        ran = subprocess.run(words, stdin=subprocess.DEVNULL, capture_output=True, text=True, timeout=PATIENCE, check=False)
    except FileNotFoundError:
        raise Mistake(f"Slurm is not here: `{words[0]}` is not found.") from None
    except subprocess.TimeoutExpired:
        raise Mistake(f"Slurm does not answer: `{words[0]}` took longer than {PATIENCE} s.") from None
    if ran.returncode:
        said = (ran.stderr.strip() or f"status {ran.returncode}").splitlines()
        raise Mistake(f"Slurm refuses `{words[0]}`: {said[0]}")
    return ran.stdout


def read_chain(folder: Folder) -> Chain | None:
    numbers = folder.read(CHAIN).decode().split() if folder.has(CHAIN) else []
    return Chain(*numbers) if len(numbers) == 2 else None


def jobs_at_work() -> dict[str, str]:
    """The user's jobs and tasks of arrays that have not ended, and how each stands."""
    lines = ask(["squeue", "--noheader", "--me", "--array", "--format", "%i %T"]).splitlines()
    return dict(line.split(None, 1) for line in lines if line.strip())


def is_at_work(chain: Chain) -> bool:
    numbers = {number.split("_")[0] for number in jobs_at_work()}
    return bool(numbers & {chain.array, chain.dealer})


def most_tasks() -> int:
    told = re.search(r"MaxArraySize\s*=\s*(\d+)", ask(["scontrol", "show", "config"]))
    return int(told[1]) if told else MOST_TASKS


class SlurmSearch:
    """One link of the chain: the next array, and the job that deals after it."""

    def __init__(self, dealing: Dealing, slots: int | None, kilobytes: int | None, again: list[str]):
        self.dealing = dealing
        self.folder = dealing.folder
        self.slots = slots
        self.kilobytes = kilobytes
        # The options of the command, for the job that deals.
        self.again = again

    def search(self) -> str | None:
        """Gives what waits to Slurm, and tells so; None where nothing waits."""
        chain = read_chain(self.folder)
        is_dealer = bool(chain and chain.is_dealt_here())
        if chain and not is_dealer and is_at_work(chain):
            return f"array {chain.array} of Slurm is at work, and job {chain.dealer} deals after it"
        self.dealing.split_given_up()
        if not self.dealing.shards.waiting:
            return None
        tasks.drop_left(self.folder)
        lines = self.dealing.listed(again=not is_dealer, most=most_tasks())
        if not lines:
            raise self.dealing.failed(NOTES)
        chain = self.submit(lines)
        return f"array {chain.array} of Slurm has {len(lines)} tasks, and job {chain.dealer} deals after it"

    def submit(self, lines: range) -> Chain:
        array = self.batch(
            ["--array", f"0-{len(lines) - 1}" + (f"%{self.slots}" if self.slots else ""), "--requeue",
             "--time", str(int(self.dealing.longest // 60))],
            tasks.command(self.folder, f"$(({lines.start} + SLURM_ARRAY_TASK_ID))", self.kilobytes))
        self.folder.write(CHAIN, f"{array} -\n".encode())
        dealer = self.batch(["--dependency", f"afterany:{array}", "--requeue"], self.dealer_command())
        self.folder.write(CHAIN, f"{array} {dealer}\n".encode())
        return Chain(array, dealer)

    def batch(self, words: list[str], line: str) -> str:
        """Gives Slurm a job of one line of the shell; its number."""
        top = self.folder.top.resolve()
        notes = ["--output", str(top / NOTES).replace("%", "%%"), "--open-mode", "append"]
        told = ask(["sbatch", "--parsable", "--job-name", "compose", "--chdir", str(top), *notes, *words, "--wrap", f"exec {line}"])
        return told.strip().split(";")[0]

    def dealer_command(self) -> str:
        """The same command on what stands in the folder, which so needs no other file than those of ./compose."""
        top = self.folder.top.resolve()
        words = [sys.executable, "-B", str(TOP / "compose"), "shards", str(top / PROBLEM), "--into", str(top), *self.again]
        return f"env RINGSEARCH={shlex.quote(str(top / tasks.PROGRAM))} {shlex.join(words)}"
