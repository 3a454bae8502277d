"""Runs ./compose and the built program for the tests."""

import contextlib
import io
import os
import subprocess
import sys
from pathlib import Path

from companion.command import main

TOP = Path(__file__).resolve().parents[2]
PROGRAM = Path(os.environ.get("RINGSEARCH", TOP / "crates/cr_main/out/cr_main"))


def compose(*words, status=0):
    """What ./compose prints, and its words on standard error; the status must be the one that is told."""
    output, notes = io.StringIO(), io.StringIO()
    with contextlib.redirect_stdout(output), contextlib.redirect_stderr(notes):
        ended = main([str(word) for word in words])
    if ended != status:
        raise AssertionError(f"compose {words}: status {ended}, and not {status}\n{output.getvalue()}{notes.getvalue()}")
    return output.getvalue(), notes.getvalue()


def compose_in_shell(line, folder):
    """The status, the output and the notes of a line of the shell in which ./compose and ./ringsearch stand."""
    need_program()
    line = line.replace("./compose", f"{sys.executable} -B {TOP}/compose").replace("./ringsearch", str(PROGRAM))
    ran = subprocess.run(["bash", "-c", line], capture_output=True, text=True, timeout=110, check=False, cwd=folder)
    return ran.returncode, ran.stdout, ran.stderr


def need_program():
    if not PROGRAM.exists():
        raise AssertionError(f"the program is not at {PROGRAM}: ./ringsearch builds it, or RINGSEARCH tells where it is.")


def search(problem, *words):
    """The status, the book's lines and the notes of the program."""
    need_program()
    data = problem.encode() if isinstance(problem, str) else problem
    ran = subprocess.run([PROGRAM, *words], input=data, capture_output=True, timeout=110, check=False)
    return ran.returncode, ran.stdout.decode().splitlines(), ran.stderr.decode().strip()
