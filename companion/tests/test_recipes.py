"""The recipes of docs/composing.md and docs/running.md, run as they stand there.

The numbers in the documents were found by plain_search, which shares nothing with the program or the companion. Cheap
recipes are searched by it here again; SLOW=1 in the environment does so for all of them. Of each book every touch is rung
by plain_search, and must be true and what was asked for.
"""

import os
import re
import signal
import subprocess
import tempfile
import time
import tomllib
import unittest
from pathlib import Path

from companion.tests import plain_search
from companion.tests.running import PROGRAM, TOP, compose_in_shell, need_program, search

COMPOSING = TOP / "docs/composing.md"
RUNNING = TOP / "docs/running.md"
FORMATS = TOP / "docs/formats.md"

# Recipes whose books plain_search finds in a few seconds.
CHEAP = ("first.toml", "grandsire.toml", "erin.toml", "kent.toml", "half.toml", "short.toml", "spliced.toml")


def recipes():
    """The recipes by their titles: the commands, and the lines that they give."""
    found = {}
    for part in COMPOSING.read_text(encoding="utf-8").split("\n## ")[1:]:
        title = part.split("\n", 1)[0]
        commands = re.findall(r"```sh\n(.*?)```", part, re.DOTALL)
        given = re.findall(r"```text\n(.*?)```", part, re.DOTALL)
        if commands:
            assert len(commands) == len(given), title
            found[title] = list(zip(commands, given))
    return found


def commands_of(title):
    """The commands of a section of docs/formats.md."""
    part = FORMATS.read_text(encoding="utf-8").split(f"\n## {title}\n")[1].split("\n## ", 1)[0]
    return [line.strip() for line in part.splitlines() if line.startswith("    ./ringsearch")]


def agrees(told, got):
    """Whether lines are those that are told, where `...` stands for any number of lines."""
    pattern = "".join(r"(?:.*\n)*?" if line.strip() == "..." else re.escape(line.rstrip()) + r" *\n" for line in told.splitlines())
    return re.fullmatch(pattern, got) is not None


def hold_touches(case, problem, lines):
    """Each line of a book is a true touch that is wanted, the lines ascend, and their number is told."""
    case.assertEqual(lines[-1], f"touches {len(lines) - 1}")
    plain = plain_search.load(problem)
    words = {plain_search.word(plain, (step,)): step for step in range(len(plain.steps))}
    width = max(map(len, words))
    before = (0, ())
    for line in lines[:-1]:
        length, text = line.split()
        calling = tuple(words[text[at:at + width]] for at in range(0, len(text), width))
        row, seen, total = plain_search.SYMBOLS[:plain.bells], 0, 0
        for step in calling:
            row, bits, count, bad, _ = plain.lead(row, step)
            case.assertFalse(bad or seen & bits, line)
            seen, total = seen | bits, total + count
        case.assertEqual((row, total), (plain_search.SYMBOLS[:plain.bells], int(length)), line)
        case.assertTrue(plain.query["min"] <= total <= plain.query["max"], line)
        case.assertTrue(plain_search.is_wanted(plain, calling), line)
        parts = plain.query["parts"]
        case.assertEqual(calling, calling[:len(calling) // parts] * parts, line)
        case.assertLess(before, (total, calling), line)
        before = (total, calling)


class Recipes(unittest.TestCase):
    def setUp(self):
        need_program()
        folder = tempfile.TemporaryDirectory()
        self.addCleanup(folder.cleanup)
        self.folder = Path(folder.name)
        (self.folder / "examples").symlink_to(TOP / "examples")

    def test_there_are_ten(self):
        self.assertGreaterEqual(len(recipes()), 10)

    def test_each_recipe_gives_what_it_says(self):
        for title, blocks in recipes().items():
            for commands, given in blocks:
                with self.subTest(title):
                    status, output, notes = compose_in_shell(commands, self.folder)
                    self.assertEqual((status, notes), (0, ""), commands)
                    self.assertTrue(agrees(given, output), f"{commands}\ngives\n{output}\nand not\n{given}")
        for file in sorted(self.folder.glob("*.toml")):
            with self.subTest(file.name):
                self.hold_book(file)

    def hold_book(self, file):
        problem = file.read_text(encoding="utf-8")
        tomllib.loads(problem)
        status, lines, _ = search(problem)
        self.assertEqual(status, 0)
        hold_touches(self, problem, lines)
        if file.name in CHEAP or os.environ.get("SLOW"):
            self.assertEqual(plain_search.book(problem), lines)


class Running(unittest.TestCase):
    """What docs/running.md says of long searches."""

    def setUp(self):
        need_program()
        folder = tempfile.TemporaryDirectory()
        self.addCleanup(folder.cleanup)
        self.folder = Path(folder.name)

    def test_the_loop_of_slices_gives_the_same_book(self):
        example = (TOP / "examples/plain-bob-minor-bobs-and-singles.toml").read_text()
        (self.folder / "p.toml").write_text(example)
        loop = re.search(r"    cp p\.toml next\.txt\n(?:    .*\n)+", RUNNING.read_text(encoding="utf-8"))[0]
        self.assertIn("--turns 10000000000", loop)
        status, output, notes = compose_in_shell(loop.replace("10000000000", "900"), self.folder)
        self.assertEqual((status, output), (0, ""))
        self.assertGreaterEqual(notes.count("ringsearch: stopped after 900 turns"), 3)
        self.assertEqual((self.folder / "out.txt").read_text().splitlines(), search(example)[1])

    def test_the_example_of_a_checkpoint_in_the_formats(self):
        lines = commands_of("The checkpoint")
        self.assertEqual(len(lines), 2)
        (self.folder / "examples").symlink_to(TOP / "examples")
        self.assertEqual(compose_in_shell(lines[0], self.folder), (3, "", "ringsearch: stopped after 1000 turns\n"))
        status, book, _ = compose_in_shell(lines[1], self.folder)
        example = (TOP / "examples/plain-bob-minor-bobs-and-singles.toml").read_text()
        self.assertEqual((status, book.splitlines()), (0, search(example)[1]))

    def test_the_commands_of_a_trail_in_the_formats(self):
        example = (TOP / "examples/plain-bob-minor-bobs-and-singles.toml").read_text()
        (self.folder / "problem.toml").write_text(example)
        first, last, onward, done, book = [line.replace("10000000000", "900") for line in commands_of("The trail")]
        self.assertEqual(compose_in_shell(first, self.folder), (0, "", ""))
        trail = self.folder / "trail"
        whole = trail.read_bytes()
        trail.write_bytes(whole[:len(whole) // 2])
        for line in (last, onward, done, book):
            self.assertEqual(compose_in_shell(line, self.folder), (0, "", ""))
        self.assertEqual((self.folder / "book.txt").read_text().splitlines(), search(example)[1])
        self.assertTrue((self.folder / "trail2").read_bytes().endswith(b"\njobs 0\nend\n"))

    def test_the_trail_of_the_running_page(self):
        page = RUNNING.read_text(encoding="utf-8").split("\n## A long search with a trail\n")[1].split("\n## ", 1)[0]
        example = (TOP / "examples/plain-bob-minor-bobs-and-singles.toml").read_text()
        (self.folder / "p.toml").write_text(example)
        for line in re.findall(r"    (./ringsearch .*)", page):
            self.assertEqual(compose_in_shell(line.replace("10000000000", "900"), self.folder), (0, "", ""))
        self.assertEqual((self.folder / "book.txt").read_text().splitlines(), search(example)[1])

    def test_a_signal_ends_it_and_nothing_is_written(self):
        # It would take days.
        endless = re.sub(r"min = \d+\nmax = \d+", "min = 5000\nmax = 5100", (TOP / "bench/major-640.toml").read_text())
        self.assertIn("max = 5100", endless)
        (self.folder / "endless.toml").write_text(endless)
        for name, status in ((signal.SIGINT, -signal.SIGINT), (signal.SIGTERM, -signal.SIGTERM)):
            with (self.folder / "endless.toml").open("rb") as problem, subprocess.Popen(
                # A shell's background job ignores SIGINT, and so would what it starts.
                [PROGRAM], stdin=problem, stdout=subprocess.PIPE, stderr=subprocess.PIPE,
                preexec_fn=lambda: signal.signal(name, signal.SIG_DFL),
            ) as running:
                try:
                    time.sleep(0.3)
                    self.assertIsNone(running.poll())
                    running.send_signal(name)
                    output, notes = running.communicate(timeout=60)
                finally:
                    running.kill()
            self.assertEqual((running.returncode, output, notes), (status, b"", b""))

    def test_want_of_memory_is_a_status(self):
        line = f"ulimit -v 40000; ./ringsearch < {TOP}/bench/minor-276.toml"
        self.assertEqual(compose_in_shell(line, self.folder), (8, "", "ringsearch: no memory\n"))


if __name__ == "__main__":
    unittest.main()
