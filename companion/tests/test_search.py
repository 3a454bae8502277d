"""`./compose search`: the book of a search that is killed again and again, by shards and by a trail; and its mistakes."""

import contextlib
import io
import os
import random
import re
import signal
import sys
import time
import unittest
from unittest import mock

from companion import ending, interrupts, machine, progress
from companion.checkpoint import Checkpoint, Leads, block_places, checkpoint_text, read_checkpoint
from companion.engine import Engine
from companion.estimate import Family, Rest, duration, rest_of, rest_words
from companion.opening import Opener
from companion.tests import stand_in
from companion.tests.in_folder import FORK, MOMENT, PATIENCE, PROBLEMS, InFolder, is_at_work
from companion.tests.running import PROGRAM, TOP

SIGNALS = (signal.SIGKILL, signal.SIGINT, signal.SIGTERM)


class Books(InFolder):
    def test_the_book_is_that_of_one_search(self):
        for name in PROBLEMS:
            for words in (["--shards", "20"], ["--shards", "1"], ["--counted", "--every", "5000"]):
                with self.subTest(name, words=words):
                    self.into = self.folder / f"{name} {words[0]} {words[1:]}"
                    book = self.write_problem(name)
                    output, _ = self.search(*words)
                    self.hold_book(book)
                    self.assertEqual(output, f"{self.into}/book.txt: touches {book.split()[-1].decode()}\n")
                    self.assertEqual(self.search(*words)[0], output)

    def test_joins_of_joins(self):
        book = self.write_problem()
        with mock.patch.object(ending, "MOST_BODIES", 3):
            self.search("--shards", "11")
        self.hold_book(book)
        self.assertFalse(list(self.into.glob("join*")) + list(self.into.rglob("*.part")))

    def test_what_is_found_while_the_tree_is_opened(self):
        for name, wanted in (("parts", 60), ("one method", 150)):
            lines = self.write_problem(name).splitlines()[:-1]
            opener = Opener(Engine(PROGRAM, 4, 10 ** 10), self.problem.read_bytes(), Leads("P", 3))
            opened = opener.opened(opener.text([], [b""]), wanted)
            self.assertEqual(opened.found, [line for line in lines if line in opened.found])
            if name == "parts":
                self.assertEqual((opened.found, opened.nodes), (lines, []))
            else:
                self.assertTrue(wanted <= len(opened.nodes) <= wanted + 8)
                self.assertFalse([(one, two) for one in opened.nodes for two in opened.nodes if one != two and two.startswith(one)])


    def test_a_cut_never_has_too_many_nodes(self):
        for steps in (1, 2, 3, 24):
            for jobs in (1, 4, 64):
                opener = Opener(Engine(PROGRAM, jobs, 1), b"", Leads("P", steps))
                for wanted in (1, 12, 400, 1000):
                    for nodes in range(wanted):
                        opened = opener.number(nodes, wanted)
                        self.assertTrue(1 <= opened and nodes + opened * (steps - 1) <= 1024)


class Killed(InFolder):
    def seen(self, pattern="**/*.txt"):
        """Files of the search's folder, each with its size and time; from the start again where one goes meanwhile."""
        while True:
            with contextlib.suppress(FileNotFoundError):
                told = [(str(file), file.stat()) for file in self.into.glob(pattern)]
                return sorted((name, one.st_size, one.st_mtime_ns) for name, one in told)

    def changes(self, number):
        """A question that is answered yes once the folder has changed so many times."""
        state = [self.seen(), number]

        def is_ready():
            now = self.seen()
            if now != state[0]:
                state[:] = now, state[1] - 1
            return state[1] <= 0

        return is_ready

    def test_killed_at_ten_places_by_shards(self):
        book = self.write_problem()
        words = ["--shards", "60"]
        for number, changes in enumerate((1, 2, 3, 4, 2, 5, 6, 7)):
            notes = self.kill_when(self.begin(*words), self.changes(changes), SIGNALS[number % 3])
            if number % 3:
                self.assertIn("the same command goes on", notes)
        for stop, part in (("*join*", "joined-0-0.txt.part"), ("--workers*", "book.txt.part")):
            program = stand_in.write(self.folder, stand_in.HANGS, words=stop)
            self.kill_when(self.begin(*words, program=program), (self.into / part).exists, signal.SIGKILL)
            self.assertFalse((self.into / "book.txt").exists())
        self.assertEqual(len(list((self.into / "books").glob("*.txt"))), len(block_places(self.into / "cuts/all.txt")))
        self.search(*words)
        self.hold_book(book)

    def test_what_is_done_is_not_done_again(self):
        self.write_problem()
        self.kill_when(self.begin("--shards", "60"), lambda: len(list(self.into.glob("books/*.txt"))) > 8, signal.SIGKILL)
        before = {file: file.stat().st_mtime_ns for file in self.into.glob("books/*.txt")}
        self.search("--shards", "60")
        self.assertEqual({file: file.stat().st_mtime_ns for file in before}, before)

    def test_killed_at_ten_places_by_a_trail(self):
        book = self.write_problem()
        words = ["--counted", "--every", "5000"]
        for number, size in enumerate((0, 100, 5_000, 8_000, 20_000, 40_000, 60_000, 100_000, 150_000, 300_000)):
            program = stand_in.write(self.folder, stand_in.TORN_TRAIL, size=size)
            begun = time.time_ns()

            def is_torn():
                return any(told == size and changed > begun for _, told, changed in self.seen("trails/*.txt"))

            self.kill_when(self.begin(*words, program=program), is_torn, SIGNALS[number % 3])
        self.assertTrue(list(self.into.glob("trails/*.txt")))
        self.search(*words)
        self.hold_book(book)

    def test_no_run_is_left_behind(self):
        self.write_problem()
        pids = self.folder / "pids"
        program = stand_in.write(self.folder, stand_in.SHALLOW, then=f"echo $$ >> {pids}; exec sleep 600")
        for name in SIGNALS:
            pids.unlink(missing_ok=True)
            self.kill_when(self.begin("--shards", "2", program=program), pids.exists, name)
            until = time.monotonic() + PATIENCE
            while any(map(is_at_work, pids.read_text().split())) and time.monotonic() < until:
                time.sleep(0.05)
            self.assertFalse(list(filter(is_at_work, pids.read_text().split())))


class Bounded(unittest.TestCase):
    def test_what_was_started_ends_with_its_starter(self):
        """Also where the starter ends before the new process has done anything."""
        for waits in (False, True):
            with self.subTest(waits=waits):
                source, sink = os.pipe()
                starter = FORK.Process(target=self.start, args=(sink, waits))
                starter.start()
                os.close(sink)
                with open(source, "rb") as told:
                    if not waits:
                        self.assertEqual(told.read(5), b"begun")
                        starter.kill()
                    # The other end is closed as soon as no process is left.
                    self.assertEqual(told.read(), b"")
                starter.join()

    @staticmethod
    def start(sink, waits):
        """Starts a process that tells when it begins, and sleeps then; it may wait first until its starter is gone."""
        starter = os.getpid()
        begin = machine.bounded(machine.GIGABYTE)
        if os.fork() == 0:
            while waits and os.getppid() == starter:
                time.sleep(MOMENT)
            begin()
            os.write(sink, b"begun")
            time.sleep(PATIENCE)
        elif not waits:
            time.sleep(PATIENCE)
        os._exit(0)


class Signals(unittest.TestCase):
    def test_an_interrupt_that_was_lost_is_heard(self):
        class Ended:
            def __del__(self):
                os.kill(os.getpid(), signal.SIGTERM)
                time.sleep(MOMENT)

        with interrupts.ended_by_signals(), mock.patch.object(sys, "unraisablehook"):
            interrupts.check()
            Ended()
            self.assertRaises(KeyboardInterrupt, interrupts.check)
        with interrupts.ended_by_signals():
            interrupts.check()

    def test_what_is_ignored_stays_so(self):
        before = signal.signal(signal.SIGHUP, signal.SIG_IGN)
        try:
            with interrupts.ended_by_signals():
                self.assertIs(signal.getsignal(signal.SIGHUP), signal.SIG_IGN)
        finally:
            signal.signal(signal.SIGHUP, before)


class GivenUp(InFolder):
    def test_a_shard_that_takes_long_is_split(self):
        book = self.write_problem()
        self.use(stand_in.write(self.folder, stand_in.SHALLOW, then="exec sleep 600"))
        _, notes = self.search("--shards", "3", "--minutes", "0.05")
        self.assertRegex(notes, r"shard \d takes longer than 3 s: \d+ shards in its place")
        self.hold_book(book)

    def test_a_shard_that_wants_more_memory_is_split(self):
        book = self.write_problem()
        self.use(stand_in.write(self.folder, stand_in.SHALLOW, then="echo 'ringsearch: no memory' >&2; exit 8"))
        _, notes = self.search("--shards", "3")
        self.assertRegex(notes, r"shard \d takes more memory than there is: \d+ shards in its place")
        self.hold_book(book)

    def test_want_of_memory_is_a_sentence(self):
        self.problem.write_text((TOP / "bench/minor-276.toml").read_text())
        self.hold_last_sentence("--counted", "--every", "100000", "--memory", "0.04")
        self.into = self.folder / "other"
        self.use(stand_in.write(self.folder, stand_in.NO_MEMORY))
        self.hold_last_sentence("--shards", "2")

    def hold_last_sentence(self, *words):
        notes = self.search(*words, status=2)[1]
        self.assertTrue(notes.splitlines()[-1].startswith("compose: there is not enough memory"), notes)
        self.assertNotIn("Traceback", notes)


class Mistakes(InFolder):
    def test_mistakes_are_one_sentence(self):
        self.write_problem()
        self.into.mkdir()
        (self.into / "mine.txt").write_text("a file of mine")
        for words, told in (
            ([], "no folder of a search"),
            (["--jobs", "0"], "--jobs takes"),
            (["--shards", "1001"], "--shards takes"),
            (["--minutes", "0"], "--minutes takes"),
            (["--memory", "-1"], "--memory takes"),
            (["--every", "0"], "--every takes"),
            (["--turns", "3"], "unrecognized arguments"),
        ):
            self.hold_sentence(self.search(*words, status=2)[1], told)

    def hold_sentence(self, notes, told):
        self.assertEqual(notes.count("\n"), 1, notes)
        self.assertTrue(notes.startswith("compose: "), notes)
        self.assertIn(told, notes)

    def test_files_that_are_no_problem(self):
        for text, told in (("stage = 17\n", "is refused"), ("ringsearch checkpoint 2\n", "is a checkpoint"), ("24 ppp\ntouches 1\n", "is a book")):
            self.problem.write_text(text)
            self.hold_sentence(self.search(status=2)[1], told)
        self.problem.unlink()
        self.hold_sentence(self.search(status=2)[1], "can't be read")
        self.assertFalse(self.into.exists())

    def test_a_folder_is_of_one_problem_and_of_one_process(self):
        self.write_problem("no touch")
        self.search("--shards", "2")
        self.write_problem()
        self.hold_sentence(self.search(status=2)[1], "another problem")
        self.into = self.folder / "other"
        program = stand_in.write(self.folder, stand_in.SHALLOW, then="exec sleep 600")
        running = self.begin("--shards", "2", program=program)
        locked = []
        self.kill_when(running, lambda: (self.into / "cuts/all.txt").exists() and not locked.append(self.search(status=2)[1]), signal.SIGKILL)
        self.hold_sentence(locked[0], "another ./compose works")

    def test_a_folder_that_can_not_be_made(self):
        self.write_problem("no touch")
        self.into = self.problem / "search"
        self.hold_sentence(self.search(status=2)[1], "not a directory")
        self.into = self.problem
        self.hold_sentence(self.search(status=2)[1], "no folder of a search")

    def test_an_older_program(self):
        self.write_problem()
        self.use(stand_in.write(self.folder, stand_in.OLDER))
        self.assertIn("older than ./compose", self.search("--shards", "2", status=2)[1].splitlines()[-1])

    def test_no_program(self):
        self.write_problem()
        self.use(self.folder / "none")
        self.hold_sentence(self.search(status=2)[1], "no program is there")


class Forms(unittest.TestCase):
    def test_the_checkpoint_of_the_formats(self):
        page = (TOP / "docs/formats.md").read_text(encoding="utf-8")
        text = re.search(r"```\n(ringsearch checkpoint 2\nproblem 124\n.*?)```", page, re.DOTALL)[1].encode()
        told = read_checkpoint(text, Leads("A"))
        self.assertEqual((told.found, told.nodes, len(told.problem)), ([], [b"b", b"pb", b"pp"], 124))
        written = checkpoint_text(told, Leads("A"))
        self.assertEqual(written, text.replace(b"jobs 2\njob 1\n0 b\njob 2\n", b"jobs 1\njob 3\n0 b\n"))

    def test_checkpoints_are_read_as_they_were_written(self):
        chosen = random.Random(3)
        for letters in ("A", "BA"):
            leads = [letter * (len(letters) > 1) + mark for letter in letters for mark in "pb"]
            nodes = sorted({"".join(chosen.choices(leads, k=4)).encode() for _ in range(20)})
            told = Checkpoint(b"jobs 7\nend\n", [b"24 " + nodes[0], b"25 " + nodes[1]], nodes)
            self.assertEqual(read_checkpoint(checkpoint_text(told, Leads(letters)), Leads(letters)), told)

    def test_the_order_of_the_book(self):
        self.assertEqual(Leads("P").sorted([b"60 sp", b"60 b", b"60 pb", b"60 ap", b"60 pp", b"9 s"]),
                         [b"9 s", b"60 pp", b"60 pb", b"60 ap", b"60 b", b"60 sp"])
        self.assertEqual(Leads("SP").sorted([b"60 Pp", b"60 Ss", b"60 Sp", b"60 Sb"]), [b"60 Sp", b"60 Sb", b"60 Ss", b"60 Pp"])


class Telling(unittest.TestCase):
    def test_durations(self):
        self.assertEqual([duration(seconds) for seconds in (0.2, 90, 100, 3600, 7500, 400_000)],
                         ["1 s", "90 s", "2 min", "60 min", "2 h 5 min", "4.6 days"])
        self.assertEqual(rest_words(Rest(600, 300, 900)), "about 10 min left (5 min to 15 min)")
        self.assertIn("not known", rest_words(rest_of([Family(1.0)] * 5, 3, 1.0, 1)))

    def test_the_range_holds_nearly_always(self):
        chosen = random.Random(51)
        held = 0
        for _ in range(200):
            times = [chosen.lognormvariate(0, 1) for _ in range(400)]
            told = rest_of([Family(seconds) for seconds in times[:40]], 360, 1.0, 1)
            held += told.least <= sum(times[40:]) <= told.most
        self.assertGreaterEqual(held, 170)

    def test_what_is_at_work_counts(self):
        done = [Family(10.0) for _ in range(20)]
        told = rest_of([*done, Family(5.0, waiting=3, running=[4.0])], 0, 2.0, 2)
        self.assertEqual(told.likely, (3 * 2 + 4) / 2)
        self.assertEqual((told.least, told.most), (0.0, 15.0))

    def test_lines_where_there_is_no_terminal(self):
        out = io.StringIO()
        told = progress.Progress(out)
        for number in range(5):
            told.show(f"{number} of 5")
        told.touches([b"60 pbpbpb", b"5000 " + b"p" * 200])
        told.close()
        lines = out.getvalue().splitlines()
        self.assertEqual(lines[0::3], ["0 of 5", "4 of 5"])
        self.assertEqual(lines[1], "  found: 60 pbpbpb")
        self.assertEqual(len(lines[2]), len("  found: ") + 100)

    def test_one_line_on_a_terminal(self):
        out = io.StringIO()
        line = progress.TerminalLine(out)
        line.show("1 of 5")
        line.note("a touch")
        line.show("2 of 5")
        line.close()
        self.assertEqual(out.getvalue(), "\r\x1b[K1 of 5\r\x1b[Ka touch\n\r\x1b[K1 of 5\r\x1b[K2 of 5\n")


if __name__ == "__main__":
    unittest.main()
