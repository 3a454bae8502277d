"""`./compose shards`: tasks that are killed, given up, run twice and gone on with, by stand-ins for the engines."""

import os
import shutil
import signal
import subprocess
import time
import unittest
from unittest import mock

from companion import dealing
from companion.checkpoint import block_places, touches_of
from companion.dealing import order
from companion.folder import Folder
from companion.shards import Shard
from companion.status import is_locked
from companion.tasks import Told, read_told
from companion.tests import stand_in
from companion.tests.in_folder import PATIENCE, InFolder, is_at_work
from companion.tests.running import PROGRAM, compose


class OnMachines(InFolder):
    def setUp(self):
        super().setUp()
        self.bin = self.folder / "bin"
        self.bin.mkdir()
        self.limit = 600
        changed = mock.patch.dict(os.environ, PATH=f"{self.bin}:{os.environ['PATH']}")
        changed.start()
        self.addCleanup(changed.stop)
        self.write_engines()

    def write_engines(self):
        for name, text in (("parallel", stand_in.PARALLEL), ("sbatch", stand_in.SBATCH), ("squeue", stand_in.SQUEUE), ("scontrol", stand_in.SCONTROL)):
            stand_in.write(self.folder, text, f"bin/{name}", limit=self.limit)

    def shards(self, *words, status=0, engine="parallel"):
        return compose("shards", self.problem, "--into", self.into, "--engine", engine, *words, status=status)

    def status(self):
        return compose("shards", "--status", self.into)[0]

    def words_of_engines(self):
        return (self.folder / "words").read_text()

    def wait_for(self, is_so):
        until = time.monotonic() + PATIENCE
        while not is_so():
            self.assertLess(time.monotonic(), until)
            time.sleep(0.02)

    def wait_for_dealer(self, is_so):
        """Waits until something is so, and no job deals any more."""
        self.wait_for(lambda: is_so() and not is_locked(Folder(self.into)))

    def search_to_the_end(self, engine, *words):
        """The book, by as many calls as the engine needs."""
        output, _ = self.shards(*words, engine=engine)
        if engine == "slurm":
            self.wait_for_dealer((self.into / "book.txt").exists)
        while engine == "other" and "tasks wait" in output:
            for line in (self.into / "waiting.txt").read_text().split():
                subprocess.run(["sh", self.into / "task.sh", line], check=False, timeout=PATIENCE)
            output, _ = self.shards(*words, engine=engine)


class Books(OnMachines):
    def test_the_book_is_that_of_one_search(self):
        for name, engine, words in (
            ("one method", "parallel", ["--nodes", "12"]),
            ("one method", "parallel", ["--nodes", "40", "--shards", "3"]),
            ("spliced", "parallel", ["--nodes", "8", "--shards", "1", "--memory", "2"]),
            ("parts", "other", ["--nodes", "9"]),
            ("one lead", "parallel", ["--nodes", "9"]),
            ("one method", "slurm", ["--nodes", "9", "--slots", "3"]),
        ):
            with self.subTest(name, engine=engine, words=words):
                self.into = self.folder / f"{name} {engine} {' '.join(words)}"
                book = self.write_problem(name)
                self.search_to_the_end(engine, *words)
                self.hold_book(book)
                output = self.shards(*words, engine=engine)[0]
                self.assertEqual(output, f"{self.into}/book.txt: touches {book.split()[-1].decode()}\n")
                self.assertIn(output, self.status())
                self.assertFalse(list(self.into.rglob("*.task*")) + list(self.into.rglob("*.part")))

    def test_shortest_nodes_come_first(self):
        self.write_problem()
        self.shards("--nodes", "20", engine="other")
        places = block_places(self.into / "cuts/all.txt")
        text = (self.into / "cuts/all.txt").read_bytes()
        nodes = [text[start:start + size].split(b"\n")[-3].split()[1] for start, size in places]
        self.assertEqual([len(node) for node in nodes], sorted(len(node) for node in nodes))
        lines = (self.into / "tasks.txt").read_text().splitlines()
        self.assertEqual(lines, [f"{at} all {start} {size}" for at, (start, size) in enumerate(places)])
        self.assertEqual(sorted([Shard(name, "", (0, 0)) for name in ("10-2", "2-3-1", "9", "10", "2-11")], key=order),
                         [Shard(name, "", (0, 0)) for name in ("9", "10", "2-11", "10-2", "2-3-1")])

    def test_words_of_the_engines(self):
        self.write_problem("no touch")
        self.shards("--nodes", "3", "--slots", "5", "--minutes", "2", "--sshlogin", "4/one", "--sshlogin", ":", "--sshloginfile", "hosts")
        words = self.words_of_engines()
        self.assertIn("--resume-failed --timeout 120.000 ", words)
        self.assertIn(" --jobs 5 --sshlogin 4/one --sshlogin : --sshloginfile hosts ", words)
        (self.folder / "words").unlink()
        self.into = self.folder / "other"
        self.shards("--nodes", "3", "--slots", "5", "--minutes", "2.1", engine="slurm")
        self.wait_for_dealer((self.into / "book.txt").exists)
        array, dealer = self.words_of_engines().splitlines()[:2]
        self.assertRegex(array, r"--array 0-\d+%5 --requeue --time 3 ")
        self.assertIn("--dependency afterany:7 ", dealer)


class Lost(OnMachines):
    def test_tasks_that_are_killed_are_gone_on_with(self):
        book = self.write_problem()
        for engine, what in (("parallel", "$"), ("parallel", "PPID"), ("slurm", "$")):
            with self.subTest(engine, what=what):
                self.into = self.folder / f"killed {engine} {what}"
                shutil.rmtree(self.folder / "killed", ignore_errors=True)
                self.use(stand_in.write(self.folder, stand_in.KILLED_ONCE, whom=f"${what}"))
                if engine == "parallel":
                    _, notes = self.shards("--nodes", "3", status=2)
                    self.assertIn("1 shards failed", notes)
                    self.assertIn("the same command goes on", notes)
                else:
                    self.shards("--nodes", "3", engine=engine)
                    self.wait_for_dealer(lambda: "failed" in (self.into / "slurm.log").read_text())
                told = self.status()
                self.assertRegex(told, r"shards: \d+ done, 0 at work, 0 waiting, 1 failed; 0 given up")
                self.assertRegex(told, r"failed: \d+ on \S+, " + ("ended by the signal SIGKILL after" if what == "$" else "it ended without a word"))
                self.search_to_the_end(engine, "--nodes", "3")
                self.hold_book(book)

    def test_a_failed_task_is_told_by_the_programs_own_words(self):
        book = self.write_problem()
        self.use(stand_in.write(self.folder, stand_in.FAILS_ONCE))
        _, notes = self.shards("--nodes", "3", status=2)
        self.assertRegex(notes.splitlines()[-1], r"^compose: 1 shards failed, the first of which is 0 on \S+ \(status 6, ringsearch: read failed\)")
        told = self.status().splitlines()
        self.assertEqual(told[1].split(), ["machine", "done", "at", "work", "failed", "given", "up"])
        self.assertEqual(told[2].split()[0], os.uname().nodename)
        self.assertRegex(told[3], r"^failed: 0 on \S+, status 6, ringsearch: read failed$")
        self.shards()
        self.hold_book(book)

    def test_what_is_not_whole_is_searched_again(self):
        book = self.write_problem()
        self.shards("--nodes", "9")
        for name in ("book.txt", "books/1.txt", "told/1.txt"):
            (self.into / name).write_text("60 pb")
        (self.into / "books/2.txt").unlink()
        (self.into / "books/2.vm.17.task").write_text("60 pb")
        (self.into / "joblog.txt").write_text("Seq\n1\t:\t12")
        self.shards()
        self.hold_book(book)
        self.assertFalse(list(self.into.rglob("*.task*")))

    def test_an_overlap_is_named(self):
        book = self.write_problem()
        self.shards("--nodes", "9")
        shutil.copy(self.into / "books/3.txt", self.into / "books/5.txt")
        (self.into / "book.txt").unlink()
        _, notes = self.shards(status=2)
        self.assertRegex(notes.splitlines()[-1], r"^compose: the join says no: books/[35].txt and books/[35].txt overlap")
        for number in (3, 5):
            (self.into / f"books/{number}.txt").unlink()
        (self.into / "joblog.txt").unlink()
        self.shards()
        self.hold_book(book)

    def test_a_task_that_runs_twice_at_a_time(self):
        self.write_problem()
        self.shards("--nodes", "3", engine="other")
        both = [subprocess.Popen(["sh", self.into / "task.sh", "1"]) for _ in range(2)]
        self.assertEqual([one.wait(PATIENCE) for one in both], [0, 0])
        self.assertIsNotNone(touches_of(self.into / "books/0.txt"))
        self.assertEqual(read_told(Folder(self.into), "0").state, "done")
        self.assertFalse(list(self.into.rglob("*.task*")))
        self.assertEqual(subprocess.run(["sh", self.into / "task.sh", "99"], capture_output=True, check=False).returncode, 2)

    def test_the_command_is_killed(self):
        book = self.write_problem()
        pids = self.folder / "pids"
        hanging = stand_in.write(self.folder, stand_in.SHALLOW, then=f"echo $$ >> {pids}; exec sleep 600")
        for name in (signal.SIGKILL, signal.SIGINT):
            pids.unlink(missing_ok=True)
            running = self.begin_shards(hanging)
            notes = self.kill_when(running, pids.exists, name)
            if name == signal.SIGINT:
                self.assertIn("the same command goes on", notes)
            self.end_those_of(pids)
        self.use(PROGRAM)
        self.shards("--nodes", "3")
        self.hold_book(book)

    def begin_shards(self, program):
        return self.start(["shards", self.problem, "--into", self.into, "--engine", "parallel", "--nodes", "3"], program)

    def end_those_of(self, pids):
        """Ends tasks that outlived the command, as those on other machines would."""
        for pid in pids.read_text().split():
            if is_at_work(pid):
                os.kill(int(pid), signal.SIGKILL)


class GivenUp(OnMachines):
    def test_a_task_that_takes_long_is_split(self):
        book = self.write_problem()
        self.use(stand_in.write(self.folder, stand_in.SHALLOW, then="exec sleep 600"))
        _, notes = self.shards("--nodes", "3", "--minutes", "0.02")
        self.assertRegex(notes, r"\d shards were given up; \d+ wait now")
        self.hold_book(book)
        self.assertRegex(self.status(), r"(\d+) given up, of which \1 are split")

    def test_a_task_that_wants_more_memory_is_split(self):
        book = self.write_problem()
        for engine in ("parallel", "slurm"):
            self.into = self.folder / engine
            self.use(stand_in.write(self.folder, stand_in.SHALLOW, then="echo 'ringsearch: no memory' >&2; exit 8"))
            self.search_to_the_end(engine, "--nodes", "3")
            self.hold_book(book)
            self.assertTrue(list((self.into / "cuts").glob("[0-9]*.txt")))

    def test_tasks_that_all_take_long_are_not_split_for_ever(self):
        self.write_problem()
        self.use(stand_in.write(self.folder, stand_in.NO_SHARD))
        with mock.patch.object(dealing, "ENOUGH", 3):
            _, notes = self.shards("--nodes", "3", status=2)
        self.assertRegex(notes.splitlines()[-1], r"^compose: each of \d tasks took longer than 5 min")


class Mistakes(OnMachines):
    def test_mistakes_are_one_sentence(self):
        self.write_problem()
        for words, told in (
            (["--slots", "0"], "--slots takes"),
            (["--nodes", "1001"], "--nodes takes"),
            (["--shards", "0"], "--shards takes"),
            (["--minutes", "0"], "--minutes takes"),
            (["--minutes", "nan"], "--minutes takes"),
            (["--memory", "0"], "--memory takes"),
            (["--engine", "slurm", "--sshlogin", "one"], "are for --engine parallel"),
            (["--engine", "cron"], "invalid choice"),
            (["--status", self.into], "stands alone"),
        ):
            self.hold_sentence(self.shards(*words, status=2)[1], told)
        self.hold_sentence(compose("shards", self.problem, status=2)[1], "needs FILE, --into and --engine")
        self.hold_sentence(compose("shards", "--status", self.folder / "none", status=2)[1], "no folder of a search")
        self.assertFalse(self.into.exists())

    def hold_sentence(self, notes, told):
        self.assertEqual(notes.count("\n"), 1, notes)
        self.assertTrue(notes.startswith("compose: "), notes)
        self.assertIn(told, notes)

    def test_engines_that_are_not_here(self):
        self.write_problem()
        shutil.rmtree(self.bin)
        with mock.patch.dict(os.environ, PATH=str(self.folder)):
            self.hold_sentence(self.shards(status=2)[1], "GNU parallel is not here")
            self.hold_sentence(self.shards(status=2, engine="slurm")[1], "Slurm is not here")

    def test_engines_that_fail(self):
        self.write_problem()
        (self.bin / "parallel").write_text("#!/bin/sh\n[ $1 = --version ] && echo GNU parallel && exit\necho no such host >&2\nexit 255\n")
        self.assertIn("parallel ended with status 255: no such host", self.shards("--nodes", "3", status=2)[1].splitlines()[-1])
        (self.bin / "sbatch").write_text("#!/bin/sh\necho 'sbatch: error: no such partition' >&2\nexit 1\n")
        self.assertIn("Slurm refuses `sbatch`: sbatch: error: no such partition", self.shards(status=2, engine="slurm")[1].splitlines()[-1])
        self.assertIn("not cut" if not (self.into / "cuts/all.txt").exists() else "waiting", self.status())

    def test_a_search_that_slurm_has_at_work(self):
        self.write_problem()
        stand_in.write(self.folder, "#!/bin/sh\ncase $1 in --parsable) echo 12;; *) echo '12_3 RUNNING';; esac\n", "bin/sbatch")
        stand_in.write(self.folder, "#!/bin/sh\necho '12_3 RUNNING'\n", "bin/squeue")
        for _ in range(2):
            output, _ = self.shards("--nodes", "3", engine="slurm")
            self.assertRegex(output, r"^array 12 of Slurm (has \d+ tasks|is at work), and job 12 deals after it; `")
        self.assertRegex(self.status(), r"\d+ shards: 0 done, 0 at work, \d+ waiting, 0 failed")
        (self.into / "told/0.txt").write_text("work there 12_3 17 \n")
        (self.into / "told/1.txt").write_text("work here 12_4 17 \n")
        told = self.status()
        self.assertRegex(told, r"0 done, 1 at work, \d+ waiting, 1 failed")
        self.assertRegex(told, r"there +0 +1 +0 +0\n")
        self.assertIn("failed: 1 on here, it ended without a word", told)


class Records(unittest.TestCase):
    def test_what_is_given_up(self):
        for state, seconds, status, given_up in (
            ("failed", 299, 143, True), ("failed", 300, 137, True), ("failed", 298, 143, False), ("failed", 1, 8, True),
            ("failed", 400, 4, False), ("work", 400, 143, False), ("done", 400, 0, False),
        ):
            self.assertEqual(Told(state, "one", "1", 1, seconds, status).is_given_up(300), given_up, (state, seconds, status))

    def test_why(self):
        self.assertEqual(Told("failed", "one", "1", 1, 7, 5, "ringsearch: checkpoint 1 Form 3").why(), "status 5, ringsearch: checkpoint 1 Form 3")
        self.assertEqual(Told("failed", "one", "1", 1, 7, 127, "").why(), "status 127")
        self.assertEqual(Told("failed", "one", "1", 1, 7, 143).why(), "ended by the signal SIGTERM after 7 s")


if __name__ == "__main__":
    unittest.main()
