"""`./compose show`: positions and course ends known to every ringer, music counted by hand, and a page read back."""

import tempfile
import tomllib
import unittest
from html.parser import HTMLParser
from pathlib import Path

from companion.table import plain_lines
from companion.tests import plain_search
from companion.tests.running import TOP, compose

MAJOR = """stage = 8
[[method]]
letter = "P"
name = "Plain Bob Major"
notation = "x18x18x18x18,12"
[[call]]
mark = "b"
notation = "14"
[[call]]
mark = "s"
notation = "1234"
[query]
min = 1
max = 500
"""

# Touches of Plain Bob Major, with the course ends that every ringer knows: W gives 52436, M 43652 and H 42356.
MAJOR_BOOK = """112 ppppppp
336 bppppppbppppppbpppppp
336 ppppppbppppppbppppppb
336 pppppbppppppbppppppbp
touches 4
"""


class Page(HTMLParser):
    """What a page has: its rows, its lines, its calls and its captions."""

    def __init__(self):
        super().__init__()
        self.texts = {}
        self.lines = {}
        self.captions = []
        self.title = ""
        self.kind = None
        self.figures = 0

    def handle_starttag(self, tag, attrs):
        told = dict(attrs)
        if tag == "text":
            self.kind = told["class"].split()[0]
            self.texts.setdefault(self.kind, []).append("")
            if self.kind in ("row", "head", "start"):
                self.places = [float(x) for x in told["x"].split()]
                assert self.places == sorted(self.places)
        elif tag == "polyline":
            points = [tuple(map(float, point.split(","))) for point in told["points"].split()]
            self.lines.setdefault(told["class"], []).append(points)
        elif tag in ("figcaption", "title"):
            self.kind = tag
            if tag == "figcaption":
                self.captions.append("")
        elif tag == "figure":
            self.figures += 1

    def handle_endtag(self, tag):
        self.kind = None

    def handle_data(self, data):
        if self.kind == "figcaption":
            self.captions[-1] += data
        elif self.kind == "title":
            self.title += data
        elif self.kind:
            self.texts[self.kind][-1] += data


class Show(unittest.TestCase):
    def setUp(self):
        folder = tempfile.TemporaryDirectory()
        self.addCleanup(folder.cleanup)
        self.folder = Path(folder.name)

    def shown(self, problem, book, *words, status=0):
        files = self.folder / "p.toml", self.folder / "book.txt"
        files[0].write_text(problem)
        files[1].write_text(book)
        output, notes = compose("show", *files, *words, status=status)
        return notes if status else output

    def test_positions_and_course_ends(self):
        lines = self.shown(MAJOR, MAJOR_BOOK).splitlines()
        self.assertEqual(lines[0].split(), ["no", "length", "calls", "runs", "CRUs", "named", "courses", "calling"])
        for line, calling in zip(lines[1:], (" .", " W | W | W", " H | H | H", " M | M | M")):
            self.assertTrue(line.endswith(calling), line)
        for number, name, end in ((2, "W", "15243678"), (3, "H", "14235678"), (4, "M", "14365278")):
            first = self.shown(MAJOR, MAJOR_BOOK, "--touch", number).splitlines()[2].split()
            self.assertEqual(first, ["7", end, name])

    def test_singles_have_their_mark(self):
        book = "224 ppppppspppppps\ntouches 1\n"
        self.assertEqual(self.shown(MAJOR, book).splitlines()[1].split()[-3:], ["sH", "|", "sH"])
        self.assertIn("12435678  sH", self.shown(MAJOR, book, "--touch", 1))

    def test_six_ends_of_stedman_have_numbers(self):
        problem = compose("problem", "Stedman Triples", "--length", "1-120", "--bobs", "--singles")[0]
        leads = plain_search.load(problem)
        home = plain_search.SYMBOLS[:7]
        steps = {letter + mark: lead for letter, mark, lead in leads.steps}
        found = None
        for word in ("BbPpPp", "SsPpPp", "BpBpBp", "PbPbPb", "BbBbBb", "BpPbBp"):
            calling = [word[at:at + 2] for at in range(0, len(word), 2)]
            rows, row = [], home
            while len(rows) < 120:
                for one in calling:
                    rows += plain_search.rows_of(row, steps[one])
                    row = rows[-1]
                if row == home:
                    found = (word * (len(rows) // 36), len(rows))
                    break
            if found:
                break
        self.assertIsNotNone(found)
        text, length = found
        line = self.shown(problem, f"{length} {text}\ntouches 1\n").splitlines()[1]
        wanted = []
        for at in range(0, len(text), 2):
            first, second = text[at], text[at + 1]
            wanted += [] if first == "P" else [("" if first == "B" else "s") + str(at + 1)]
            wanted += [] if second == "p" else [("" if second == "b" else "s") + str(at + 2)]
        self.assertEqual(line.split()[-len(wanted):], wanted)

    def test_music(self):
        rows = plain_search.rows_of("12345678", plain_search.changes("x18x18x18x18,12", 8) * 7)
        runs = sum((row[:4] in "12345678" or row[:4] in "87654321") + (row[4:] in "12345678" or row[4:] in "87654321") for row in rows)
        crus = sum(row.endswith("78") and set(row[4:6]) < set("456") for row in rows)
        told = self.shown(MAJOR, MAJOR_BOOK, "--touch", 1).splitlines()
        self.assertIn(f"runs: {runs}", told)
        self.assertIn(f"CRUs: {crus}", told)

    def test_named_rows(self):
        path = TOP / "examples/cambridge-surprise-minor-bobs-and-singles.toml"
        comment = [line[1:].strip() for line in path.read_text().splitlines() if line.startswith("#")]
        book = "\n".join(comment[comment.index("Its book:") + 1:]) + "\n"
        for number in range(1, 8):
            told = self.shown(path.read_text(), book, "--touch", number)
            self.assertIn("135246: Queens", told)

    def test_another_table_of_music(self):
        table = self.folder / "music.toml"
        table.write_text('[[kind]]\nname = "tenors"\npatterns.8 = ["*78"]\n')
        told = self.shown(MAJOR, MAJOR_BOOK, "--music", table, "--sort", "tenors").splitlines()
        self.assertEqual(told[0].split()[3], "tenors")
        counts = [int(line.split()[3]) for line in told[1:]]
        self.assertEqual(counts, sorted(counts, reverse=True))
        rows = plain_search.rows_of("12345678", plain_search.changes("x18x18x18x18,12", 8) * 7)
        plain = next(line for line in told[1:] if line.split()[0] == "1")
        self.assertEqual(int(plain.split()[3]), sum(row.endswith("78") for row in rows))

    def test_sorting_and_the_first(self):
        told = self.shown(MAJOR, MAJOR_BOOK, "--sort", "calls,number", "--first", "2").splitlines()
        self.assertEqual([line.split()[0] for line in told[1:3]], ["1", "2"])
        self.assertEqual(told[3], "2 more; --first 0 shows all 4.")

    def page(self, problem, book, number, *words):
        page = Page()
        file = self.folder / "page.html"
        self.shown(problem, book, "--touch", number, "--html", file, *words)
        text = file.read_text()
        self.assertNotIn("$", text)
        page.feed(text)
        return page, text

    def test_a_page_is_read_back(self):
        page, text = self.page(MAJOR, MAJOR_BOOK, 3, "--bells", "178")
        problem = plain_search.load(MAJOR)
        leads = {mark: lead for _, mark, lead in problem.steps}
        rows, row, heads = [], "12345678", []
        for mark in "ppppppbppppppbppppppb":
            heads.append(row)
            rows += plain_search.rows_of(row, leads[mark])
            row = rows[-1]
        self.assertEqual(page.texts["row"], rows)
        self.assertEqual(len(set(rows)), 336)
        self.assertIn("336 rows, all different.", text)
        self.assertEqual(page.texts["start"], ["12345678"])
        self.assertEqual(page.texts["head"], heads[1:])
        self.assertEqual(page.texts["call"], ["H", "H", "H"])
        self.assertEqual(page.figures, 21)
        self.assertEqual(page.captions[6], "lead 7, course end 1")
        self.assertEqual(page.title, "336 Plain Bob Major")
        for bell in "178":
            for number, points in enumerate(page.lines[f"bell{bell}"]):
                told = [int((x - 6) // 10) + 1 for x, _ in points]
                part = [heads[number], *rows[16 * number:16 * number + 16]]
                self.assertEqual(told, [row.index(bell) + 1 for row in part])
                self.assertEqual([y for _, y in points], sorted(y for _, y in points))

    def test_a_page_of_spliced_methods(self):
        path = TOP / "examples/spliced-plain-bob-and-st-simons-doubles.toml"
        self.assertIn("com", tomllib.loads(path.read_text()))
        page, text = self.page(path.read_text(), "60 PbSpPbSpPbSp\ntouches 1\n", 1)
        self.assertEqual(len(set(page.texts["row"])), 60)
        self.assertEqual(page.title, "60 Spliced Doubles")
        self.assertIn("S is St Simon&#x27;s Bob Doubles", text)
        self.assertTrue(page.captions[1].startswith("lead 2, S"))

    def test_mistakes_are_one_sentence(self):
        for book, words, told in (
            ("112 ppppppp\n", [], "last line"),
            ("112 ppppppp\ntouches 2\n", [], "has 1 touches"),
            ("x\ntouches 1\n", [], "line 1"),
            ("112 pppppp\ntouches 1\n", [], "does not come home"),
            ("100 ppppppp\ntouches 1\n", [], "has not 100 changes"),
            ("112 PpPpPp\ntouches 1\n", [], "no lead “P”"),
            (MAJOR_BOOK, ["--touch", "5"], "touches 1 to 4"),
            (MAJOR_BOOK, ["--sort", "beauty"], "“beauty”"),
            (MAJOR_BOOK, ["--touch", "1", "--bells", "9"], "“9”"),
            (MAJOR_BOOK, ["--html", "x.html"], "--touch"),
            (MAJOR_BOOK, ["--music", "none.toml"], "can't be read"),
        ):
            notes = self.shown(MAJOR, book, *words, status=2)
            self.assertEqual(notes.count("\n"), 1, notes)
            self.assertIn(told, notes)

    def test_plain_lines_stand_in_columns(self):
        self.assertEqual(plain_lines(["n", "name"], [["1", "a"], ["10", "bc"]]), [" n  name", " 1  a", "10  bc"])


if __name__ == "__main__":
    unittest.main()
