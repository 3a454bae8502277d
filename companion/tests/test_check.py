"""`./compose check`: what it says of faulty files, and that the program says the same."""

import random
import tempfile
import unittest
from pathlib import Path

from companion.cures import notation_cure, problem_cure
from companion.faults import NUMBERS, first_fault
from companion.tests import made_up
from companion.tests.running import compose, search

DOUBLES = """stage = 5
[[method]]
letter = "A"
notation = "5.1.5.1.5,125"
[[call]]
mark = "b"
notation = "145"
[query]
min = 1
max = 120
"""
MINOR = """stage = 6
[[method]]
letter = "P"
notation = "x16x16x16,12"
[[call]]
mark = "b"
notation = "14"
[query]
min = 1
max = 60
"""
EIGHT = "".join(f'[[method]]\nletter = "{letter}"\nnotation = "5.1.5.1.5,125"\n' for letter in "BCDEFGH")


def changed(old, new, text=DOUBLES):
    assert old in text, old
    return text.replace(old, new, 1)


# An edit of Plain Bob Doubles, and the line that the program must write.
REFUSED = [
    (changed("stage = 5", "stage ="), "1 NotToml"),
    (changed("[query]\nmin = 1\nmax = 120\n", ""), "2 Key query"),
    ("speed = 1\n" + DOUBLES, "2 Key speed"),
    (changed("stage = 5", "stage = 17"), "3 Stage 17"),
    (changed('"A"', '"a"'), "4 Letter 0"),
    (changed("5.1.5.1.5,125", "x"), "5 Notation method 0 CrossOnOdd 0"),
    (changed('"145"', '"145"\nover = 129'), "6 Over 0"),
    (changed('"b"', '"p"'), "7 Mark 0"),
    (changed("5.1.5.1.5,125", "5").replace('"145"', '"5.145"'), "8 CallLength 0 0"),
    (DOUBLES + '[[call]]\nmark = "b"\nnotation = "145"\n', "9 Clash 0 1"),
    (changed("[[call]]", EIGHT + "[[call]]") + "".join(f'[[call]]\nmark = "{mark}"\nnotation = "145"\n' for mark in "cd"), "10 Steps 32"),
    (changed("min = 1", "min = 0"), "11 Range 0 120"),
    ('stage = 8\n[[method]]\nletter = "A"\nnotation = "x"\n[query]\nmin = 1\nmax = 1025\n', "12 Deep 1025"),
    (DOUBLES + "parts = 0\n", "13 Parts 0"),
    (DOUBLES + '[[count]]\nmark = "z"\n', "14 Count count 0"),
    (DOUBLES + '[[leads]]\nletter = "Z"\n', "14 Count leads 0"),
    (DOUBLES + '[[rows]]\npattern = "1425"\n', "15 Pattern 0"),
    (DOUBLES + "[com]\nmin = 2\nmax = 1\n", "17 Com"),
    (changed("stage = 5\n", "").replace("[query]", "stage = 5\n[query]"), "2 Key stage"),
    (changed("[[method]]", "[method]"), "2 Key method"),
    (changed("min = 1", 'min = "1"'), "2 Key query.min"),
    (changed('letter = "A"\n', ""), "2 Key method[0].letter"),
    (changed('"145"', '"145"\nmethods = "B"'), "2 Key call[0].methods"),
    (changed('"A"', '"\u00e9"').replace('"145"', '"145"\nmethods = "\u00e9"'), "2 Key call[0].methods"),
    (changed("stage = 5", "stage = true"), "2 Key stage"),
    (changed("max = 120", "max = 99999999999999999999"), "1 NotToml"),
    ("\u00e9 = 1\n" + DOUBLES, "1 NotToml"),
    ('"\u00e9" = 1\n' + DOUBLES, "2 Key ??"),
]

# Ten mistakes of beginners, and the words that must stand in the answer.
MISTAKES = [
    (changed('"x16x16x16,12"', "x16x16x16,12", MINOR), ["p.toml:4:12", "a text stands in quotes", 'notation = "x16x16x16,12"']),
    (changed('"x16x16x16,12"', "“x16x16x16,12”", MINOR), ["p.toml:4:12", "typographic quote"]),
    (changed("min = 1", "min\u00a0= 1", MINOR), ["p.toml:9:4", "no-break space"]),
    (MINOR.encode("utf-16"), ["UTF-16", "save it as UTF-8"]),
    (b"\x1f\x8b\x08\x00" + b"\x00" * 20, ["gzip", "gunzip"]),
    (changed("[[method]]", "[method]", MINOR), ["p.toml:2:1", "one bracket", "[[method]]"]),
    (changed("stage = 6\n", "", MINOR).replace("[query]", "stage = 6\n[query]"), ["stands below [[call]]", "above the first table"]),
    (changed("min = 1", 'min = "1"', MINOR), ["p.toml:9:7", "whole number without quotes"]),
    (changed("x16x16x16,12", "&x16x16x16,12", MINOR), ["p.toml:4:12", "& and + are not written", "at byte 0"]),
    (changed('"14"', '"15"', MINOR), ["p.toml:7:12", "a place is missing"]),
    (changed('mark = "b"', 'mark = "B"', MINOR), ["p.toml:6:8", "one small letter"]),
    (changed("max = 60", "max = 60\nlength = 3", MINOR), ["p.toml:11:10", "the key `length` is unknown"]),
    (changed("stage = 6", "stage: 6", MINOR), ["p.toml:1:", "with `=` between them"]),
    (changed('letter = "P"', 'letter = "P', MINOR), ["p.toml:3:", "no closing quote"]),
    (MINOR + "[query]\nmin = 2\nmax = 3\n", ["p.toml:11:", "stands twice"]),
    (b"\xef\xbb\xbf" + MINOR.encode().replace(b"x16x16x16", b"x16\xff"), ["p.toml:4:16", "no UTF-8"]),
]

# What is taken and surely not meant, and the words of the warning.
WARNED = [
    (changed("x16x16x16,12", "x16x16x16", MINOR), ["treble is not home", "lack its lead end"]),
    (changed("x16x16x16,12", "x16x16x16x16x16x16", MINOR), ["is one lead: it ends in rounds"]),
    (changed("stage = 6", "stage = 8", MINOR), ["one of 6 bells", "place 6 to place 7"]),
    (changed('"14"', '"4"', MINOR), ["has one place, 4: it is read as 14"]),
    ('stage = 7\n[[method]]\nletter = "G"\nnotation = "3,1.7.1.7.1.7.1"\n[[call]]\nmark = "b"\nnotation = "3"\n[query]\nmin = 1\nmax = 140\n',
     ["takes the treble off the lead: 3 stands in place of 1"]),
    (changed("min = 1\nmax = 60", "min = 721\nmax = 800", MINOR), ["above the extent of 720 changes"]),
    (changed("min = 1\nmax = 60", "min = 50\nmax = 55", MINOR), ["no number of leads of 12 changes"]),
    (MINOR + '[[count]]\nmark = "b"\nmin = 6\n', ["at least 6 leads with the mark b", "at most 5 leads"]),
    (changed("max = 60", "max = 720\nparts = 3", MINOR) + '[[count]]\nmark = "b"\nmin = 4\nmax = 5\n', ["a multiple of 3"]),
    (MINOR + '[[rows]]\npattern = "*3456"\nmin = 3\n', ["only 2 rows fit it"]),
    (MINOR + '[[rows]]\npattern = "*56"\nmax = 0\n', ["rounds, which each touch has"]),
    (MINOR + "[com]\nmin = 1\n", ["there is one method"]),
    (changed('letter = "P"', 'letter = "P"\nname = "Cambridge Surprise Minor"', MINOR), ["x36x14x12x36x14x56,12"]),
    (changed('[[call]]\nmark = "b"\nnotation = "14"\n', "", MINOR).replace("max = 60", "max = 59"), ["plain course of 60 changes"]),
]


class Check(unittest.TestCase):
    def setUp(self):
        folder = tempfile.TemporaryDirectory()
        self.addCleanup(folder.cleanup)
        self.file = Path(folder.name) / "p.toml"

    def checked(self, problem, status):
        self.file.write_bytes(problem if isinstance(problem, bytes) else problem.encode())
        output, notes = compose("check", self.file, status=status)
        self.assertEqual(notes, "")
        return output

    def test_faults_are_those_of_the_program_by_name(self):
        for problem, told in REFUSED:
            self.assertEqual(first_fault(problem.encode()).note(), f"ringsearch: problem {told}", problem)

    def test_the_program_says_the_same(self):
        for problem, told in REFUSED:
            status, book, note = search(problem, "--turns", "0")
            self.assertEqual((status, book, note), (4, [], f"ringsearch: problem {told}"), problem)

    def test_the_program_agrees_on_changed_files(self):
        chosen = random.Random(51)
        whole = (DOUBLES + '[[count]]\nmark = "b"\nmax = 9\n[[rows]]\npattern = "*45"\nmin = 1\n[com]\nmax = 3\n').encode()
        for _ in range(400):
            place = chosen.randrange(len(whole))
            text = whole[:place] + bytes([chosen.choice(b'019 \n"=[].x,abAB*?\xff')]) + whole[place + chosen.randrange(2):]
            status, _, note = search(text, "--turns", "0")
            fault = first_fault(text)
            self.assertEqual(note if status == 4 else None, fault.note() if fault else None, text)

    def test_the_program_agrees_on_made_up_files(self):
        chosen = random.Random(17)
        names = set()
        for _ in range(300):
            text = made_up.problem(chosen)
            status, _, note = search(text, "--turns", "0")
            fault = first_fault(text.encode())
            self.assertEqual(note if status == 4 else None, fault.note() if fault else None, text)
            names.add(fault.name if fault else None)
        self.assertLessEqual({None, "Letter", "Notation", "CallLength", "Clash", "Range", "Count", "Pattern"}, names)

    def test_beginners_mistakes(self):
        for problem, words in MISTAKES:
            output = self.checked(problem, 2)
            for one in words:
                self.assertIn(one, output)
            self.assertIn("ringsearch: problem", output)

    def test_what_is_surely_not_meant(self):
        for problem, words in WARNED:
            output = self.checked(problem, 0)
            self.assertEqual(output.count("Warning: "), 1, output)
            for one in words:
                self.assertIn(one, output)

    def test_what_is_meant_is_not_warned_of(self):
        for words in (["Plain Bob Minor", "--length", "1-144", "--bobs", "--half-lead", "36"],
                      ["Stedman Triples", "--length", "1-120", "--bobs", "--singles"],
                      ["Standard Eight Surprise Major", "--length", "224-448", "--bobs"],
                      ["Cambridge Surprise Major", "--length", "1250-1350", "--bobs", "--tenors-together"]):
            output = self.checked(compose("problem", *words)[0], 0)
            self.assertNotIn("Warning", output)

    def test_each_fault_has_a_cure(self):
        for name, number in NUMBERS.items():
            self.assertTrue(problem_cure(number, name), name)
        for name in ("Symbol", "Above", "Order", "Gap", "CrossOnOdd", "Dot", "SecondComma", "EmptyBlock", "Long"):
            self.assertTrue(notation_cure(name), name)

    def test_other_files_are_named(self):
        for text, words in (("ringsearch checkpoint 2\n", "is a checkpoint"), ("24 ppp\ntouches 1\n", "is a book")):
            self.file.write_text(text)
            self.assertIn(words, compose("check", self.file, status=2)[1])
        self.assertIn("can't be read", compose("check", self.file.with_name("none.toml"), status=2)[1])


if __name__ == "__main__":
    unittest.main()
