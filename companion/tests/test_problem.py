"""`./compose problem`: what it writes, and what it refuses."""

import tomllib
import unittest
from itertools import permutations

from companion.bells import SYMBOLS
from companion.tests import plain_search
from companion.tests.running import compose


def written(*words):
    return compose("problem", *words)[0]


class Written(unittest.TestCase):
    def test_plain_bob_minor(self):
        text = written("Plain Bob Minor", "--length", "180-360", "--bobs", "--singles", "--parts", "2", "--at-most", "2s",
                       "--at-least", "4", "*56")
        self.assertEqual(tomllib.loads(text), {
            "stage": 6,
            "method": [{"letter": "P", "name": "Plain Bob Minor", "notation": "x16x16x16,12"}],
            "call": [{"mark": "b", "notation": "14"}, {"mark": "s", "notation": "1234"}],
            "query": {"min": 180, "max": 360, "parts": 2},
            "count": [{"mark": "s", "max": 2}],
            "rows": [{"pattern": "*56", "min": 4}],
        })
        for words in ("# A bob: 14 in place of the last change of the lead.", "# At most 2 leads with the call s.",
                      "# Touches of 180 to 360 changes, in 2 equal parts.", "# At least 4 rows of this pattern."):
            self.assertIn(words, text.splitlines())

    def test_spliced_methods_have_letters_and_calls_of_their_own(self):
        told = tomllib.loads(written("Double Norwich Court Bob Major", "Plain Bob Major", "--length", "224", "--bobs",
                                     "--changes-of-method", "2-", "--exactly", "3D"))
        self.assertEqual([method["letter"] for method in told["method"]], ["D", "P"])
        self.assertEqual(told["call"], [{"mark": "b", "notation": "16", "methods": "D"},
                                        {"mark": "b", "notation": "14", "methods": "P"}])
        self.assertEqual(told["com"], {"min": 2})
        self.assertEqual(told["leads"], [{"letter": "D", "min": 3, "max": 3}])

    def test_a_set(self):
        told = tomllib.loads(written("Standard Eight Surprise Major", "--length", "224"))
        self.assertEqual("".join(method["letter"] for method in told["method"]), "CYLSRPOB")

    def test_calls_by_hand(self):
        told = tomllib.loads(written("Plain Bob Minimus", "--length", "1-24", "--call", "e=14/5", "--call", "f=14@P"))
        self.assertEqual(told["call"], [{"mark": "e", "notation": "14", "over": 5},
                                        {"mark": "f", "notation": "14", "methods": "P"}])

    def test_half_leads(self):
        told = tomllib.loads(written("Plain Bob Minor", "--length", "1-144", "--bobs", "--half-lead", "36"))
        self.assertEqual(told["method"][1]["letter"], "H")
        self.assertEqual(told["method"][1]["notation"], "x16x16x36x16x16x12")

    def test_stedman_by_twelve(self):
        told = tomllib.loads(written("Stedman Triples", "--length", "1-120", "--bobs", "--singles"))
        self.assertEqual([method["notation"] for method in told["method"]], [
            "3.1.7.3.1.3.1.3.7.1.3.1", "3.1.5.3.1.3.1.3.7.1.3.1", "3.1.567.3.1.3.1.3.7.1.3.1"])
        self.assertEqual([call["notation"] for call in told["call"]], ["5.1.3.1", "567.1.3.1"])


class Refused(unittest.TestCase):
    def refused(self, words, *told):
        output, notes = compose("problem", *words, status=2)
        self.assertEqual(output, "")
        self.assertEqual(notes.count("\n"), 1)
        for one in told:
            self.assertIn(one, notes)

    def test_mistakes_are_one_sentence(self):
        minor = ["Plain Bob Minor", "--length", "1-72"]
        self.refused(["Cambrige Minor", "--length", "1"], "no method")
        self.refused(["Plain Bob Minor"], "--length")
        self.refused(["--length", "60", "--bobs", "Plain Bob Minor"], "before the options")
        self.refused(["Plain Bob Minor", "--length", "long"], "“long”")
        self.refused(["Plain Bob Minor", "--length", "72-1"], "72 to 1")
        self.refused([*minor, "--at-most", "b9"], "9b")
        self.refused([*minor, "--at-most", "9z"], "no lead has the mark “z”")
        self.refused([*minor, "--at-least", "1", "*57"], "bell 7 is above the 6 bells")
        self.refused([*minor, "--bobs", "15"], "“15”", "a place is missing")
        self.refused([*minor, "--call", "B=14"], "MARK=NOTATION")
        self.refused(["Plain Bob Minor", "Plain Bob Major", "--length", "72"], "Minor and Major")
        self.refused(["Stedman Triples", "--length", "84", "--tenors-together"], "treble")
        self.refused([*minor, "--parts", "65"], "`parts` is 65")
        self.refused(["Stedman Doubles", "--length", "60", "--bobs"], "no usual bob")


def lead_heads(bells):
    """All lead heads with the treble leading."""
    return ["1" + "".join(rest) for rest in permutations(SYMBOLS[1:bells])]


class Tenors(unittest.TestCase):
    """The patterns are held against every lead head, rung by the plain search."""

    def hold(self, title, bells, calls=("--bobs",)):
        text = written(title, "--length", "1-500", "--tenors-together", *calls)
        problem = plain_search.load(text)
        patterns = [rows["pattern"] for rows in problem.query["rows"]]
        self.assertTrue(patterns)
        plain = [step for step, (_, mark, _) in enumerate(problem.steps) if mark == "p"]
        home = SYMBOLS[:bells]
        together, row = set(), home
        while not together or row != home:
            together.add((row.index(home[-2]), row.index(home[-1])))
            row = problem.lead(row, plain[0])[0]
        for head in lead_heads(bells):
            begins = (head.index(home[-2]), head.index(home[-1])) in together
            for step in range(len(problem.steps)):
                rung = plain_search.rows_of(head, problem.steps[step][2])
                ends = (rung[-1].index(home[-2]), rung[-1].index(home[-1])) in together
                marked = any(plain_search.fits(row, pattern) for row in rung for pattern in patterns)
                if begins and ends:
                    self.assertFalse(marked, (head, step))
                if begins and not ends:
                    after = [plain_search.rows_of(rung[-1], lead) for _, _, lead in problem.steps]
                    told = [marked or any(plain_search.fits(row, pattern) for row in rows for pattern in patterns) for rows in after]
                    self.assertTrue(all(told), (head, step))

    def test_minor(self):
        self.hold("Cambridge Surprise Minor", 6)
        self.hold("Plain Bob Minor", 6)
        self.hold("Kent Treble Bob Minor", 6)

    def test_triples(self):
        self.hold("Grandsire Triples", 7, ("--bobs", "--singles"))

    def test_major(self):
        self.hold("Plain Bob Major", 8)


if __name__ == "__main__":
    unittest.main()
