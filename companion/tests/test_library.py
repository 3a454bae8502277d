"""The library of methods: what each title says, held by ringing."""

import unittest

from companion import library
from companion.bells import STAGE_NAMES, row_text, rounds, ring
from companion.classes import class_of, course_of, hunts_of, is_symmetric, lead_head, plain_bob_power
from companion.mistakes import Mistake
from companion.notation import read_notation
from companion.tests import plain_search

# Lead heads that handbooks tell: a to f at second's place lead ends, as powers of the first lead head of Plain Bob.
TOLD_POWERS = {
    "Cambridge Surprise Minor": 2, "Beverley Surprise Minor": 2, "Surfleet Surprise Minor": 2, "London Surprise Minor": -1,
    "St Clement's College Bob Minor": -1, "St Clement's College Bob Major": -1, "St Clement's College Bob Triples": -1,
    "Cambridge Surprise Major": 2, "Yorkshire Surprise Major": 2, "Lincolnshire Surprise Major": 2,
    "Superlative Surprise Major": 2, "Pudsey Surprise Major": 2, "Rutland Surprise Major": -1, "London Surprise Major": -1,
    "Bristol Surprise Major": -1, "Lessness Surprise Major": -1, "Kent Treble Bob Major": -1, "Oxford Treble Bob Minor": -1,
    "Cambridge Surprise Royal": 2, "Yorkshire Surprise Royal": 2, "Cambridge Surprise Maximus": 2, "Yorkshire Surprise Maximus": 2,
}

# Lead heads rung by hand.
TOLD_HEADS = {
    "Plain Bob Minimus": "1342", "Plain Bob Doubles": "13524", "Plain Bob Minor": "135264", "Plain Bob Major": "13527486",
    "Cambridge Surprise Minor": "156342", "Grandsire Doubles": "12534", "Grandsire Triples": "1253746",
    "Double Oxford Bob Minor": "142635",
}


METHODS = list(library.methods().values())


def told_leads(title, stage):
    """How many leads a plain course has: the bells that are no hunt bells work in turn."""
    if title.startswith(("Stedman", "Erin")):
        return stage
    return stage - 2 if title.startswith("Grandsire") else stage - 1


def told_class(title):
    for words in ("Surprise", "Delight", "Treble Bob", "Little"):
        if words in title:
            return words
    return "Principle" if title.startswith(("Stedman", "Erin")) else "Plain"


class Library(unittest.TestCase):
    def test_there_are_eighty_methods_from_doubles_to_maximus(self):
        self.assertGreaterEqual(sum(5 <= method.stage <= 12 for method in library.methods().values()), 80)

    def test_a_title_ends_in_its_stage(self):
        for method in METHODS:
            with self.subTest(method.title):
                self.assertEqual(method.title.split()[-1], STAGE_NAMES[method.stage])

    def test_plain_courses_are_true_and_have_their_length(self):
        for method in METHODS:
            with self.subTest(method.title):
                lead = plain_search.changes(method.notation, method.stage)
                self.assertEqual(method.leads, told_leads(method.title, method.stage))
                rows = plain_search.rows_of(plain_search.SYMBOLS[: method.stage], lead * method.leads)
                self.assertEqual(rows[-1], plain_search.SYMBOLS[: method.stage])
                self.assertEqual(len(set(rows)), len(lead) * method.leads)
                self.assertEqual([row_text(row) for row in course_of(method.changes(), method.stage)], rows)

    def test_classes_are_those_of_the_titles(self):
        for method in METHODS:
            with self.subTest(method.title):
                self.assertEqual(class_of(method.changes(), method.stage), told_class(method.title))

    def test_hunt_bells_are_those_of_the_titles(self):
        for method in METHODS:
            with self.subTest(method.title):
                hunts = [] if told_class(method.title) == "Principle" else [1, 2] if "Grandsire" in method.title else [1]
                self.assertEqual(hunts_of(method.changes(), method.stage), hunts)

    def test_leads_are_symmetric_and_lead_heads_regular(self):
        for method in METHODS:
            with self.subTest(method.title):
                if "Grandsire" not in method.title:
                    self.assertTrue(is_symmetric(method.changes()))
                if len(hunts_of(method.changes(), method.stage)) == 1:
                    self.assertIsNotNone(plain_bob_power(lead_head(method.changes(), method.stage)))

    def test_lead_heads_that_are_told(self):
        for title, power in TOLD_POWERS.items():
            [method] = library.find(title)
            self.assertEqual(plain_bob_power(lead_head(method.changes(), method.stage)), power % (method.stage - 1), title)
        for title, head in TOLD_HEADS.items():
            [method] = library.find(title)
            self.assertEqual(row_text(lead_head(method.changes(), method.stage)), head, title)

    def test_rows_of_stedman_rung_by_hand(self):
        [method] = library.find("Stedman Triples")
        rows = [row_text(row) for row in ring(rounds(7), method.changes()[:4])]
        self.assertEqual(rows, ["2135476", "2314567", "3241657", "2346175"])

    def test_lead_lengths(self):
        for title, length in (("Plain Bob Minor", 12), ("Grandsire Triples", 14), ("Cambridge Surprise Major", 32),
                              ("Stedman Caters", 12), ("Erin Triples", 6), ("Bristol Surprise Maximus", 48)):
            self.assertEqual(len(library.find(title)[0].changes()), length)

    def test_usual_calls_bring_the_treble_home_and_change_the_lead(self):
        for method in METHODS:
            with self.subTest(method.title):
                lead = method.changes()
                for notation in filter(None, (method.bob, method.single)):
                    call = read_notation(notation, method.stage)
                    if method.calls_at:
                        self.assertEqual(len(call), 1)
                        continue
                    called = lead[: len(lead) - len(call)] + call
                    self.assertNotEqual(called, lead)
                    if told_class(method.title) != "Principle":
                        self.assertEqual(lead_head(called, method.stage)[0], 1)

    def test_titles_are_found_as_they_are_typed(self):
        for title in ("st clements college bob minor", "St Clement’s College Bob Minor"):
            self.assertEqual(library.find(title)[0].title, "St Clement's College Bob Minor")
        self.assertEqual(len(library.find("standard eight surprise major")), 8)
        with self.assertRaisesRegex(Mistake, "is it Cambridge Surprise Major"):
            library.find("Cambrige Surprise Major")

    def test_sets_are_of_one_stage(self):
        for title in library.sets():
            self.assertEqual(len({method.stage for method in library.find(title)}), 1, title)


if __name__ == "__main__":
    unittest.main()
