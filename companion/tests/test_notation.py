"""Place notation as docs/formats.md tells it."""

import unittest

from companion.notation import NotationFault, read_notation, write_notation

SPELLED = [
    (4, "x14x14,12", "x14x14x14x12"),
    (5, "5.1.5.1.5,125", "5.1.5.1.5.1.5.1.5.125"),
    (5, "3,1.5.1.5.1", "3.1.5.1.5.1.5.1.5.1"),
    (6, "4", "14"),
    (6, "2", "12"),
    (6, " X.1 4-\t", "x14x"),
    (12, "x5Tx14", "x5Tx14"),
]

# The examples of the documented faults, and what the order of the table decides.
FAULTS = [
    (5, "+5.1", "Symbol", 0), (4, "15", "Above", 1), (4, "21", "Order", 1), (4, "13", "Gap", 1), (5, "x1", "CrossOnOdd", 0),
    (4, "x..x", "Dot", 2), (4, "x.,1", "Dot", 1), (4, "x,1,2", "SecondComma", 3), (4, ",x", "EmptyBlock", 0),
    (4, "", "EmptyBlock", 0), (4, "x" * 129, "Long", 129), (6, "11", "Order", 1), (6, "x,", "EmptyBlock", 2),
    (6, "x,,", "SecondComma", 2), (4, ".x", "Dot", 0), (6, "é", "Symbol", 0), (10, "1e", "Symbol", 1),
]


class Notation(unittest.TestCase):
    def test_what_is_spelled(self):
        for stage, text, written in SPELLED:
            self.assertEqual(write_notation(read_notation(text, stage)), written, text)

    def test_first_faults(self):
        for stage, text, name, at in FAULTS:
            with self.assertRaises(NotationFault, msg=text) as caught:
                read_notation(text, stage)
            self.assertEqual((caught.exception.name, caught.exception.at), (name, at), text)


if __name__ == "__main__":
    unittest.main()
