"""The accident: a renter's own limit takes one octet more, and her neighbour's entry has to stay as it was.

    python3 -m unittest test_accident
"""

import unittest

import oer

# SEQUENCE OF {name VisibleString (SIZE (1..12)), limit INTEGER (0..MAX), alarm BOOLEAN DEFAULT TRUE,
#              band REAL OPTIONAL}
ROWS = [9, 2, 1, 12, 0, 0, 2, 1, 0, 0, 0, 0, 1, 0, 0, 0, 0, 0, 4, 0, 0, 0, 0, 0, 10, 0, 0, 0, 0, 4, 11, 0, 0, 0, 4, 1]
ITEMS = [0, 0, 0, 1, 0, 0, 2, 2, 1, 3, 1, 0, 4, 0, 0]
YARD = 5
MESSAGE = b"\x01\x02\x00\x04Anna\x01\xFF\x40\x04Bert\x03\x01\x11\x70\x3F\x00\x00\x00"
NEIGHBOUR = 10


class Accident(unittest.TestCase):
    def setUp(self):
        self.table = oer.Table(ROWS, ITEMS)

    def refused(self, number, part, place, call, *arguments, **more):
        with self.assertRaises(oer.Refused) as caught:
            call(*arguments, **more)
        refusal = caught.exception
        self.assertEqual((refusal.number, refusal.part, refusal.place), (number, part, place))

    def test_the_neighbour_keeps_every_octet(self):
        after = self.table.edit(YARD, MESSAGE, [0, 1], [(2, 256)])
        self.assertEqual(after, MESSAGE[:8] + b"\x02\x01\x00" + MESSAGE[NEIGHBOUR:])
        self.assertEqual(self.table.setting(YARD, after, [0, 1]), ("unsigned", 256))
        self.assertEqual(self.table.text(YARD, after, [1, 0]), b"Bert")
        self.assertEqual(self.table.setting(YARD, after, [1, 1]), ("unsigned", 70000))
        self.assertEqual(self.table.setting(YARD, after, [1, 2]), ("truth", True))
        self.assertEqual(self.table.setting(YARD, after, [1, 3]), ("single", 0.5))
        self.assertEqual(self.table.setting(YARD, after, [0, 3]), ("absent", None))

    def test_an_edit_is_decode_swap_encode(self):
        nodes, contents = self.table.decode(YARD, MESSAGE)
        self.assertEqual(self.table.encode(YARD, nodes, contents), MESSAGE)
        self.assertEqual(nodes[3], (2, 255))
        nodes[3] = (2, 256)
        self.assertEqual(self.table.encode(YARD, nodes, contents), self.table.edit(YARD, MESSAGE, [0, 1], [(2, 256)]))

    def test_refusals(self):
        self.refused(12, 4, 0, self.table.edit, YARD, MESSAGE, [0, 1], [(2, 256)], room=len(MESSAGE))
        self.refused(13, 3, 0, self.table.setting, YARD, MESSAGE, [2])
        self.refused(5, 1, 20, self.table.validate, YARD, MESSAGE[:-1])
        self.refused(7, 2, 0, self.table.edit, YARD, MESSAGE, [0, 0], [(9, 0)])
        self.refused(1, 0, 0, oer.Table, ROWS[:-1], ITEMS)
        self.assertEqual(self.table.text(YARD, MESSAGE, [0, 1], b"no text"), b"no text")


if __name__ == "__main__":
    unittest.main()
