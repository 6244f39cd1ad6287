"""The displaced start: the second model of it, and the built program beside that model. It needs only the standard library; what calls
the program is skipped where none was built."""

import unittest

import answers
from compare import Model
from random_decks import random_deck
from tests.test_program import HOME, call, needs_program

# Two charges, of which the electron is displaced from the ion by half a cell.
DISPLACED = (HOME / "decks" / "two_charges_filtered.toml").read_text().replace("steps = 1\n", "steps = 0\n").replace("filter = 1\n", "")
DISPLACED = DISPLACED.replace("points = [[1024, 0, 0, 8388608, 0, 0]]", 'displace = { of = "ion", by = [2048, 0, 0], v = [0, 0, 0] }')
FILTERED = DISPLACED.replace("every = 1\n", "every = 1\nfilter = 1\n")
REPORT = b"frame 0 kinetic 0 electric 154618822656 magnetic 0\ndone 0\n"
# Decks that are refused: a change of that with the displaced electron, and the line.
REFUSED = [("by = [2048, 0, 0]", "by = [4097, 0, 0]", "refused 5 limit species[1].displace.by[0] 4097 -4096 4096"),
           ("by = [2048, 0, 0]", "by = [0, 0, -4097]", "refused 5 limit species[1].displace.by[2] -4097 -4096 4096"),
           ("charge = -1", "charge = -2", "refused 5 limit species[1].charge -2 -1 -1"),
           ('charge = -1\nmass = 1\nkick = [0, 0]\nturn = [0, 0]\ndisplace = { of = "ion"',
            'charge = -2\nmass = 1\nkick = [0, 0]\nturn = [0, 0]\ndisplace = { of = "moon"', "refused 6 name species[1].displace.of"),
           ('of = "ion"', 'of = "electron"', "refused 6 name species[1].displace.of"),
           ('of = "ion", ', "", "refused 3 missing species[1].displace.of"),
           ("by = [2048, 0, 0], ", "", "refused 3 missing species[1].displace.by"),
           (", v = [0, 0, 0]", "", "refused 3 missing species[1].displace.v"),
           ("v = [0, 0, 0] }", "v = [0, 16777217, 0] }", "refused 5 limit species[1].displace.v[1] 16777217 -16777216 16777216"),
           ("v = [0, 0, 0] }", "v = [0, 0, 0], seed = 1 }", "refused 2 unknown species[1].displace.seed"),
           ("displace =", "points = []\ndisplace =", "refused 2 unknown species[1].displace"),
           ("e_force = [1, 20]", "e_force = [43, 0]", "refused 5 limit scale.e_force 17729624997888 -17592186044416 17592186044416")]
# In version 1 the key is unknown.
VERSION_1 = DISPLACED.replace("version = 2", "version = 1").replace("sub = 12\n", "")


def e_of(dump: bytes, species: int, places: int) -> list[int]:
    """The values of E in the first frame of a dump of version 2."""
    first = 76 + 60 * species + 5
    return [int.from_bytes(dump[at:at + 16], "big", signed=True) for at in range(first, first + 48 * places, 16)]


def box_deck(cells: list[int], place: list[int], way: list[int]) -> str:
    """An ion at a place and an electron that is displaced from it."""
    text = DISPLACED.replace("[2, 2, 2]", "[1, 1, 1]").replace("[4, 4, 4]", str(cells))
    return text.replace("[1024, 0, 0, 0", f"[{', '.join(map(str, place))}, 0").replace("[2048, 0, 0]", str(way))


class ModelOfDisplace(unittest.TestCase):
    def test_two_charges(self):
        status, dump, report = Model(DISPLACED).run()
        self.assertEqual((status, report), (0, REPORT))
        self.assertEqual(e_of(dump, 2, 64), [412316860416] + [0] * 191)
        filtered = e_of(Model(FILTERED).run()[1], 2, 64)
        self.assertEqual((filtered[0], sum(filtered)), (8 * 412316860416, 64 * 412316860416))
        for old, new, line in REFUSED:
            self.assertIn(old, DISPLACED)
            self.assertEqual(answers.check(DISPLACED.replace(old, new).encode()), (3, b"", f"{line}\n".encode()), new)
        self.assertEqual(answers.check(VERSION_1.encode()), (3, b"", b"refused 2 unknown species[1].displace\n"))

    def test_ways_through_faces_edges_and_corners(self):
        """Wherever a particle is displaced to, E meets Gauss's law, and holds the charge times the way in all."""
        for cells in [4, 4, 4], [2, 2, 2], [3, 2, 5]:
            for way in [4096, 0, 0], [-4096, 0, 0], [3000, -3000, 0], [4096, 4096, 4096], [-1, -4095, 2000], [0, 0, 1]:
                model = Model(box_deck(cells, [4000, 4095, 1], way))
                model.test_start()
                self.assertEqual([sum(part) for part in model.electric], [12 * 4096**2 * d for d in way])

    def test_random_decks(self):
        ends = set()
        for number in range(24):
            text = random_deck(number, "displace")
            whole = Model(text).run()
            ends.add(whole[0])
            self.assertEqual(answers.run(text.encode()), whole)
        self.assertEqual(ends, {0, 1, 3})


@needs_program
class Displace(unittest.TestCase):
    def test_two_charges(self):
        for text in DISPLACED, FILTERED, FILTERED.replace("steps = 0", "steps = 3"):
            whole = Model(text).run()
            for workers in "1", "3":
                self.assertEqual(call("run", "--workers", workers, given=text.encode()), whole)
            self.assertEqual(call("check", given=text.encode()), (0, b"ok 2 particles\n", b""))
        self.assertEqual(call("run", given=DISPLACED.encode())[2], REPORT)

    def test_refused(self):
        for old, new, line in REFUSED:
            with self.subTest(line):
                for word in "check", "run":
                    self.assertEqual(call(word, given=DISPLACED.replace(old, new).encode()), (3, b"", f"{line}\n".encode()))
        self.assertEqual(call("check", given=VERSION_1.encode())[2], b"refused 2 unknown species[1].displace\n")

    def test_ways(self):
        for cells, way in ([4, 4, 4], [4096, 4096, 4096]), ([2, 2, 2], [-4096, 1, -4095]), ([3, 2, 5], [-1, -4095, 2000]):
            text = box_deck(cells, [4000, 4095, 1], way)
            with self.subTest(cells=cells):
                self.assertEqual(call("run", given=text.encode()), Model(text).run())

    def test_random_decks(self):
        for number in range(8):
            text = random_deck(number, "displace")
            with self.subTest(number):
                self.assertEqual(call("run", "--workers", "3", given=text.encode()), Model(text).run())


if __name__ == "__main__":
    unittest.main()
