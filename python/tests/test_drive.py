"""Driven current loops: the second model of them, and the built program beside that model. It needs only the standard library; what
calls the program is skipped where none was built."""

import re
import unittest
from itertools import product

import answers
from compare import Model
from random_decks import random_deck
from tests.test_program import VACUUM, call, changed, needs_program
from verdicts import verify

# A loop in a field without particles and without B.
DRIVEN = VACUUM.replace("version = 1", "version = 2").replace("tiles = [2, 2, 2]\n", "tiles = [2, 2, 2]\nsub = 12\n")
DRIVEN = DRIVEN.replace("steps = 1\n", "steps = 2\n").replace("b_to_e = [1, 1]", "b_to_e = [0, 0]").partition("[field]")[0]
PLAIN = DRIVEN
DRIVEN += "[[drive]]\naxis = 2\ncell = [0, 0, 0]\nwave = [8, -8]\n"
REPORT = (b"frame 0 kinetic 0 electric 0 magnetic 0\nframe 1 kinetic 0 electric 256 magnetic 0\n"
          b"frame 2 kinetic 0 electric 0 magnetic 0\ndone 2\n")
MOST = 1152921504606846976
LOOP = "[[drive]]\naxis = 1\ncell = [3, 3, 3]\nwave = [1, 2, 3]\n"
# Decks that are refused: a change, and the line.
REFUSED = [("[8, -8]", "[]", "refused 5 limit drive[0].wave 0 1 64"), ("[8, -8]", str([1] * 65), "refused 5 limit drive[0].wave 65 1 64"),
           ("axis = 2", "axis = 3", "refused 5 limit drive[0].axis 3 0 2"),
           ("cell = [0, 0, 0]", "cell = [0, 4, 0]", "refused 5 limit drive[0].cell[1] 4 0 3"),
           ("cell = [0, 0, 0]", "cell = [0, 0]", "refused 4 kind drive[0].cell"), ("[8, -8]", "8", "refused 4 kind drive[0].wave"),
           ("[8, -8]", f"[8, {MOST + 1}]", f"refused 5 limit drive[0].wave[1] {MOST + 1} -{MOST} {MOST}"),
           ("[8, -8]", f"[{-MOST - 1}, true]", f"refused 5 limit drive[0].wave[0] {-MOST - 1} -{MOST} {MOST}"),
           ("wave = [8, -8]\n", "", "refused 3 missing drive[0].wave"), ("axis = 2\n", "axis = 2\nx = 1\n", "refused 2 unknown drive[0].x"),
           ("[[drive]]", "[drive]", "refused 4 kind drive"), ("[[drive]]", "drive = [1]\n[other]", "refused 2 unknown other"),
           ("[[drive]]", 16 * LOOP + "[[drive]]", "refused 5 limit drive 17 0 16")]
# Of the dump, a place, its bytes, and the line of `verify`; the loop stands at 76, its wave at 96.
HEADERS = [(68, 0, 4, "bad dump 76 3"), (68, 17, 4, "bad dump 68 2"), (76, 3, 4, "bad dump 76 2"), (80, 4, 4, "bad dump 80 2"),
           (84, 3, 4, "verified 3 frames"), (92, 0, 4, "bad dump 92 2"), (92, 65, 4, "bad dump 92 2"), (96, MOST, 8, "verified 3 frames"),
           (96, MOST + 1, 8, "bad dump 96 2"), (104, 2**64 - MOST, 8, "verified 3 frames"), (104, 2**64 - MOST - 1, 8, "bad dump 104 2")]


def said(line: str) -> tuple[int, bytes, bytes]:
    """What `verify` answers with this line."""
    text = f"{line}\n".encode()
    return (0, text, b"") if line.startswith("verified") else (7, b"", text)


def steps(text: str, number: int) -> str:
    return re.sub(r"(?m)^steps = \d+", f"steps = {number}", text)


class ModelOfDrive(unittest.TestCase):
    def test_one_loop(self):
        status, dump, report = Model(DRIVEN).run()
        self.assertEqual((status, len(dump), report), (0, 18709, REPORT))
        model = Model(steps(DRIVEN, 1))
        model.run()
        found = {(axis, place): value for axis in range(3) for place, value in zip(model.places, model.electric[axis]) if value}
        self.assertEqual(found, {(0, (0, 0, 0)): 8, (0, (0, 1, 0)): -8, (1, (0, 0, 0)): -8, (1, (1, 0, 0)): 8})
        self.assertEqual(answers.resume(Model(steps(DRIVEN, 1)).run()[1], 2), (0, dump, REPORT))
        for place, number, size, line in HEADERS:
            self.assertEqual(verify(changed(dump, place, number.to_bytes(size, "big"))), said(line), (place, number))

    def test_loops_add_up(self):
        twice = DRIVEN + DRIVEN.partition("[[drive]]")[2].join(["[[drive]]", ""]).replace("[8, -8]", "[-8, 8]")
        self.assertEqual(Model(twice).run()[2], Model(PLAIN).run()[2])
        many = DRIVEN.replace("[8, -8]", str([MOST] * 64)) + 15 * LOOP.replace("[1, 2, 3]", str([-MOST] * 64))
        model = Model(many.replace("e_force = [1, 0]", "e_force = [1, 40]"))
        self.assertEqual(model.run()[0], 0)
        self.assertEqual(max(map(max, model.electric)), 30 * MOST)

    def test_refused(self):
        for old, new, line in REFUSED:
            self.assertEqual(answers.check(DRIVEN.replace(old, new).encode()), (3, b"", f"{line}\n".encode()))
        old = DRIVEN.replace("version = 2", "version = 1").replace("sub = 12\n", "")
        self.assertEqual(answers.check(old.encode()), (3, b"", b"refused 2 unknown drive\n"))
        # Where there is no version the key isn't what is wrong.
        self.assertEqual(answers.check(old.replace("version = 1\n", "").encode()), (3, b"", b"refused 3 missing version\n"))

    def test_random_decks_in_the_middle_of_a_wave(self):
        for number in range(0, 12, 2):
            text = random_deck(number, "drive")
            whole = Model(text).run()
            self.assertEqual(answers.run(text.encode()), whole)
            for first in range(0, Model(text).steps, 3):
                self.assertEqual(answers.resume(Model(steps(text, first)).run()[1], Model(text).steps), whole)


@needs_program
class Drive(unittest.TestCase):
    def test_one_loop(self):
        whole = Model(DRIVEN).run()
        for tiles, workers in product(("[1, 1, 1]", "[2, 2, 2]", "[1, 2, 1]"), ("1", "3", "64")):
            self.assertEqual(call("run", "--workers", workers, given=DRIVEN.replace("[2, 2, 2]", tiles).encode()), whole)
        first = call("run", given=steps(DRIVEN, 1).encode())[1]
        self.assertEqual(call("resume", "--steps", "2", given=first), whole)
        self.assertEqual(call("upgrade", given=whole[1]), (0, whole[1], b"upgraded 3 frames\n"))
        for place, number, size, line in HEADERS:
            with self.subTest(place=place, number=number):
                self.assertEqual(call("verify", given=changed(whole[1], place, number.to_bytes(size, "big"))), said(line))

    def test_refused(self):
        for old, new, line in REFUSED:
            with self.subTest(line):
                self.assertEqual(call("check", given=DRIVEN.replace(old, new).encode()), (3, b"", f"{line}\n".encode()))

    def test_random_decks(self):
        for number in range(8):
            text = random_deck(number, "drive")
            with self.subTest(number):
                whole = Model(text).run()
                self.assertEqual(call("run", "--workers", "3", given=text.encode()), whole)
                if whole[0] == 0:
                    first = call("run", given=steps(text, Model(text).steps // 2).encode())[1]
                    self.assertEqual(call("resume", "--steps", str(Model(text).steps), "--workers", "2", given=first), whole)


if __name__ == "__main__":
    unittest.main()
