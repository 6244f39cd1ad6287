"""The filter of the current: the second model of it, and the built program beside that model. It needs only the standard library;
what calls the program is skipped where none was built."""

import random
import unittest

import answers
from compare import Model
from random_decks import KINDS, random_deck
from tests.test_program import HOME, call, changed, needs_program
from verdicts import verify

FILTERED = (HOME / "decks" / "two_charges_filtered.toml").read_text()
PLAIN = FILTERED.replace("filter = 1\n", "")
REPORT = (b"frame 0 kinetic 70368744177664 electric 0 magnetic 0\n"
          b"frame 1 kinetic 70368744177664 electric 33397665693696 magnetic 0\ndone 1\n")
# The frame of step 1 of the two charges, behind a header of 196 bytes.
FRAME = 196 + 6245
# Decks that are refused: a change of the deck with a filter, and the line.
REFUSED = [("filter = 1", "filter = 2", "refused 5 limit run.filter 2 0 1"), ("filter = 1", "filter = -1", "refused 5 limit run.filter -1 0 1"),
           ("filter = 1", "filter = true", "refused 4 kind run.filter"), ("filter = 1", "filter = [1]", "refused 4 kind run.filter"),
           ("every = 1\nfilter = 1", "every = 0\nfilter = 2", "refused 5 limit run.every 0 1 1000000"),
           ("filter = 1", "filters = 1", "refused 2 unknown run.filters"),
           ("version = 2", "version = 1", "refused 2 unknown grid.sub")]
# Of a dump: the number at place 64, the status and the line.
HEADERS = [(0, 8, "broken frame 1 node 0 0 0 div 1649267441664 rho 412316860416"), (1, 0, "verified 2 frames"),
           (2, 7, "bad dump 64 2"), (2**24 + 1, 7, "bad dump 64 2")]


def said(status: int, line: str) -> tuple[int, bytes, bytes]:
    """What `verify` answers with this line."""
    text = f"{line}\n".encode()
    return (status, b"", text) if status else (0, text, b"")


def grid(cells: list[int], particles=()) -> Model:
    """A model with these particles and a filter, without fields."""
    model = object.__new__(Model)
    model.cells, model.side, model.filter, model.particles = cells, 4096, 1, list(particles)
    model.lay_out()
    return model


def divergence(model: Model, field: list[list[int]]) -> list[int]:
    return [sum(field[a][n] - field[a][model.down[a][n]] for a in range(3)) for n in range(len(model.places))]


class ModelOfFilter(unittest.TestCase):
    def test_the_charge_of_one(self):
        one = [({"charge": 1}, [0, 0, 0], None)]
        charges = grid([4, 4, 4], one).charges()
        for place, charge in ((0, 0, 0), 6597069766656), ((0, 3, 0), 3298534883328), ((1, 0, 3), 1649267441664), ((3, 1, 1), 824633720832):
            self.assertEqual(charges[place[0] + 4 * place[1] + 16 * place[2]], charge)
        self.assertEqual(sum(charges), 64 * 12 * 4096**3)
        self.assertEqual(grid([2, 2, 2], one).charges(), 8 * [6597069766656])

    def test_the_divergence_of_the_filtered_is_the_filtered_divergence(self):
        dice = random.Random(1)
        for cells in [2, 2, 2], [3, 2, 4], [5, 4, 2]:
            model = grid(cells)
            field = [[dice.randint(-2**90, 2**90) for _ in model.places] for _ in range(3)]
            smooth = [model.filtered(part) for part in field]
            self.assertEqual(divergence(model, smooth), model.filtered(divergence(model, field)))
            self.assertEqual([sum(part) for part in smooth], [64 * sum(part) for part in field])

    def test_two_charges(self):
        status, dump, report = Model(FILTERED).run()
        self.assertEqual((status, len(dump), report), (0, 12692, REPORT))
        self.assertEqual(int.from_bytes(dump[FRAME + 5:FRAME + 21], "big"), 3298534883328)
        self.assertEqual(dump[60:72], bytes([0, 0, 0, 12, 0, 0, 0, 1, 0, 0, 0, 0]))
        for number, *answer in HEADERS:
            self.assertEqual(verify(changed(dump, 64, number.to_bytes(4, "big"))), said(*answer))
        plain = Model(PLAIN).run()[1]
        self.assertEqual(verify(changed(plain, 64, b"\0\0\0\1"))[2],
                         b"broken frame 1 node 0 0 0 div 412316860416 rho 1649267441664\n")

    def test_refused(self):
        for old, new, line in REFUSED:
            self.assertEqual(answers.check(FILTERED.replace(old, new).encode()), (3, b"", f"{line}\n".encode()))
        old = (HOME / "decks" / "two_charges.toml").read_text().replace("every = 1\n", "every = 1\nfilter = 1\n")
        self.assertEqual(answers.check(old.encode()), (3, b"", b"refused 2 unknown run.filter\n"))
        self.assertEqual(Model(FILTERED.replace("filter = 1", "filter = 0")).run(), Model(PLAIN).run())

    def test_random_decks(self):
        """They have both filters, and charges apart; each frame meets Gauss's law, and a run in parts is the run in one."""
        self.assertIn("filter", KINDS)
        filters, apart = set(), 0
        for number in range(0, 16, 2):
            text = random_deck(number, "filter")
            model = Model(text)
            filters.add(model.filter)
            apart += any(model.charges())
            whole = model.run()
            self.assertNotEqual(whole[0], 3)
            self.assertEqual(answers.run(text.encode()), whole)
            if whole[0] == 0:
                self.assertEqual(answers.resume(whole[1], model.steps), whole)
        self.assertEqual(filters, {0, 1})
        self.assertGreater(apart, 1)


@needs_program
class Filter(unittest.TestCase):
    def test_two_charges(self):
        whole = Model(FILTERED).run()
        for tiles in "[1, 1, 1]", "[2, 2, 2]", "[1, 2, 1]":
            for workers in "1", "3", "64":
                with self.subTest(tiles=tiles, workers=workers):
                    text = FILTERED.replace("[2, 2, 2]", tiles)
                    self.assertEqual(call("run", "--workers", workers, given=text.encode()), whole)
        for number, *answer in HEADERS:
            with self.subTest(number=number):
                self.assertEqual(call("verify", given=changed(whole[1], 64, number.to_bytes(4, "big"))), said(*answer))

    def test_workers_share_the_cells(self):
        """On 16384 cells four workers share each phase of the fields; on fewer than 8192 one does it alone."""
        rows = [[2, i, j, 8, 1000003 * (7 * i + 13 * j + 1)] for i in range(0, 32, 4) for j in range(0, 32, 4)]
        text = FILTERED.replace("[4, 4, 4]", "[32, 32, 16]").replace("steps = 1", "steps = 2") + f"\n[field]\nfaces = {rows}\n"
        text = text.replace("e_to_b = [0, 0]", "e_to_b = [1, 2]").replace("b_to_e = [0, 0]", "b_to_e = [1, 1]")
        whole = Model(text).run()
        self.assertEqual(whole[0], 0)
        for workers in "1", "2", "4", "64":
            with self.subTest(workers=workers):
                self.assertEqual(call("run", "--workers", workers, given=text.encode()), whole)

    def test_refused(self):
        for old, new, line in REFUSED:
            with self.subTest(line):
                self.assertEqual(call("check", given=FILTERED.replace(old, new).encode()), (3, b"", f"{line}\n".encode()))
        self.assertEqual(call("run", given=FILTERED.replace("filter = 1", "filter = 0").encode()), Model(PLAIN).run())

    def test_upgraded_and_resumed(self):
        dump = call("run", given=FILTERED.encode())[1]
        self.assertEqual(call("upgrade", given=dump), (0, dump, b"upgraded 2 frames\n"))
        longer = Model(FILTERED.replace("steps = 1", "steps = 4")).run()
        for words in [], ["--workers", "3", "--tiles-x", "2"], ["--tiles-y", "2", "--tiles-z", "2"]:
            with self.subTest(words=words):
                self.assertEqual(call("resume", "--steps", "4", *words, given=dump), longer)

    def test_random_decks(self):
        for number in range(8):
            text = random_deck(number, "filter")
            with self.subTest(number):
                whole = Model(text).run()
                for workers in "1", "3":
                    self.assertEqual(call("run", "--workers", workers, given=text.encode()), whole)


if __name__ == "__main__":
    unittest.main()
