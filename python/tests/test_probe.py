"""`pic probe`: the second model of it, and the built program beside that model. It needs only the standard library; what calls the
program is skipped where none was built."""

import re
import unittest

import answers
from compare import Model
from random_decks import random_deck
from tests.test_program import HOME, TOO_FAST, USAGE, call, needs_program

PLAIN = (HOME / "decks" / "two_charges_filtered.toml").read_text().replace("filter = 1\n", "")
PROBED = PLAIN + "[probe]\nplaces = [[0, 0, 0, 0, 0]]\nids = [1]\n"
LINES = b"0 0 1024 0 0 8388608 0 0\n1 412316860416 3072 0 0 8388608 0 0\ndone 1\n"
# Decks that are refused: a change, and the line.
REFUSED = [("ids = [1]", "ids = [2]", "refused 5 limit probe.ids[0] 2 0 1"), ("ids = [1]", "ids = [1, -1]", "refused 5 limit probe.ids[1] -1 0 1"),
           ("ids = [1]", "ids = 1", "refused 4 kind probe.ids"), ("ids = [1]", f"ids = {[1] * 65}", "refused 5 limit probe.ids 65 0 64"),
           ("ids = [1]", f"ids = {[1] * 64 + [2]}", "refused 5 limit probe.ids[64] 2 0 1"), ("ids = [1]", "id = [1]", "refused 2 unknown probe.id"),
           ("[[0, 0, 0, 0, 0]]", "[[2, 0, 0, 0, 0]]", "refused 5 limit probe.places[0][0] 2 0 1"),
           ("[[0, 0, 0, 0, 0]]", "[[1, 3, 0, 0, 0]]", "refused 5 limit probe.places[0][1] 3 0 2"),
           ("[[0, 0, 0, 0, 0]]", "[[1, 2, 3, 3, 4]]", "refused 5 limit probe.places[0][4] 4 0 3"),
           ("[[0, 0, 0, 0, 0]]", "[[0, 0, 0, 0]]", "refused 4 kind probe.places[0]"),
           ("[[0, 0, 0, 0, 0]]", str([[0, 0, 0, 0, 0]] * 65), "refused 5 limit probe.places 65 0 64"),
           ("[probe]", "[[probe]]", "refused 4 kind probe")]
STOPS = TOO_FAST.replace("version = 1", "version = 2").replace("tiles = [2, 2, 2]\n", "tiles = [2, 2, 2]\nsub = 12\n")
STOPS += "[probe]\nids = [1, 0, 1]\nplaces = [[0, 0, 3, 3, 3], [1, 2, 0, 0, 0]]\n"


class ModelOfProbe(unittest.TestCase):
    def test_two_charges(self):
        self.assertEqual(Model(PROBED).probe(), (0, LINES, b""))
        self.assertEqual(Model(PLAIN).probe(), (0, b"0\n1\ndone 1\n", b""))
        self.assertEqual(Model(PROBED).run(), Model(PLAIN).run())
        for old, new, line in REFUSED:
            for answer in answers.check, answers.probe:
                self.assertEqual(answer(PROBED.replace(old, new).encode()), (3, b"", f"{line}\n".encode()))
        alone = PROBED.partition("[[species]]")[0] + "[probe]\nids = [0]\n"
        self.assertEqual(answers.check(alone.encode()), (3, b"", b"refused 5 limit probe.ids[0] 0 0 -1\n"))

    def test_a_run_that_stops(self):
        self.assertEqual(Model(STOPS).probe(), (1, b"0 1 0 0 0 0 16777216 0 0 8192 0 0 16777216 0 0 0 0 0 16777216 0 0\n"
                                                   b"stopped 1 particle 0 far 0 8192\n", b""))

    def test_lines_are_columns_of_frames(self):
        """Those of the same deck with a frame of every step."""
        for number in range(0, 12, 2):
            text = random_deck(number, "probe")
            model, every = Model(text), Model(re.sub(r"(?m)^every = \d+", "every = 1", text))
            cells = len(model.places)
            status, lines, report = model.probe()
            self.assertLess(status, 2)
            self.assertEqual((report, answers.probe(text.encode())), (b"", (status, lines, report)))
            dump = every.run()[1]
            first = 76 + 60 * len(every.kinds) + sum(20 + 8 * len(loop["wave"]) for loop in every.loops)
            size = 53 + 96 * cells + 24 * len(every.particles)
            for step, line in enumerate(lines.splitlines()[:-1]):
                frame, wanted = dump[first + size * step:first + size * (step + 1)], [step]
                for field, axis, *cell in every.probes.get("places", []):
                    at = 5 + 16 * (cells * (3 * field + axis) + every.at(*cell))
                    wanted.append(int.from_bytes(frame[at:at + 16], "big", signed=True))
                for identity in every.probes.get("ids", []):
                    at = 5 + 96 * cells + 24 * identity
                    wanted += [int.from_bytes(frame[at + n:at + n + 4], "big", signed=True) for n in range(0, 24, 4)]
                self.assertEqual([int(word) for word in line.split()], wanted)


@needs_program
class Probe(unittest.TestCase):
    def test_two_charges(self):
        for tiles in "[1, 1, 1]", "[2, 2, 2]":
            for words in [], ["--workers", "1"], ["--workers=64"]:
                self.assertEqual(call("probe", *words, given=PROBED.replace("[2, 2, 2]", tiles).encode()), (0, LINES, b""))
        self.assertEqual(call("probe", given=PLAIN.encode()), (0, b"0\n1\ndone 1\n", b""))
        self.assertEqual(call("run", given=PROBED.encode()), call("run", given=PLAIN.encode()))
        self.assertEqual(call("probe", "--workers", "3", given=STOPS.encode()), Model(STOPS).probe())

    def test_words(self):
        for words in ["--workers", "0"], ["--workers", "65"], ["--workers", "1", "--workers", "1"], ["deck"], ["--steps", "1"]:
            self.assertEqual(call("probe", *words), (2, b"", USAGE))

    def test_refused(self):
        for old, new, line in REFUSED:
            with self.subTest(line):
                for word in "check", "run", "probe":
                    self.assertEqual(call(word, given=PROBED.replace(old, new).encode()), (3, b"", f"{line}\n".encode()))
        for text in b"", b"\xff", PROBED.replace("1024", "1025", 1).encode():
            self.assertEqual(call("probe", given=text), answers.probe(text))

    def test_many_places(self):
        places = [[n // 3 % 2, n % 3, n % 4, n // 4 % 4, n // 16] for n in range(64)]
        text = PROBED.replace("[[0, 0, 0, 0, 0]]", str(places)).replace("ids = [1]", f"ids = {[n % 2 for n in range(64)]}")
        self.assertEqual(call("probe", "--workers", "2", given=text.encode()), Model(text).probe())

    def test_random_decks(self):
        for number in range(8):
            text = random_deck(number, "probe")
            with self.subTest(number):
                for workers in "1", "3":
                    self.assertEqual(call("probe", "--workers", workers, given=text.encode()), Model(text).probe())


if __name__ == "__main__":
    unittest.main()
