"""The built program: its words, its demonstration, and dumps that it verifies. Skipped where none was built of these sources
(./pic build does it); never skipped where PIC_PROGRAM names one, as the gate does."""

import os
import subprocess
import unittest
from functools import cache
from pathlib import Path

from compare import Model

HOME = Path(__file__).parents[2]
PROGRAM = subprocess.run([HOME / "pic", "built"], capture_output=True, text=True).stdout.strip()
USAGE = (b"usage: pic [check | run [--workers N] | verify | demo SEED [--workers N] | upgrade | resume --steps M [--workers N] "
         b"| probe [--workers N]]\n")

# The demonstration's deck, with SEED in two places.
DEMONSTRATION = (HOME / "decks" / "demo_7.toml").read_text().replace("seed = 7", "seed = SEED")

HEAD = """
version = 1
[grid]
cells = [4, 4, 4]
tiles = [2, 2, 2]
[run]
steps = STEPS
every = 1
[scale]
e_to_b = [0, 0]
b_to_e = [1, 1]
e_force = [1, 0]
b_force = [1, 0]
[field]
"""

# One step of a field without particles.
VACUUM = HEAD.replace("STEPS", "1") + "faces = [[2, 0, 0, 0, 8]]\n"

# Two particles that are too fast in the first step.
TOO_FAST = HEAD.replace("STEPS", "5") + """e = [1, 0, 0]
[[species]]
name = "neutral"
charge = 0
mass = 1
kick = [8388608, 0]
turn = [0, 0]
points = [[8192, 0, 0, 16777216, 0, 0], [0, 0, 0, 16777216, 0, 0]]
"""


def call(*words, given: bytes = b"") -> tuple[int, bytes, bytes]:
    """Exit status, standard output and standard error of the program."""
    done = subprocess.run([PROGRAM, *words], input=given, capture_output=True, timeout=120)
    return done.returncode, done.stdout, done.stderr


def changed(dump: bytes, place: int, new: bytes) -> bytes:
    return dump[:place] + new + dump[place + len(new):]


@cache
def takes_version_2() -> bool:
    """Whether the program takes decks of version 2, asked once by a deck without particles."""
    empty = (HOME / "decks" / "empty.toml").read_text().replace("version = 1", "version = 2").replace("[run]", "sub = 8\n[run]")
    status, _, line = call("check", given=empty.encode())
    assert (status, line) in ((0, b""), (3, b"refused 5 limit version 2 1 1\n")), (status, line)
    return status == 0


# What needs the program: skipped where none was built, but not where one was named.
needs_program = unittest.skipUnless(PROGRAM or os.environ.get("PIC_PROGRAM"), "no program was built of these sources")


@needs_program
class Program(unittest.TestCase):
    @classmethod
    def setUpClass(cls):
        cls.deck = (HOME / "decks" / "two_charges.toml").read_bytes()
        cls.dump = call("run", given=cls.deck)[1]
        assert len(cls.dump) == 12680

    def test_words(self):
        for words in (["go"], ["demo"], ["help"], ["--help"], ["run", "--workers", "0"], ["run", "--workers", "65"],
                      ["verify", "x"], ["demo", "4294967296"], ["demo", "7", "--workers", "0"], [b"\xff"]):
            with self.subTest(words=words):
                self.assertEqual(call(*words, given=self.deck), (2, b"", USAGE))
        for words in ([], ["check"], ["--"]):
            with self.subTest(words=words):
                self.assertEqual(call(*words, given=self.deck), (0, b"ok 2 particles\n", b""))
        whole = call("run", given=self.deck)
        for words in (["--workers", "64"], ["--workers=3"], ["--workers", "+3"], ["--workers", "003"], ["--"]):
            with self.subTest(words=words):
                self.assertEqual(call("run", *words, given=self.deck), whole)

    def test_demonstration(self):
        first = call("demo", "7")
        self.assertIn(first[0], (0, 1))
        self.assertEqual(first[2], b"")
        for words in (["7"], ["--", "7"], ["+7"], ["007"], ["7", "--workers", "64"], ["--workers=3", "7"]):
            with self.subTest(words=words):
                self.assertEqual(call("demo", *words, given=b"no deck"), first)
        text = DEMONSTRATION.replace("SEED", "7")
        self.assertEqual(call("run", given=text.encode())[2], first[1])
        self.assertNotEqual(call("demo", "8"), first)

    def test_demonstration_against_the_model(self):
        model = Model(DEMONSTRATION.replace("SEED", "4294967295"))
        model.steps = 1
        model.every = 1
        status, _, report = model.run()
        text = DEMONSTRATION.replace("SEED", "4294967295").replace("steps = 16", "steps = 1").replace("every = 4", "every = 1")
        self.assertEqual(call("run", given=text.encode())[::2], (status, report))
        self.assertEqual(call("demo", "4294967295")[1].splitlines()[0], report.splitlines()[0])

    def test_dumps(self):
        good, header, frame = self.dump, 64 + 2 * 60, 53 + 96 * 64 + 24 * 2
        ion = header + frame + 5 + 96 * 64
        kinetic = (int.from_bytes(good[6381:6397], "big") + 1).to_bytes(16, "big")
        for name, dump, answer in (
            ("whole", good, (0, b"verified 2 frames\n", b"")),
            ("cut", good[:-1], (7, b"", b"bad dump 12679 9\n")),
            ("longer", good + b"\0", (7, b"", b"bad dump 12680 10\n")),
            ("empty", b"", (7, b"", b"bad dump 0 9\n")),
            ("first byte", changed(good, 0, b"\0"), (7, b"", b"bad dump 0 1\n")),
            ("cells", changed(good, 8, (65).to_bytes(4, "big")), (7, b"", b"bad dump 8 2\n")),
            ("no frame", changed(good, header, b"E"), (7, b"", b"bad dump 184 3\n")),
            ("a step", changed(good, header + 1, (1).to_bytes(4, "big")), (7, b"", b"bad dump 185 4\n")),
            ("a value", changed(good, header + 5, b"\x7f"), (7, b"", b"bad dump 189 5\n")),
            ("outside the box", changed(good, ion - frame, (16384).to_bytes(4, "big")), (7, b"", b"bad dump 6333 6\n")),
            ("an energy", changed(good, 6381, kinetic), (7, b"", b"bad dump 6381 7\n")),
            ("no end", changed(good, 12674, b"F"), (7, b"", b"bad dump 12674 3\n")),
            ("an end", changed(good, 12675, b"\3"), (7, b"", b"bad dump 12675 8\n")),
            ("a place", changed(good, ion + 24, (3073).to_bytes(4, "big")),
             (8, b"", b"broken frame 1 node 0 0 0 div 412316860416 rho 412518187008\n")),
            ("a field", changed(good, 204, b"\1"), (8, b"", b"broken frame 0 node 0 0 0 div 1 rho 0\n")),
        ):
            with self.subTest(name):
                self.assertEqual(call("verify", given=dump), answer)

    def test_round_the_box(self):
        # both at x = 100, and the electron goes 200 sub-cells down: out of the box at its low face and in at the high one
        deck = self.deck.replace(b"points = [[1024, 0, 0, ", b"points = [[100, 0, 0, ").replace(b"8388608", b"-819200")
        dump, start = call("run", given=deck)[1], 64 + 2 * 60 + 53 + 96 * 64 + 24 * 2 + 5
        e = [int.from_bytes(dump[start + 16 * n:start + 16 * n + 16], "big", signed=True) for n in range(3 * 64)]
        self.assertEqual({n: value for n, value in enumerate(e) if value}, {0: -20132659200, 3: -20132659200})
        electron = start + 96 * 64 + 24
        self.assertEqual(int.from_bytes(dump[electron:electron + 4], "big"), 16284)

    def test_every_cut(self):
        for length in [*range(0, 400), *range(400, len(self.dump), 97)]:
            status, out, report = call("verify", given=self.dump[:length])
            self.assertEqual((status, out, report), (7, b"", b"bad dump %d 9\n" % length))

    def test_dumps_of_whole_runs_and_of_stopped_ones(self):
        for name, text, status, last, frames in (
            ("vacuum", VACUUM, 0, b"done 1", 2),
            ("too fast", TOO_FAST, 1, b"stopped 1 particle 0 far 0 8192", 1),
        ):
            with self.subTest(name):
                ended, dump, report = call("run", given=text.encode())
                self.assertEqual((ended, report.splitlines()[-1]), (status, last))
                self.assertEqual(call("verify", given=dump), (0, b"verified %d frames\n" % frames, b""))

    def test_dumps_of_the_decks(self):
        for path in sorted((HOME / "decks").glob("*.toml")):
            with self.subTest(path.name):
                if "version = 2" in path.read_text() and not takes_version_2():
                    self.skipTest("the program takes decks of version 1 alone")
                status, dump, report = call("run", given=path.read_bytes())
                frames = sum(line.startswith(b"frame ") for line in report.splitlines())
                self.assertEqual(call("verify", given=dump), (0, b"verified %d frames\n" % frames, b""))


if __name__ == "__main__":
    unittest.main()
