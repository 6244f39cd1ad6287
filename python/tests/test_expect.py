"""What theory is taken for a dump: by its species, their drifts and thermal speeds, and its uniform B."""

import tempfile
import unittest
from math import pi
from pathlib import Path

import numpy as np

from pictools import expect, theory
from pictools.dump import Dump
from tests import made

CELLS = (16, 4, 2)
NUMBERS = 2 * pi / 16 * np.arange(9)


class Expected(unittest.TestCase):
    def dump(self, thermal=(0.05, 0.05, 0.05), drift=(0, 0, 0), streams=1, turn=(0, 0, 0), wp=0.1) -> Dump:
        """Electrons of these thermal speeds, in two streams of opposite drifts or in one, in a B that turns them by these
        angles."""
        dice = np.random.default_rng(1)
        number = 4000
        places, speeds = dice.random((number, 3)) * CELLS, dice.normal(0, 1, (number, 3)) * thermal
        speeds += np.where(np.arange(number) < number // streams, 1, -1)[:, None] * drift
        kinds = [("forward", -1, number // streams), ("backward", -1, number // 2)][:streams]
        half = made.kick_of(wp, number / np.prod(CELLS)) / 16 * made.E_FORCE.value / 2**20 if wp else 1
        b = np.zeros((2, 3, *reversed(CELLS))) + (np.tan(np.array(turn) / 2) / half / made.UNIT)[:, None, None, None]
        with tempfile.NamedTemporaryFile(suffix=".dump", delete=False) as file:
            file.write(made.dump(cells=CELLS, b=b, particles=lambda n: (places, speeds), kinds=kinds, wp=wp))
        self.addCleanup(Path(file.name).unlink)
        return Dump(file.name)

    def near(self, here: float, there: float, part: float = 0.05):
        self.assertLess(abs(here / there - 1), part)

    def test_the_start(self):
        start = expect.start_of(self.dump((0.01, 0.05, 0.02), (0, 0.3, 0), turn=(0, 0, 0.1)), "x")
        self.near(start.wp, 0.1, 1e-5)
        self.near(start.turns[2], 0.1, 1e-5)
        for here, there in zip(start.thermal, (0.01, 0.05, 0.02)):
            self.near(here, there)
        self.assertLess(abs(start.drifts - [[0, 0.3, 0]]).max(), 0.005)

    def test_damping(self):
        dump = self.dump()
        found = expect.damping(dump, "ex", 2, "x")
        self.near(found.frequency, theory.langmuir(NUMBERS[2], 0.1, 0.05).real, 0.02)
        self.assertLess(found.rate, 0)
        self.near(expect.damping(dump, "ey", 1, "y").frequency, theory.langmuir(pi / 2, 0.1, 0.05).real, 0.05)
        for other, name, wave in ((dump, "ey", 2), (dump, "ex", (2, 0, 0)), (self.dump(turn=(0, 0, 0.1)), "ex", 2),
                                  (self.dump(drift=(0.2, 0, 0), streams=2), "ex", 2)):
            self.assertIsNone(expect.damping(other, name, wave, "x"))
        self.assertIsNotNone(expect.damping(self.dump(turn=(0.1, 0, 0)), "ex", 2, "x"))

    def test_growth(self):
        along, across = self.dump((0.01,) * 3, (0.15, 0, 0), 2), self.dump((0.001,) * 3, (0, 0.2, 0), 2)
        self.near(expect.growth(along, "ex", 1, "x").rate, theory.two_stream(NUMBERS[1], 0.1, 0.15, 0.01).imag, 0.02)
        self.assertIsNone(expect.growth(along, "bz", 1, "x"))
        for name in "bz", "ey":
            found = expect.growth(across, name, 2, "x")
            self.near(found.rate, theory.filamentation(NUMBERS[2], 0.1, 0.2, 0.5), 0.02)
            self.assertIn("cold", found.label)
        self.assertIsNone(expect.growth(across, "by", 2, "x"))
        warm = self.dump((0.02, 0.1, 0.02))
        self.near(expect.growth(warm, "bz", 1, "x").rate, theory.weibel(NUMBERS[1], 0.1, 0.1, 0.02, 0.5))
        self.assertEqual(expect.growth(warm, "by", 1, "x").rate, 0)
        self.assertIsNone(expect.growth(warm, "bz", (1, 1, 0), "x"))
        self.assertIsNone(expect.growth(self.dump(turn=(0, 0, 0.1)), "bz", 1, "x"))

    def labels(self, dump: Dump, name: str) -> list[str]:
        return [curve.label for curve in expect.curves(dump, name, "x", NUMBERS)]

    def test_curves(self):
        self.assertEqual(self.labels(self.dump(), "ex"), ["Langmuir waves on this grid"])
        self.assertEqual(self.labels(self.dump(thermal=(0, 0, 0)), "ex"), ["cold Langmuir waves"])
        self.assertEqual(self.labels(self.dump(), "ey"), ["light in a cold plasma"])
        self.assertEqual(self.labels(self.dump(wp=0), "bz"), ["light on this grid"])
        self.assertEqual(self.labels(self.dump(), "bx"), [])
        self.assertEqual(self.labels(self.dump(drift=(0.2, 0, 0), streams=2), "ex"), [])

    def test_curves_in_a_uniform_field(self):
        across, along = self.dump(turn=(0, 0, 0.05)), self.dump(turn=(0.05, 0, 0))
        self.assertEqual(self.labels(across, "ex"), ["cold upper hybrid wave"] + [f"Bernstein's wave {n}" for n in (1, 2, 3, 4)])
        self.assertEqual(self.labels(self.dump((0.001,) * 3, turn=(0, 0, 0.05)), "ex"), ["cold upper hybrid wave"])
        for name in "ey", "bz":
            self.assertEqual(self.labels(across, name), ["cold extraordinary wave, slow", "cold extraordinary wave, fast"])
        for name in "ez", "by":
            self.assertEqual(self.labels(across, name), ["cold ordinary light"])
        self.assertEqual(self.labels(along, "ex"), ["Langmuir waves on this grid"])
        self.assertEqual(self.labels(along, "ey"), [])
        branch = expect.curves(across, "ex", "x", NUMBERS)[1]
        self.near(branch.frequencies[-1], theory.bernstein(pi, 0.1, 0.05, 0.05, 1), 0.02)


if __name__ == "__main__":
    unittest.main()
