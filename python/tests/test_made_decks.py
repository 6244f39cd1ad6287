"""Decks that the maker makes, by the built program: each is taken, runs to its end, and leaves a dump of the size that was
said. Skipped where none was built."""

import io
import unittest

from pictools import cost
from pictools.dump import Dump
from pictools.explain import explain
from pictools.plasma import Plasma
from tests.test_program import call, needs_program

LONG = {"cells": (12, 8, 10), "particles_a_cell": 8}
DECKS = (
    {"thermal_speed": 0.05}, LONG | {"start": "random", "thermal_speed": 0.0625, "seed": 2**63 - 1},
    LONG | {"start": "random", "mass_ratio": 1836, "drift": 0.2, "beam_share": 0.125, "thermal_speed": 0.01},
    LONG | {"start": "random", "drift": 0.3, "beam_share": 1, "drift_axis": "z"},
    LONG | {"start": "lattice", "thermal_speed": 0.05, "drift": 0.1, "drift_axis": "y"},
    {"start": "lattice", "thermal_speed": 0.05},
    {"thermal_speed": 0.02, "thermal_speed_y": 0.1}, LONG | {"start": "random", "thermal_speed_z": 0.06},
    {"thermal_speed": 0.05, "wave": 4, "wave_speed": 0.01, "wave_axis": "z", "cells": (2, 2, 64)},
    LONG | {"start": "random", "gyration": 0.2, "gyration_axis": "y", "cross_drift": 0.1, "thermal_speed": 0.01},
)


@needs_program
class MadeDecks(unittest.TestCase):
    def test_they_run(self):
        for chosen in DECKS:
            with self.subTest(chosen):
                deck = Plasma(plasma_frequency=0.1, steps=6, every=3, **chosen).deck()
                text = deck.text().encode()
                self.assertEqual(call("check", given=text), (0, b"ok %d particles\n" % deck.particles, b""))
                status, dump, report = call("run", given=text)
                self.assertEqual((status, report.splitlines()[-1], len(dump)), (0, b"done 6", cost.dump_bytes(deck)))
                self.assertEqual(call("verify", given=dump), (0, b"verified 3 frames\n", b""))
                self.assertEqual([frame.step for frame in Dump.stream(io.BytesIO(dump))], [0, 3, 6])
                for line in report.decode().splitlines():
                    explain(line)

    def test_its_refusals_are_explained(self):
        text = Plasma(plasma_frequency=0.1, start="lattice", thermal_speed=0.05).deck().text()
        for old, new in ((" = 1\n", " = "), ("cells = [64, 2, 2]", "cells = [65, 2, 2]"), ("cells = [64", "cell = [64"),
                         ("every = 4\n", ""),
                         ("steps = 400", "steps = 0.5"), ("[838861, 0, 0]", "[1048577, 0, 0]"), ('"electron"', '"ion"'),
                         ('of = "ion"', 'of = "moon"'), ("charge = -1", "charge = -2"), ("tiles = [4,", "tiles = [3,")):
            self.assertIn(old, text)
            status, out, line = call("check", given=text.replace(old, new, 1).encode())
            self.assertEqual((status, out), (3, b""), (old, new, line))
            self.assertIn("\n    ", explain(line.decode().strip()), line)


if __name__ == "__main__":
    unittest.main()
