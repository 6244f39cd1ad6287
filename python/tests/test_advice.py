"""Warnings from a deck's numbers, before a run: each comes where docs/UNITS.md says, and not where it needn't."""

import unittest

import numpy as np

from pictools import advice
from pictools.plasma import Plasma

GOOD = {"plasma_frequency": 0.1, "thermal_speed": 0.05}
BOX = GOOD | {"cells": (16, 16, 16), "particles_a_cell": 2, "start": "random", "mass_ratio": 100, "every": 1, "filter": 1}


def warned(**choices) -> str:
    return "\n".join(line for line in Plasma(**choices).report() if line.startswith("Warning"))


class Warnings(unittest.TestCase):
    def test_a_good_plasma(self):
        self.assertEqual(warned(**GOOD), "")
        self.assertEqual(warned(**GOOD, wave=2, wave_speed=0.01), "")
        self.assertEqual(warned(**BOX), "")

    def test_drifts(self):
        self.assertEqual(warned(**GOOD, drift=0.1), "")
        tutorial = warned(**GOOD, drift=0.3, wave=2, wave_speed=0.005, steps=300)
        self.assertRegex(tutorial, r"the drift is 0\.6 of light's speed.* gamma would be 1\.25, and gamma\^3, .*, 1\.95")
        self.assertNotIn("Cherenkov", tutorial)             # along the one axis that there is no light goes
        self.assertNotIn("Cherenkov", warned(**BOX, drift=0.1))
        self.assertRegex(warned(**BOX, drift=0.15), r"above 0\.2 c = 0\.1, .* \(0\.333\).*\(numerical Cherenkov radiation")
        self.assertRegex(warned(**BOX, drift=0.35), r"faster than the grid's shortest light, .* / pi = 0\.333.*Cherenkov")
        self.assertIn("isn't relativistic", warned(**GOOD, drift=0.45))

    def test_drifts_across_b(self):
        choices = BOX | {"gyration": 0.05, "cross_drift": 0.2}
        self.assertRegex(warned(**choices), r"the drift is 0\.4 of light's speed.*\n.*above 0\.2 c.*Cherenkov")
        self.assertNotIn("Cherenkov", warned(**choices | {"cross_drift": 0.05}))
        self.assertRegex(warned(**choices | {"cross_drift": 0.001}), "drift across B moves a particle by 4.1 sub-cells")

    def test_streams_that_throw_electrons_too_far(self):
        self.assertRegex(warned(**GOOD, drift=0.4), r"some 1 cells a step; .*\(far\): halve")
        self.assertNotIn("far", warned(**GOOD, drift=0.4, drift_axis="y"))
        self.assertNotIn("far", warned(**GOOD, drift=0.3))

    def test_heating(self):
        self.assertRegex(warned(plasma_frequency=0.1), "thermal speed is 0, and with it the Debye length")
        # The table of docs/UNITS.md: all energy over its first, less 1, within a third of itself.
        for debye, particles, measured in ((0.2, 16, 0.74), (0.25, 16, 0.45), (0.3, 16, 0.28), (0.4, 16, 0.15), (0.1, 64, 0.59),
                                           (0.3, 64, 0.10)):
            line = warned(plasma_frequency=0.1, thermal_speed=0.1 * debye, particles_a_cell=particles, steps=20000)
            self.assertRegex(line, "below half a cell: the grid heats")
            said = float(line.split("by about ")[1].split("%")[0]) / 100
            self.assertLess(abs(said / measured - 1), 0.35, (debye, particles))
        self.assertRegex(warned(**GOOD, particles_a_cell=16, steps=20000), "Debye length is 0.5 cells: the grid heats.* 10.0%")
        self.assertNotIn("%", warned(**BOX | {"thermal_speed": 0.03}))      # measured along one axis alone

    def test_frames(self):
        self.assertRegex(warned(**GOOD, every=40), r"pi / every = 0\.0785, and electrons swing with up to 0\.132.* --every 23 ")
        self.assertEqual(warned(**GOOD, every=23), "")
        self.assertRegex(warned(**GOOD, gyration=0.1, every=8), r"pi / every = 0\.393, and light has up to 1\.05.* --every 2 ")
        self.assertRegex(warned(**BOX | {"every": 2}), r"light has up to 2\.09.* --every 1 ")

    def test_a_random_start(self):
        choices = {"plasma_frequency": 0.1, "thermal_speed": 0.03, "start": "random", "particles_a_cell": 16, "cells": (32, 2, 2)}
        self.assertRegex(warned(**choices), r"begin with an E of 0\.43 times their kinetic energy")
        self.assertNotIn("an E of", warned(**choices, mass_ratio=100))
        for filter in 0, 1:
            shares = []
            for seed in range(1, 41):
                plasma = Plasma(**choices, seed=seed, filter=filter)
                electric = np.sum((plasma.fields()[0] * plasma.e_force.value)**2)
                weight = plasma.unit_current * plasma.e_force.value / (2 * abs(plasma.kick.value))
                shares.append(electric / (weight * np.sum(plasma.species[0].velocity.astype(float)**2)))
            self.assertLess(abs(np.mean(shares) / advice.start_noise(Plasma(**choices, filter=filter)) - 1), 0.2)

    def test_few_electrons_without_a_filter(self):
        self.assertRegex(warned(**BOX | {"filter": 0}), r"^Warning: 2 electrons a cell make much noise.*--filter 1 smooths")
        for other in {"particles_a_cell": 8}, {"thermal_speed": 0}, {"cells": (16, 16, 2)}:
            self.assertNotIn("--filter", warned(**BOX | {"filter": 0} | other))
        self.assertNotIn("--filter", warned(**GOOD, particles_a_cell=2))
        self.assertTrue(any("64 times as large" in line for line in Plasma(**BOX).report()))

    def test_theories_that_are_cold_say_so(self):
        for more, line in (({"gyration": 0.1}, "Upper hybrid wave (of cold electrons) at the start: its frequency"),
                           ({"drift": 0.2, "drift_axis": "y"}, "Filamentation (of cold electrons) at the start: it grows by"),
                           ({"drift": 0.2}, "Two-stream instability at the start: it grows by"),
                           ({}, "Langmuir wave at the start")):
            self.assertIn(line, "\n".join(Plasma(**GOOD, **more, wave=2, wave_speed=0.005).report()))

    def test_tiles(self):
        self.assertIn("The grid has 4 tiles: more workers than that only cost time.", Plasma(**GOOD).report())
        self.assertIn("The grid has 64 tiles: more workers than that only cost time.", Plasma(**BOX).report())

    def test_forces(self):
        self.assertIn("force values of B come to about 2^", warned(**GOOD, gyration=2.9999))
        self.assertNotIn("force values", warned(**GOOD))


if __name__ == "__main__":
    unittest.main()
