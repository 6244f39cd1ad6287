"""The package and the filter of the current: decks that are made for it, dumps that are read, and the theory of both. The dumps are
the second model's."""

import io
import unittest
from math import cos, pi, sqrt

import numpy as np

from pictools import expect, info, theory, units
from pictools.deck import DeckError, charges, divergence, smoothed
from pictools.dump import Dump, DumpError
from pictools.measure import longitudinal, wave_numbers
from pictools.plasma import Plasma
from tests.test_plasma import model_dump
from tests.test_versions import model_bytes

SMALL = {"cells": (8, 2, 2), "particles_a_cell": 8, "steps": 2, "every": 1, "plasma_frequency": 0.1, "thermal_speed": 0.05}
WAVE = {"drift": 0.1, "wave": 1, "wave_speed": 0.01}


class Decks(unittest.TestCase):
    def test_the_physics_is_that_without(self):
        for more in {}, {"gyration": 0.3, "mass_ratio": 100}, {"gyration": 0.1, "cross_drift": 0.05}, {"sub": 9}:
            plain, other = (Plasma(**SMALL | {"sub": 12} | more, filter=filter) for filter in (0, 1))
            self.assertEqual((other.e_force.n, other.e_force.k), (plain.e_force.n, plain.e_force.k + 6))
            self.assertEqual((other.kick, other.turn), (plain.kick, plain.turn))
            one, two = plain.deck(), other.deck()
            for a, b in zip(one.e + one.b, two.e + two.b):
                self.assertLess(abs(b - 64 * a), 64)
            self.assertEqual((one.e_to_b, one.b_to_e), (two.e_to_b, two.b_to_e))
            self.assertIn("\nevery = 1\nfilter = 1\n", two.text())
            self.assertNotIn("filter =", one.text())
        lone = Plasma(**SMALL, filter=1)
        self.assertEqual((lone.sub, lone.version), (12, 2))
        self.assertIn(" --sub 12 --filter 1 ", lone.deck().text())
        for wrong in 2, -1:
            with self.assertRaisesRegex(DeckError, f"--filter {wrong}: it is from 0 to 1"):
                Plasma(**SMALL, filter=wrong)

    def test_the_model_accepts_them(self):
        for more in ({}, WAVE, WAVE | {"drift_axis": "y"}, {"gyration": 0.1, "wave": 2, "wave_speed": 0.01}, {"cells": (3, 4, 5)},
                     {"start": "random", "cells": (4, 4, 2)}, {"start": "random", "cells": (4, 3, 3), "mass_ratio": 9, "sub": 14},
                     {"start": "lattice", "drift": 0.1, "cells": (3, 4, 5)}, {"mass_ratio": 1836, "wave": 1, "wave_speed": 0.01}):
            dump = model_dump(Plasma(**SMALL | more, filter=1).deck().text())
            self.assertEqual((dump.steps.tolist(), dump.header.filter), ([0, 1, 2], 1), more)

    def test_a_wave_grows_as_its_theory_has_it(self):
        plasma = Plasma(**SMALL | WAVE | {"thermal_speed": 0, "steps": 8, "wave_speed": 0.02}, filter=1)
        k, rate = pi / 4, plasma.wave_frequency.imag
        self.assertEqual(rate, theory.two_stream(k, 0.1 * sqrt((1 + cos(k)) / 2), 0.1).imag)
        self.assertGreater(theory.two_stream(k, 0.1, 0.1).imag / rate, 1.02)
        dump = model_dump(plasma.deck().text())
        heights = np.fft.fft(dump.field("e", 0)[:, 0, 0], axis=1)[:, 1]
        self.assertLess(abs(np.log(abs(heights[-1] / heights[0])) / 8 / rate - 1), 0.01)
        self.assertEqual(expect.growth(dump, "ex", 1, "x").rate, theory.two_stream(k, theory.filtered(
            units.plasma_frequency(dump.header), k), float(expect.start_of(dump, "x").drifts[0, 0]),
            float(expect.start_of(dump, "x").thermal[0])).imag)


class Dumps(unittest.TestCase):
    def test_they_say_what_was_chosen(self):
        chosen = SMALL | {"gyration_axis": "x", "gyration": 0.2, "light_speed": 0.4, "wave": 1, "wave_speed": 0.01}
        dump = model_dump(Plasma(**chosen, filter=1).deck().text())
        header, frame = dump.header, dump[0]
        self.assertEqual((header.filter, header.unit_charge), (1, 64 * 12 * 4096**3))
        self.assertAlmostEqual(units.plasma_frequency(header), 0.1, 6)
        self.assertAlmostEqual(units.plasma_frequency(header, pi / 3), 0.1 * sqrt(0.75), 6)
        self.assertAlmostEqual(units.light_speed(header), 0.4, 6)
        self.assertAlmostEqual(units.gyration(header, header.species[0], frame.b[0].mean()), -0.2, 4)
        said = "\n".join(info.info(dump))
        self.assertRegex(said, r"filter +1: the current is smoothed by weights of 64")
        self.assertIn("0.1 a step, wp, of long waves", said)
        plain = model_dump(Plasma(**chosen).deck().text())
        self.assertNotIn("filter", "\n".join(info.info(plain)))
        for name in "kinetic_weight", "magnetic_weight":
            ours, theirs = (getattr(units, name)(*((h, h.species[0]) if name == "kinetic_weight" else (h,)))
                            for h in (header, plain.header))
            self.assertAlmostEqual(ours / theirs, 1, 6)

    def test_the_charge_is_filtered(self):
        plasma = Plasma(**SMALL | {"cells": (4, 3, 2), "start": "random", "particles_a_cell": 3}, filter=1)
        dump = model_dump(plasma.deck().text())
        for frame in dump:
            kinds = plasma.species
            for kind in kinds:
                where = frame.species(kind.name)["position"].astype(np.int64)
                if hasattr(kind, "velocity"):
                    kind.position = where
            charge = charges(dump.header.cells, kinds, dump.header.side, 1)
            self.assertTrue((divergence(frame.exact_e) == charge).all())
            self.assertFalse((charges(dump.header.cells, kinds, dump.header.side) == charge).all())

    def test_smoothed(self):
        field = np.random.default_rng(1).integers(-2**40, 2**40, (3, 2, 5, 4))
        self.assertTrue((divergence(smoothed(field)) == smoothed(divergence(field))).all())
        self.assertEqual(smoothed(field).sum(), 64 * field.sum())
        heights = np.fft.fftn(smoothed(field[0])) / np.fft.fftn(field[0]) / 64
        self.assertLess(abs(heights - theory.left_by_filter(wave_numbers(field[0].shape))).max(), 1e-6)
        self.assertEqual(longitudinal(field.astype(float)).shape, (2, 5, 4))

    def test_damage(self):
        data = model_bytes(Plasma(**SMALL | {"steps": 0}, filter=1).deck().text())
        for number in 2, 2**24:
            with self.assertRaises(DumpError) as fault:
                Dump.stream(io.BytesIO(data[:64] + number.to_bytes(4, "big") + data[68:]))
            self.assertEqual(fault.exception.place, 64)


class Theory(unittest.TestCase):
    def test_noise(self):
        k = np.array([[0.01, 0, 0], [1, 0.5, 0.2], [pi, 0, 0]])
        plain, other = (theory.thermal_noise(k, 0.1, 0.05, filter) for filter in (0, 1))
        self.assertAlmostEqual(other[0] / plain[0], 1, 3)
        self.assertLess(other[1], plain[1])
        self.assertAlmostEqual(other[2], 0)
        (shot, screen), (ours, theirs) = (theory.thermal_shares(k[1:2], 0.1, 0.05, filter) for filter in (0, 1))
        left = (1 + cos(1)) * (1 + cos(0.5)) * (1 + cos(0.2)) / 8
        self.assertAlmostEqual(float(ours[0] / shot[0]), left**2)
        self.assertAlmostEqual(float(theirs[0] / screen[0]), left)

    def test_curves(self):
        dump = model_dump(Plasma(**SMALL | {"wave": 1, "wave_speed": 0.01}, filter=1).deck().text())
        numbers = np.array([0.1, 0.5, 1.0])
        found = expect.curves(dump, "ex", "x", numbers)[0]
        start = expect.start_of(dump, "x")
        for k, w in zip(found.numbers, found.frequencies):
            self.assertEqual(w, theory.langmuir(k, start.wp * cos(k / 2), float(start.thermal[0])).real)
        light = expect.curves(dump, "ey", "x", numbers)[0].frequencies
        self.assertAlmostEqual(light[2], theory.light(1.0, start.c, start.wp * cos(0.5)))


if __name__ == "__main__":
    unittest.main()
