"""The scheme's theory against textbooks' numbers, where the grid and the steps don't show, and against its closed forms."""

import unittest
from math import pi, sqrt

import numpy as np

from pictools import theory


class Textbooks(unittest.TestCase):
    def test_light_on_the_grid(self):
        # c = 1/4; frequencies of docs/UNITS.md.
        for length, frequency in (32, 0.049013476), (8, 0.191634814), (32 / 12, 0.466148804):
            self.assertAlmostEqual(theory.light(2 * pi / length, 0.25), frequency, 9)
        self.assertAlmostEqual(theory.light(0.003, 0.5, 0.002), sqrt(0.0015**2 + 0.002**2), 8)

    def test_landau_damping(self):
        # k times the Debye length is 1/2: w = 1.4156 wp and damping 0.1533 wp, and for 0.3 1.1598 wp and 0.0126 wp.
        for k, frequency, damping in (0.05, 1.4156, 0.1533), (0.03, 1.1598, 0.0126):
            w = theory.langmuir(k, 0.01, 0.1) / 0.01
            self.assertAlmostEqual(w.real, frequency, 3)
            self.assertAlmostEqual(w.imag, -damping, 3)

    def test_two_cold_streams(self):
        # The greatest growth is wp / sqrt(8), where k drift = sqrt(3/8) wp; from k drift = wp on there is none.
        wp, k = 0.001, 0.02
        self.assertAlmostEqual(theory.two_stream(k, wp, sqrt(3 / 8) * wp / k).imag / wp, 1 / sqrt(8), 3)
        self.assertAlmostEqual(theory.two_stream(k, wp, 1.1 * wp / k).imag, 0)

    def test_filaments(self):
        # g^2 (g^2 + c^2 k^2 + wp^2) = wp^2 drift^2 k^2; here c k = 2 wp and drift = c / 5.
        wp, k = 0.001, 0.004
        rate = theory.filamentation(k, wp, 0.1, 0.5) / wp
        self.assertAlmostEqual(rate**2 * (rate**2 + 5), 0.16, 4)

    def test_upper_hybrid(self):
        # The lesser root of W^2 - W (u^2 + wp^2 + c^2 k^2) + wp^4 + c^2 k^2 u^2 = 0, in units of wp: with gyration 1 and
        # c k = 2, W^2 - 7 W + 9 = 0.
        w = theory.upper_hybrid(0.004, 0.001, 0.001, 0.5) / 0.001
        self.assertAlmostEqual(w**2, (7 - sqrt(13)) / 2, 4)

        w = theory.upper_hybrid(0.004, 0.001, 0.001, 0.5, fast=True) / 0.001
        self.assertAlmostEqual(w**2, (7 + sqrt(13)) / 2, 4)

    def test_weibel(self):
        # w^2 = c^2 k^2 + wp^2 (1 - 25 (1 + z Z(z))) at k c = 1.5 wp and 2 wp, with thermal speeds c / 5 and c / 25; and 4 for 25.
        for k, along, rate in (0.003, 0.02, 0.13690989), (0.004, 0.02, 0.13258380), (0.002, 0.05, 0.06101838):
            self.assertAlmostEqual(theory.weibel(k, 0.001, 0.1, along, 0.5) / 0.001, rate, 5)
        cold = theory.filamentation(0.003, 0.001, 0.1, 0.5)
        self.assertAlmostEqual(theory.weibel(0.003, 0.001, 0.1, 0, 0.5) / cold, 1, 9)
        # Waves from c k = wp sqrt(24) on are stable.
        self.assertGreater(theory.weibel(0.0097, 0.001, 0.1, 0.02, 0.5), 0)
        self.assertEqual(theory.weibel(0.0099, 0.001, 0.1, 0.02, 0.5), 0)

    def test_bernstein(self):
        # 1 = (wp / k v)^2 sum of exp(-x) I_n(x) n g / (w - n g) with g = wp / 2 and v = g: branches 1, 2, 3.
        for k, branches in (0.003, (0.91964966, 1.18252324, 1.50193407)), (0.01, (0.68878027, 1.21046962, 1.58303729)):
            for branch, w in enumerate(branches, 1):
                self.assertAlmostEqual(theory.bernstein(k, 0.001, 0.0005, 0.05, branch) / 0.001, w, 4)
        # Of cold electrons across B, the upper hybrid wave of a short one, with the grid.
        cold = theory.upper_hybrid(2, 0.1, 0.08, 0.5)
        self.assertAlmostEqual(theory.bernstein(2, 0.1, 0.08, 1e-4, 1) / cold, 1, 2)

    def test_thermal_noise_of_long_waves(self):
        # 1 / (1 + k^2 D^2) with D = 20 cells, and k D = 1 and 2 in directions of all kinds.
        k = 0.05 * np.array([[1, 0, 0], [0, 0.6, 0.8], [2 / 3, 2 / 3, -1 / 3], [0, 2, 0], [-1.2, 0, 1.6]])
        for level, expected in zip(theory.thermal_noise(k, 0.001, 0.02), (0.5, 0.5, 0.5, 0.2, 0.2), strict=True):
            self.assertAlmostEqual(level, expected, 3)


class ClosedForms(unittest.TestCase):
    def test_thermal_noise_along_x(self):
        # The dielectric function at frequency 0, and the sum of the hats' squares over the aliases.
        for k in 0.3, 1.5, pi:
            shot, screen = theory.thermal_shares([k, 0, 0], 0.01, 0.008)
            static = theory.electrostatic(0, k, 0.01, [theory.Stream(1, 0, 0.008)])
            self.assertAlmostEqual(screen, static.real - 1, 3)
            hats = sum(np.sinc(k / (2 * pi) + p)**4 for p in range(-50, 51))
            self.assertAlmostEqual(shot, hats * (0.01 / 0.008 / (2 * np.sin(k / 2)))**2, 6)

    def test_the_slowest_light(self):
        self.assertAlmostEqual(theory.slowest_light(0.5), 1 / 3)
        self.assertAlmostEqual(theory.slowest_light(0.5), theory.light(pi, 0.5) / pi)

    def test_the_aliases_of_a_cold_wave(self):
        for k in 0.1, 1.0, 2.5:
            self.assertAlmostEqual(sum(weight for _, weight in theory.aliases(k)), (1 + np.cos(k / 2)**2) / 2, 4)

    def test_cold_langmuir_waves(self):
        for k in 0.1, 1.0, 2.5:
            w = theory.cold_langmuir(k, 0.2)
            self.assertAlmostEqual(abs(theory.electrostatic(w, k, 0.2, [theory.Stream(1, 0, 0)])), 0, 4)

    def test_a_root_that_is_not_there(self):
        with self.assertRaises(ArithmeticError):
            theory.root(lambda w: 1 + 0 * w + 1e-3 / (w + 10)**2, 1)


if __name__ == "__main__":
    unittest.main()
