"""Measuring, on signals whose numbers are known."""

import unittest

import numpy as np

from pictools import measure
from pictools.deck import divergence, field_of
from pictools.dump import Dump


class Signals(unittest.TestCase):
    def test_growth(self):
        steps = np.arange(0, 400, 4)
        height = 1 / (1 + 200 * np.exp(-0.03 * steps))
        self.assertAlmostEqual(measure.growth(steps, height, (0, 10)).rate, 0.03, 3)
        fit = measure.growth(steps, height)
        self.assertLess(abs(fit.rate - 0.03), 0.004)
        with self.assertRaisesRegex(ValueError, "doesn't grow"):
            measure.growth(steps, np.ones(100))

    def test_a_fit_says_what_it_rests_on(self):
        steps, dice = np.arange(0, 400, 4), np.random.default_rng(3)
        fit = measure.growth(steps, np.exp(0.03 * steps - 9) * np.exp(dice.normal(0, 0.05, 100)), (10, 40))
        self.assertEqual((fit.points, fit.first, fit.last), (30, 40, 156))
        self.assertLess(abs(fit.rate - 0.03), 3 * fit.error)
        self.assertTrue(1e-4 < fit.error < 5e-4)
        self.assertEqual(measure.between(steps, 40, 158), (10, 40))
        self.assertEqual(measure.between(steps, None, None), None)
        self.assertEqual(measure.between(steps, 380, None), (95, 100))
        with self.assertRaisesRegex(ValueError, "--from 40 --to 44: 2 frames"):
            measure.between(steps, 40, 44)

    def test_noise_neither_grows_nor_is_damped(self):
        steps, dice = np.arange(0, 1200, 8), np.random.default_rng(4)
        for number in range(200):
            parts = dice.normal(size=(150, 4))
            for i in range(1, 150):
                parts[i] = (0.97, 0.75)[number % 2] * parts[i - 1] + (0.24, 0.66)[number % 2] * parts[i]
            turn = np.exp(0.1j * steps)
            noise = (parts[:, 0] + 1j * parts[:, 1]) * turn + (parts[:, 2] + 1j * parts[:, 3]) / turn
            with self.assertRaisesRegex(ValueError, "doesn't grow"):
                measure.growth(steps, abs(noise - noise[0] * (number % 3 == 0)))
            with self.assertRaisesRegex(ValueError, "isn't damped"):
                measure.damping(steps, noise)
        with self.assertRaisesRegex(ValueError, "doesn't grow"):
            measure.growth(steps, np.exp(-0.01 * steps), (5, 50))

    def test_damping(self):
        steps, dice = np.arange(0, 1200, 8), np.random.default_rng(5)
        for rate, back in (0.0064, 0), (0.0064, 0.5), (0.015, 0.2):
            wave = np.exp(-rate * steps) * (np.exp(-0.13j * steps) + back * np.exp(0.13j * steps + 0.3j))
            wave = wave + 0.005 * (dice.normal(size=150) + 1j * dice.normal(size=150))
            fit = measure.damping(steps, wave)
            self.assertLess(abs(fit.rate + rate), 4 * fit.error)
            self.assertLess(fit.error, 0.02 * rate)
            self.assertLess(abs(fit.frequency - 0.13), 2e-4)
            by_hand = measure.damping(steps, wave, (0, 60))
            self.assertEqual((by_hand.first, by_hand.last, by_hand.points), (0, 472, 60))
            self.assertLess(abs(abs(by_hand.there) - 1), 0.01)

    def test_frames_too_far_apart(self):
        header = Dump.__new__(Dump)
        header.every = 40
        measure.resolved(header, 0.07)
        with self.assertRaisesRegex(ValueError, "the frequency 0.1, and frames every 40 steps show .* = 0.07854: .* at 0.05708"):
            measure.resolved(header, 0.1)
        self.assertAlmostEqual(float(measure.folded(0.863, np.pi / 8)), 0.078, 3)

    def test_a_ridge(self):
        steps = np.arange(0, 1600, 8)
        power = np.abs(np.fft.rfft(np.cos(0.1 * steps) * np.hanning(200)))**2
        frequencies = 2 * np.pi / 1600 * np.arange(101)
        self.assertLess(abs(measure.ridge(frequencies, power, 0.105, 0.012) - 0.1), 2e-4)
        for near in 0.2, 0.115:
            with self.assertRaisesRegex(ValueError, "no peak|nothing"):
                measure.ridge(frequencies, power * (power > 1e-3), near, 0.008)

    def test_frequency(self):
        steps = np.arange(0, 400, 2)
        self.assertAlmostEqual(measure.frequency(steps, np.cos(0.1 * steps + 0.3)), 0.1, 4)
        self.assertEqual(measure.crossings(np.arange(6), np.array([2, 0, -2, 0, -1, 3])).tolist(), [1, 4.25])
        self.assertAlmostEqual(measure.turned(np.angle(np.exp(-0.4j * np.arange(100)))), -0.4 * 99)
        with self.assertRaisesRegex(ValueError, "0 times"):
            measure.frequency(steps, np.ones(200))

    def test_peak(self):
        steps, dice = np.arange(0, 1600, 16), np.random.default_rng(1)
        for wave in np.cos(0.1 * steps + 0.3), np.exp(-0.1j * steps), 3 + np.exp(0.1j * steps) + dice.normal(0, 0.3, 100):
            self.assertLess(abs(measure.peak(steps, wave) - 0.1), 1e-4)
        with self.assertRaisesRegex(ValueError, "stays"):
            measure.peak(steps, np.ones(100))

    def test_component(self):
        self.assertEqual(measure.component("bz"), ("b", 2))
        with self.assertRaisesRegex(ValueError, "no component"):
            measure.component("jx")


class Noise(unittest.TestCase):
    def test_longitudinal(self):
        # E of charges is longitudinal; a curl added to it and a uniform field leave that as it is.
        dice, shape = np.random.default_rng(2), (4, 2, 6)
        charge = dice.integers(-10**9, 10**9, shape)
        charge[0, 0, 0] -= charge.sum()
        e = field_of(charge).astype(float)
        squares = measure.longitudinal(e)
        self.assertAlmostEqual(squares.sum() / np.sum(e**2), 1, 6)
        b = dice.normal(0, 1e9, (3, *shape))
        up = lambda field, axis: np.roll(field, 1, axis=2 - axis)
        curl = np.stack([b[c] - up(b[c], a) - b[a] + up(b[a], c) for a, c in ((1, 2), (2, 0), (0, 1))])
        self.assertLess(abs(divergence(curl)).max(), 1)
        more = measure.longitudinal(e + curl + 5e8)
        self.assertLess(abs(more - squares).max() / squares.max(), 1e-9)

    def test_one_wave(self):
        # cos(kx x + kz z) with a k along it; the squares of the wave stand at k and at -k.
        kx, kz = 2 * np.pi / 6, 2 * np.pi / 4
        z, _, x = np.meshgrid(np.arange(4), np.arange(2), np.arange(6), indexing="ij")
        e = np.stack([2 * np.sin(kx / 2) * np.cos(kx * (x + 0.5) + kz * z), 0 * x,
                      2 * np.sin(kz / 2) * np.cos(kx * x + kz * (z + 0.5))])
        squares = measure.longitudinal(e)
        self.assertAlmostEqual(squares[1, 0, 1], np.sum(e**2) / 2)
        self.assertAlmostEqual(squares[3, 0, 5], np.sum(e**2) / 2)
        self.assertEqual(measure.wave_numbers(squares.shape)[1, 0, 1].tolist(), [kx, 0, kz])


if __name__ == "__main__":
    unittest.main()
