"""Probe lines: reading them exactly, and pictures of them. The lines are the second model's."""

import importlib.util
import tempfile
import unittest
from math import pi
from pathlib import Path

import measure_probes
import numpy as np
from compare import Model

from pictools import theory, views
from pictools.dump import Dump
from pictools.plasma import Plasma
from pictools.probe import ProbeError, Probes, is_lines
from tests.called import called
from tests.test_probe import LINES, PROBED, STOPS

if importlib.util.find_spec("matplotlib"):
    from pictools import probe_plots

SMALL = {"plasma_frequency": 0.1, "cells": (16, 2, 2), "particles_a_cell": 2, "steps": 12, "every": 1, "antenna": 0.01}
DRAWS = unittest.skipUnless(importlib.util.find_spec("matplotlib"), "matplotlib isn't there")


class Lines(unittest.TestCase):
    def setUp(self):
        folder = tempfile.TemporaryDirectory()
        self.addCleanup(folder.cleanup)
        self.folder = Path(folder.name)

    def probes(self, text: str, lines: bytes | None = None, **more) -> Probes:
        """The lines of a deck, by default the model's."""
        (self.folder / "a.toml").write_text(text)
        (self.folder / "a.lines").write_bytes(Model(text).probe()[1] if lines is None else lines)
        return Probes(self.folder / "a.lines", self.folder / "a.toml", **more)


class Reading(Lines):
    def test_two_charges(self):
        probes = self.probes(PROBED)
        self.assertEqual((probes.end, len(probes), probes.steps.tolist(), probes.ids), ("done 1", 2, [0, 1], (1,)))
        self.assertEqual((str(probes.places[0]), probes.exact_signal(0)), ("ex at 0, 0, 0", [0, 412316860416]))
        places, velocities = probes.orbit(1)
        self.assertEqual((places.tolist(), velocities.tolist()), ([[1024, 0, 0], [3072, 0, 0]], [[8388608, 0, 0]] * 2))
        self.assertEqual(probes.way(1).tolist(), [[0.25, 0, 0], [0.75, 0, 0]])
        self.assertTrue(is_lines(self.folder / "a.lines") and not is_lines(self.folder / "a.toml"))
        self.assertIn("2 steps of 1 places and 1 particles, done 1", repr(probes))
        for call, reason in ((lambda: probes.orbit(0), "particle 0 isn't traced; 1 is"), (lambda: probes.signal(1), "no place 1"),
                             (lambda: probes.of("bz"), "bz isn't probed; ex is")):
            with self.assertRaisesRegex(ValueError, reason):
                call()

    def test_wide_numbers(self):
        high = 2**90 - 1
        probes = self.probes(PROBED, LINES.replace(b"412316860416", b"-%d" % high))
        self.assertEqual((probes.exact_signal(0), probes.signal(0).tolist()), ([0, -high], [0, float(-high)]))

    def test_they_are_the_frames(self):
        """The same as the columns of a dump with a frame of every step, also as floats."""
        text = Plasma(**SMALL | {"probe": "ey,bz", "trace": 3}).deck().text()
        probes = self.probes(text)
        (self.folder / "a.dump").write_bytes(Model(text).run()[1])
        dump = Dump(self.folder / "a.dump")
        for name, axis in ("ey", 1), ("bz", 2):
            cells, values = probes.along(name, "x")
            self.assertEqual(cells.tolist(), list(range(16)))
            self.assertTrue((values == dump.field(name[0], axis)[:, 0, 0]).all())
            self.assertTrue(probes.is_whole(name, "x") and not probes.is_whole(name, "y"))
        self.assertEqual(probes.exact_signal(3), [int(frame.exact_e[1, 0, 0, 3]) for frame in dump])
        for identity in probes.ids:
            places, velocities = probes.orbit(identity)
            for frame in dump:
                self.assertEqual(frame.particles["position"][identity].tolist(), places[frame.step].tolist())
                self.assertEqual(frame.particles["velocity"][identity].tolist(), velocities[frame.step].tolist())
        self.assertEqual((probes.header.every, probes.header.species, probes.header.loops), (1, dump.header.species, dump.header.loops))

    @unittest.skipUnless(importlib.util.find_spec("pandas"), "pandas isn't there")
    def test_pandas(self):
        text = Plasma(**SMALL | {"trace": 3}).deck().text()
        probes = self.probes(text)
        (self.folder / "a.dump").write_bytes(Model(text).run()[1])
        whole = Dump(self.folder / "a.dump").to_pandas(*probes.ids)
        self.assertTrue(probes.to_pandas().equals(whole))
        self.assertEqual(probes.to_pandas().attrs, whole.attrs)
        some = probes.to_pandas(probes.ids[1])
        self.assertTrue(some.equals(whole.xs(probes.ids[1], level="identity", drop_level=False)))
        for call, reason in ((lambda: probes.to_pandas(99), "particle 99 isn't traced"), (lambda: probes.to_pandas(units="plasma"), "Debye"),
                             (lambda: self.probes(PROBED.replace("ids = [1]\n", "")).to_pandas(), "traces no particle")):
            with self.assertRaisesRegex(ValueError, reason):
                call()

    @unittest.skipUnless(importlib.util.find_spec("xarray"), "xarray isn't there")
    def test_xarray(self):
        text = Plasma(**SMALL | {"probe": "ey,bz"}).deck().text()
        probes = self.probes(text)
        (self.folder / "a.dump").write_bytes(Model(text).run()[1])
        for units in "dump", "steps":
            lines, whole = probes.to_xarray(units=units), Dump(self.folder / "a.dump").to_xarray("ey", "bz", units=units)
            for name, x in ("ey", "x"), ("bz", "x_half"):
                self.assertEqual(lines[name].dims, ("step", f"{name}_place"))
                self.assertTrue((lines[name].values == whole[name].values[:, 0, 0]).all())
                self.assertEqual(lines[f"{name}_x"].values.tolist(), whole[x].values.tolist())
                self.assertEqual({key: lines[name].attrs[key] for key in whole[name].attrs}, whole[name].attrs)
            self.assertEqual((lines.ey_y.values.tolist(), lines.step.values.tolist()), ([0.5] * 16, whole.step.values.tolist()))
        self.assertEqual(list(probes.to_xarray("bz")), ["bz"])
        for words, reason in (("ex",), "ex isn't probed; bz, ey is"), (("ey",), "Debye"):
            with self.assertRaisesRegex(ValueError, reason):
                probes.to_xarray(*words, units="plasma" if reason == "Debye" else "dump")

    def test_one_that_stops_and_one_without_probes(self):
        self.assertEqual(self.probes(STOPS).end, "stopped 1 particle 0 far 0 8192")
        plain = self.probes(PROBED.partition("[probe]")[0])
        self.assertEqual((len(plain), plain.places, plain.ids), (2, (), ()))

    def test_damage(self):
        for lines, reason in ((LINES[:-1], "line 3: the text has no end"), (LINES[:60], "line 2: the text has no end"), (b"", "no end"),
                              (LINES + b"x", "goes on behind it"), (LINES.replace(b"1024 ", b""), "line 1: it has 7 numbers, and .* makes 8"),
                              (LINES.replace(b"\n1 ", b"\n2 "), "line 2: it is of step 2, where that of step 1"),
                              (LINES.replace(b"1024", b"1.24"), "line 1: .* whole numbers"), (b"done 1\n", "no line of a step")):
            with self.assertRaisesRegex(ProbeError, reason):
                self.probes(PROBED, lines)
        for length, number in (len(LINES) - 1, 2), (60, 1):
            cut = self.probes(PROBED, LINES[:length], partial=True)
            self.assertEqual((len(cut), cut.end), (number, ""))
        with self.assertRaisesRegex(ValueError, "a.toml: it is no deck"):
            self.probes("version = 2\n", LINES)


class Measured(Lines):
    def test_a_swing(self):
        """Waves that stand or fall off, of known numbers."""
        text = Plasma(**SMALL | {"probe": "ey"}).deck().text()
        probes, x, n = self.probes(text), np.arange(16), np.arange(400)[:, None]
        for k in 0.4, 0.3j:
            values = (np.exp(1j * (k * x - 2 * pi / 32 * n))).real
            heights = measure_probes.swing(probes, values, 32)
            self.assertLess(abs(heights - np.exp(1j * k * x)).max(), 1e-9)
        with self.assertRaisesRegex(ValueError, "12 steps have no 4 periods"):
            measure_probes.swing(probes, np.zeros((12, 16)), 32)

    def test_it_waits_for_no_light_round_the_box(self):
        probes = self.probes(Plasma(**SMALL | {"probe": "ey", "steps": 30}).deck().text())
        with self.assertRaisesRegex(ValueError, "after 2 steps the light comes round the box, and there are 30"):
            measure_probes.antenna(probes)


@DRAWS
class Pictures(Lines):
    def draw(self, probes, *chosen: str, **options):
        picture, lines = probe_plots.drawn({"": probes}, chosen, views.view_of(**options))
        return [axes for axes in picture.axes if axes.axison], lines

    def test_signals(self):
        probes = self.probes(Plasma(**SMALL | {"cells": (4, 2, 2), "probe": "ey,bz"}).deck().text())
        (axes,), _ = self.draw(probes, "signal")
        self.assertEqual([text.get_text() for text in axes.get_legend().get_texts()], [f"ey at {n}, 0, 0" for n in range(4)])
        self.assertIn("acceleration", axes.get_ylabel())
        (axes,), _ = self.draw(probes, "signal", component="bz", first=2, last=9)
        self.assertEqual(axes.lines[0].get_xdata().tolist(), list(range(2, 10)))
        (axes,), _ = self.draw(self.probes(Plasma(**SMALL | {"probe": "ey"}).deck().text()), "signal")
        self.assertEqual(axes.images[0].get_array().shape, (13, 16))

    def test_spectra(self):
        probes = self.probes(Plasma(**SMALL | {"probe": "ey", "steps": 40}).deck().text())
        (axes,), lines = self.draw(probes, "spectrum", wave=(2, 3))
        curve = next(line for line in axes.lines if line.get_label() == "light in a cold plasma")
        self.assertAlmostEqual(float(curve.get_ydata()[2]), theory.light(pi / 4, 0.5, 0.1), 5)
        self.assertEqual(len(lines), 2)
        some = Plasma(**SMALL | {"cells": (4, 2, 2), "probe": "ey", "probe_axis": "y", "antenna_axis": "x", "steps": 60}).deck().text()
        (axes,), lines = self.draw(self.probes(some), "spectrum")
        self.assertEqual(len(axes.lines), 2)
        self.assertRegex(lines[0], r"^ey at 0, 0, 0: the highest peak is at 0\.\d{6} radians a step$")

    def test_orbits_and_the_usual(self):
        probes = self.probes(Plasma(**SMALL | {"trace": 3, "probe": "ey"}).deck().text())
        found, _ = self.draw(probes)
        self.assertEqual([axes.get_title() for axes in found][2][:6], "Orbits")
        (axes,), _ = self.draw(probes, "orbit", plane="xz")
        self.assertEqual((axes.get_xlabel(), axes.get_ylabel(), len(axes.lines)), ("x, cells", "z, cells", 3))

    def test_what_they_have_not(self):
        probes = self.probes(PROBED)
        for chosen, options, reason in (((), {"steps": (1,)}, "--steps: it is an option of a dump's picture"), ((), {"units": "plasma"}, "--units"),
                                        (("phase",), {}, "no panel 'phase'; they have signal"), (("signal",), {"component": "bz"}, "isn't probed"),
                                        (("signal",), {"first": 1}, "a fit needs|frames")):
            with self.assertRaisesRegex(ValueError, reason):
                self.draw(probes, *chosen, **options)
        with self.assertRaisesRegex(ValueError, "its deck traces no particle"):
            self.draw(self.probes(PROBED.replace("ids = [1]\n", "")), "orbit")

    def test_the_command(self):
        self.probes(Plasma(**SMALL | {"probe": "ey"}).deck().text())
        self.assertEqual(called("plot a.lines --deck a.toml -o a.png", self.folder)[0], 0)
        self.assertTrue((self.folder / "a.png").stat().st_size > 1000)
        status, said, _ = called("plot a.lines ./a.lines -o a.png --panels spectrum --wave 1 2 --deck a.toml ./a.toml", self.folder)
        self.assertEqual((status, [line.partition(":")[0] for line in said.splitlines()]), (0, ["a"] * 2 + ["./a"] * 2))
        for words, reason in (("plot a.lines -o b.png", "--deck names the deck"), ("plot a.lines --deck a.toml -o b.png --panels growth", "no panel"),
                              ("plot a.toml --deck a.toml -o b.png", "no file of probe lines"),
                              ("info a.lines", "a.lines: it is no dump; if these are lines of `pic probe`, `plot` takes them"),
                              ("plot a.lines -o b.png --deck a.toml a.toml", "one for all of 1 files, or one for each")):
            status, _, complained = called(words, self.folder)
            self.assertEqual(status, 1)
            self.assertIn(reason, complained)
        (self.folder / "a.lines").write_bytes((self.folder / "a.lines").read_bytes()[:-3])
        self.assertIn("the text has no end", called("plot a.lines --deck a.toml -o a.png", self.folder)[2])


if __name__ == "__main__":
    unittest.main()
