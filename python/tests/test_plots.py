"""Pictures, of small dumps whose waves and particles are known: what they draw, and what they say of what they leave out."""

import argparse
import importlib.util
import os
import subprocess
import sys
import tempfile
import unittest
from pathlib import Path

from tests import made
import numpy as np

from pictools import views
from pictools.dump import Dump

if importlib.util.find_spec("matplotlib"):
    from pictools import panels, plots

STEPS = np.arange(0, 800, 8)
GROWS, DAMPED = 0.001 * np.exp((0.01 + 0.02j) * STEPS), np.exp((-0.006 - 0.12j) * STEPS)


def still(places: np.ndarray, speed: float = 0.0):
    """Particles that stay where they are, with a speed along x."""
    return lambda number: (places, np.tile([speed, 0.0, 0.0], (len(places), 1)))


class Pictures(unittest.TestCase):
    def setUp(self):
        if not importlib.util.find_spec("matplotlib"):
            self.skipTest("matplotlib isn't there")
        folder = tempfile.TemporaryDirectory()
        self.addCleanup(folder.cleanup)
        self.folder = Path(folder.name)

    def dump(self, **what) -> Dump:
        path = self.folder / f"{len(list(self.folder.iterdir()))}.dump"
        path.write_bytes(made.dump(**what))
        return Dump(path)

    def draw(self, dump, *chosen: str, **options):
        """The figure's axes, colour bars left out, and its lines."""
        picture, lines = plots.drawn(dump if isinstance(dump, dict) else {"": dump}, chosen, views.view_of(**options))
        return [axes for axes in picture.axes if axes.axison], lines

    def waves(self, cells=(16, 2, 2), name="ex", parts=(((2, 0, 0), GROWS),), **more) -> Dump:
        field = made.waves(cells, STEPS, name, parts)
        return self.dump(**{"cells": cells, name[0]: field, "every": 8} | more)

    def test_fits_say_what_they_rest_on(self):
        dump = self.waves(parts=(((2, 0, 0), GROWS), ((3, 0, 0), DAMPED), ((4, 0, 0), np.exp(-0.1j * STEPS))))
        (axes,), lines = self.draw(dump, "growth", wave=(2, 4))
        self.assertRegex(lines[0], r"^wave 2 of ex: grows by 0\.01000 ± 0\.00000 a step, \d+ points, steps \d+ to \d+")
        self.assertRegex(lines[1], r"^wave 4 of ex: no fit: the wave doesn't grow")
        legend = "\n".join(text.get_text() for text in axes.get_legend().get_texts())
        self.assertRegex(legend, r"wave 2: 0\.01000 ± 0\.00000 \(\d+ points, steps \d+ to \d+\)")
        self.assertIn("wave 4: no fit", legend)
        self.assertIn("mean over y and z", axes.get_title())
        _, lines = self.draw(dump, "damping", wave=(3, 2))
        self.assertRegex(lines[0], r"^wave 3 of ex: damped by 0\.00600 ± 0\.00000 a step at the frequency 0\.12000, \d+ points")
        self.assertRegex(lines[1], "^wave 2 of ex: no fit: the wave isn't damped")

    def test_a_window_by_hand(self):
        dump = self.waves()
        _, lines = self.draw(dump, "growth", wave=2, first=80, last=160)
        self.assertRegex(lines[0], "11 points, steps 80 to 160")
        with self.assertRaisesRegex(ValueError, "--from 80 --to 90: 2 frames; a fit needs 4, and there are 100 from step 0 to"):
            self.draw(dump, "growth", wave=2, first=80, last=90)

    def test_waves_in_any_direction(self):
        dump = self.waves((4, 8, 6), "bz", (((0, 3, 0), GROWS), ((1, 2, -1), DAMPED)))
        (axes,), lines = self.draw(dump, "growth", component="bz", wave=3, along="y")
        self.assertRegex(lines[0], "wave 3 of bz: grows by 0.01000")
        self.assertIn("along y, mean over x and z", axes.get_title())
        _, lines = self.draw(dump, "damping", component="bz", wave=((1, 2, -1),))
        self.assertRegex(lines[0], r"wave \(1, 2, -1\) of bz: damped by 0.00600")
        for panel in "history", "spectrum":
            (axes,), _ = self.draw(dump, panel, component="bz", along="y")
            self.assertIn("mean over x and z", axes.get_title())
            self.assertRegex(axes.get_xlabel(), "y, cells" if panel == "history" else "wave number")

    def test_the_long_axis_is_the_usual_one(self):
        dump = self.waves((2, 16, 2), "ey", (((0, 2, 0), GROWS),), kinds=[("electron", -1, 16)],
                          particles=still(np.stack([np.ones(16), np.arange(16) + 0.5, np.ones(16)], axis=1)))
        axes, _ = self.draw(dump)
        titles = " ".join(one.get_title() for one in axes)
        self.assertIn("Spectrum of $E_y$ along y", titles)
        self.assertEqual({one.get_xlabel() for one in axes}, {"step", "y, cells", "wave number, radians a cell"})
        self.assertEqual([text.get_text() for text in axes[-1].get_legend().get_texts()], ["cold Langmuir waves"])

    def test_waves_that_the_box_has_not(self):
        dump = self.waves()
        for wave, reason in ((0, "waves 1 to 8, of 16 cells"), (-1, "waves 1 to 8"), (9, "--wave 9"), ((0, 0, 0), "at least"),
                             ((9, 0, 0), "at most 8, 1, 1")):
            with self.assertRaisesRegex(ValueError, reason):
                self.draw(dump, "growth", wave=(wave,))
        for panel in "growth", "damping":
            with self.assertRaisesRegex(ValueError, "bz has no wave 1: it is 0 in all 100 frames"):
                self.draw(dump, panel, component="bz")

    def test_steps_that_the_dump_has_not(self):
        dump = self.waves()
        for step in 100000, -5:
            with self.assertRaisesRegex(ValueError, f"--steps {step}: the dump has the steps 0 to 792, a frame every 8"):
                self.draw(dump, "field", steps=(step,))
        (axes,), _ = self.draw(dump, "field", steps=(13,))
        self.assertIn("step 16", axes.get_title())

    def test_frequencies_past_the_frames_are_folded(self):
        # Langmuir waves of 0.1 in frames every 40 steps, which show those up to 0.0785.
        steps = np.arange(0, 4000, 40)
        dump = self.dump(cells=(16, 2, 2), e=made.waves((16, 2, 2), steps, "ex", [((1, 0, 0), np.exp(-0.1j * steps))]), every=40,
                         kinds=[("electron", -1, 16)], particles=still(np.ones((16, 3))))
        (axes,), lines = self.draw(dump, "spectrum", wave=2)
        self.assertRegex(lines[0], r"^Warning: cold Langmuir waves: frequencies up to 0\.0991 are .* pi / every = 0\.0785")
        self.assertRegex(lines[1], "wave 2, cold Langmuir waves: the wave has the frequency 0.09.*seen folded, at 0.06")
        self.assertIn("folded at 0.0785", axes.get_legend().get_texts()[-1].get_text())
        drawn = axes.get_lines()[-1].get_ydata()
        self.assertLess(np.nanmax(drawn), 0.0785)
        self.assertAlmostEqual(np.nanmin(drawn), 2 * np.pi / 40 - 0.0991, 4)

    def test_phase_space_of_many_is_a_density(self):
        # 30000 particles on rows of 3: every 3rd identity would stand on one plane.
        places = np.stack(np.meshgrid(np.arange(3) + 0.5, np.linspace(0, 2, 100), np.linspace(0, 2, 100), indexing="ij"), axis=-1)
        places = places.transpose(1, 2, 0, 3).reshape(-1, 3)
        dump = self.dump(cells=(3, 2, 2), e=[np.zeros((3, 2, 2, 3))], kinds=[("electron", -1, 30000)],
                         particles=still(places, 0.1))
        (axes,), _ = self.draw(dump, "phase")
        self.assertIn("density of 30000 particles", axes.get_title())
        counts = axes.collections[0].get_array()
        self.assertEqual(sorted(set(counts.compressed())), [10000])
        self.assertEqual(counts.count(), 3)
        (axes,), _ = self.draw(dump, "phase", dots=True)
        self.assertIn("20000 of 30000 particles, drawn with the seed 1", axes.get_title())
        drawn = axes.get_lines()[0].get_xdata()
        self.assertEqual((len(drawn), set(drawn)), (20000, {0.5, 1.5, 2.5}))

    def test_phase_space_needs_what_moves(self):
        dump = self.dump(cells=(4, 2, 2), e=[np.zeros((3, 2, 2, 4))], kinds=[("ion", 1, 3)], particles=still(np.ones((3, 3))))
        with self.assertRaisesRegex(ValueError, "none of the 3 particles of the dump moves"):
            self.draw(dump, "phase")
        self.assertNotIn("phase", plots.usual(dump, "ex"))

    def test_one_scale_of_colours(self):
        dump = self.waves((8, 8, 2), "ey", (((1, 1, 0), GROWS),))
        axes, _ = self.draw(dump, "field", component="ey", steps=(80, 400, 792))
        ends = {image.get_clim() for one in axes for image in one.get_images()}
        self.assertEqual(len(ends), 1)
        self.assertIn("at z = 0 cells, step 80", axes[0].get_title())

    def test_a_value_far_out_leaves_the_colours(self):
        field = np.zeros((2, 3, 32, 40, 2))
        field[1, 2, ..., 0] = np.cos(np.arange(40) / 3)
        field[1, 2, 3, 4] = 50
        dump = self.dump(cells=(2, 40, 32), b=field)
        (axes,), _ = self.draw(dump, "field", component="bz")
        self.assertLess(axes.get_images()[0].get_clim()[1], 2 * made.UNIT)
        self.assertIn("1 place beyond", axes.get_images()[0].colorbar.ax.get_ylabel())
        self.assertEqual((axes.get_xlabel(), axes.get_ylabel()), ("y, cells", "z, cells"))

    def test_planes(self):
        dump = self.waves((4, 6, 8), "ey", (((0, 1, 2), GROWS),))
        for plane, labels in (("xy", ("x, cells", "y, cells")), ("yz", ("y, cells", "z, cells")), ("z", ("z, cells", None))):
            (axes,), _ = self.draw(dump, "field", component="ey", plane=plane, at=1)
            self.assertEqual(axes.get_xlabel(), labels[0])
            if labels[1]:
                self.assertEqual(axes.get_ylabel(), labels[1])
                shape = tuple(dump.header.cells["xyz".index(a)] for a in reversed(plane))
                self.assertEqual(axes.get_images()[0].get_array().shape, shape)
        self.assertIn("x = 1, y = 1.5 cells", axes.get_title())
        with self.assertRaisesRegex(ValueError, "--at 8: the box has the cells 0 to 3 along x"):
            self.draw(dump, "field", plane="yz", at=8)

    def test_the_angle_of_a_strong_field(self):
        # turn b_force b / 2^20 is 2: a step turns by 2 atan(2), which isn't 2 times 2.
        kick = made.kick_of(0.1, 16 / 64)
        value = 2 * 2**20 / (kick / 16 * made.E_FORCE.value) / made.UNIT
        field = np.zeros((3, 3, 2, 2, 16))
        field[:, 2] = value
        dump = self.dump(cells=(16, 2, 2), b=field, kinds=[("electron", -1, 16)], particles=still(np.ones((16, 3))))
        (axes,), _ = self.draw(dump, "field", component="bz")
        self.assertAlmostEqual(axes.get_lines()[0].get_ydata()[0], 2 * np.arctan(2), 4)
        self.assertEqual(axes.get_ylabel(), "angle that an electron turns in a step")

    def test_energies_without_the_uniform_field(self):
        field = np.zeros((3, 3, 2, 2, 16))
        field[:, 2] = 10
        dump = self.dump(cells=(16, 2, 2), b=field)
        self.assertEqual(panels.uniform_energy(dump)[2] > 0, True)
        (axes,), _ = self.draw(dump, "energies")
        self.assertIn("without the uniform B's", axes.get_title())
        field[1:, 0] = 1
        (axes,), _ = self.draw(self.dump(cells=(16, 2, 2), e=field[:, ::-1]), "energies")
        self.assertEqual((axes.get_title(), axes.get_ylabel()), ("Energies, in one unit", "share of all energy at its greatest"))
        axes, _ = self.draw(self.waves(), "energies", linear=True)
        self.assertEqual((axes[0].get_yscale(), axes[0].get_ylabel()), ("linear", "share of all energy at its greatest"))
        self.assertEqual(panels.whole_energy(np.array([2.0, 3.0])), (2.0, "at the start"))
        self.assertEqual(panels.whole_energy(np.array([0.0, 3.0])), (3.0, "at its greatest"))
        self.assertIn("parts of a thousand", axes[1].get_ylabel())

    def test_plasma_units_letters_and_size(self):
        dice = np.random.default_rng(1)
        speeds = dice.normal(0, 0.05, (4000, 3))
        places = dice.random((4000, 3)) * [16, 2, 2]
        dump = self.waves(kinds=[("electron", -1, 4000)], particles=lambda number: (places, speeds))
        axes, _ = self.draw(dump, "growth", "spectrum", "phase", "history", wave=2, units="plasma", letters=True, size=(7, 5),
                            dpi=50)
        labels = [(one.get_xlabel(), one.get_ylabel()) for one in axes]
        self.assertEqual(labels[1], (r"$k \lambda_D$", r"$\omega / \omega_p$"))
        self.assertEqual((labels[0][0], labels[2]), (r"$\omega_p t$", (r"$x / \lambda_D$", "$v_x / v_{th}$")))
        self.assertAlmostEqual(axes[1].get_xlim()[1], np.pi * 0.5, 1)
        self.assertEqual([one.texts[0].get_text() for one in axes], ["(a)", "(b)", "(c)", "(d)"])
        self.assertEqual(axes[0].figure.get_size_inches().tolist(), [7, 5])
        with self.assertRaisesRegex(ValueError, "--units plasma: the plasma frequency is 0"):
            self.draw(self.waves(), "growth", wave=2, units="plasma")
        with self.assertRaisesRegex(ValueError, "--dpi 100000"):
            self.draw(dump, "growth", wave=2, dpi=100000)

    def test_heating_of_several_runs(self):
        runs = {}
        for speed in 0.03, 0.05:
            dice = np.random.default_rng(1)
            places, speeds = dice.random((500, 3)) * [16, 2, 2], dice.normal(0, speed, (500, 3))
            runs[f"v{speed}"] = self.dump(cells=(16, 2, 2), e=np.zeros((3, 3, 2, 2, 16)), every=4, kinds=[("electron", -1, 500)],
                                          particles=lambda number, p=places, s=speeds: (p, s * (1 + number)))
        (axes,), lines = self.draw(runs, "heating")
        self.assertRegex(lines[0], r"^heating: v0\.03: the Debye length goes from 0\.[23]\d+ to 0\.[789]\d+ cells, the "
                                   r"temperature along x to 9\.0\d+ and all energy to 9\.0\d+ of its first, and B's to 0\.0")
        self.assertEqual(len(axes.get_lines()), 2)

    def test_kinds_of_files(self):
        picture = plots.figure(self.waves(), ["growth", "history"], wave=2, letters=True)
        for name, begin in (("a.png", b"\x89PNG"), ("a.pdf", b"%PDF"), ("a.svg", b"<?xml")):
            plots.save(picture, str(self.folder / name))
            self.assertEqual((self.folder / name).read_bytes()[: len(begin)], begin)

    def test_a_picture_that_fails_leaves_no_file(self):
        dump = self.waves()
        for name, reason in (("a.gif", "a picture's name ends in one of"), ("a", "ends in one of"), ("no/a.png", "No such file")):
            with self.assertRaisesRegex((ValueError, OSError), reason):
                plots.save(plots.figure(dump, ["growth"], wave=2), str(self.folder / name))
            self.assertFalse((self.folder / name).exists())
        before = self.folder / "before.png"
        before.write_bytes(b"a picture")
        picture = plots.figure(dump, ["growth"], wave=2)
        picture.text(0.5, 0.5, "$\\nosuch$")
        with self.assertRaises(ValueError):
            plots.save(picture, str(before))
        self.assertEqual(before.read_bytes(), b"a picture")

    def test_orbits(self):
        for way, equal in ((np.array([0.3, 0.2, 0]), True), (np.array([0.3, 0.01, 0]), False)):
            dump = self.dump(cells=(16, 16, 2), e=np.zeros((8, 3, 2, 16, 16)), kinds=[("electron", -1, 1)],
                             particles=lambda number, w=way: (8 + number * w[None], w[None]))
            (axes,), _ = self.draw(dump, "orbits")
            self.assertEqual(axes.get_aspect() == 1, equal)
            self.assertEqual("differ in scale" in axes.get_title(), not equal)

    def test_nothing_of_a_notebook_is_changed(self):
        dump = self.waves()
        self.assertEqual(plots.figure(dump)._repr_png_()[:4], b"\x89PNG")
        self.assertIn("$E_x$", plots.figure(dump, ["history"], name="ex").axes[0].get_title())
        script = ("import matplotlib; before = dict(matplotlib.rcParams)\n"
                  "from pictools import Dump, plots\n"
                  f"plots.save(plots.figure(Dump({dump.path!r})), {str(self.folder / 'n.png')!r})\n"
                  "import sys; assert dict(matplotlib.rcParams) == before; assert 'matplotlib.pyplot' not in sys.modules")
        done = subprocess.run([sys.executable, "-c", script], capture_output=True, timeout=600,
                              env=os.environ | {"PYTHONPATH": str(Path(__file__).parents[1])})
        self.assertEqual((done.returncode, done.stderr), (0, b""))


class Typed(unittest.TestCase):
    def test_waves(self):
        self.assertEqual([views.wave_of(text) for text in ("3", "2,0,-1")], [3, (2, 0, -1)])
        self.assertEqual(views.view_of(wave=3).wave, (3,))
        for text in "2,1", "a":
            with self.assertRaisesRegex(argparse.ArgumentTypeError, "is no wave: one number"):
                views.wave_of(text)


if __name__ == "__main__":
    unittest.main()
