"""The deck maker: its decks are ones that the second model accepts, and say what was chosen."""

import tempfile
import unittest
from dataclasses import replace
from math import sqrt
from pathlib import Path

import numpy as np
from compare import Model

from pictools import units
from pictools.deck import DeckError, charges, divergence, field_of, multiplier
from pictools.dump import Dump, Multiplier
from pictools.plasma import Plasma

FAST = 2**24
SMALL = {"cells": (8, 2, 2), "particles_a_cell": 8, "steps": 2, "every": 1, "plasma_frequency": 0.1}


def model_dump(text: str) -> Dump:
    """The dump of a deck by the model, which has to run it to its end."""
    status, data, report = Model(text).run()
    assert status == 0, report
    with tempfile.TemporaryDirectory() as folder:
        path = Path(folder) / "a.dump"
        path.write_bytes(data)
        return Dump(path)


class Decks(unittest.TestCase):
    def test_the_model_accepts_them(self):
        for more in ({}, {"thermal_speed": 0.02}, {"start": "random", "thermal_speed": 0.02, "cells": (4, 4, 2)},
                     {"drift": 0.2, "wave": 1, "wave_speed": 0.01}, {"mass_ratio": 1836, "wave": 1, "wave_speed": 0.01},
                     {"drift": 0.2, "drift_axis": "y", "wave": 2, "wave_speed": 0.01},
                     {"drift": 0.2, "drift_axis": "z", "wave": 2, "wave_speed": 0.01},
                     {"gyration": 0.1, "wave": 2, "wave_speed": 0.01}, {"cells": (3, 4, 5)},
                     {"thermal_speed_y": 0.1, "thermal_speed": 0.02},
                     {"drift": 0.2, "beam_share": 0.1, "wave": 1, "wave_speed": 0.01},
                     {"drift": 0.2, "beam_share": 1}, {"gyration": 0.1, "gyration_axis": "y", "wave": 2, "wave_speed": 0.01},
                     {"gyration": 0.1, "gyration_axis": "x", "wave": 2, "wave_speed": 0.01},
                     {"start": "random", "thermal_speed": 0.05, "cells": (4, 3, 3)},
                     {"start": "random", "drift": 0.2, "beam_share": 0.25, "mass_ratio": 4, "cells": (3, 3, 4)},
                     {"start": "random", "drift": 0.2, "beam_share": 1, "cells": (3, 3, 3)},
                     {"start": "lattice", "thermal_speed": 0.05}, {"start": "lattice", "drift": 0.1, "cells": (3, 4, 5)},
                     {"start": "lattice", "drift": 0.1, "beam_share": 1, "mass_ratio": 9, "cells": (3, 4, 5),
                      "thermal_speed": 0.01}):
            dump = model_dump(Plasma(**SMALL | more).deck().text())
            self.assertEqual(dump.steps.tolist(), [0, 1, 2], more)

    def test_multipliers(self):
        plasma = Plasma(**SMALL | {"gyration": 0.3, "light_speed": 0.4, "mass_ratio": 100, "thermal_speed": 0.02})
        dump = model_dump(plasma.deck().text())
        electron, ion = dump.header.species
        self.assertAlmostEqual(units.light_speed(dump.header), 0.4, 6)
        self.assertAlmostEqual(units.plasma_frequency(dump.header), 0.1 * sqrt(1.01), 6)
        for species, angle in (electron, -0.3), (ion, 0.3 / 100):
            self.assertAlmostEqual(units.gyration(dump.header, species, dump[0].b[2].mean()), angle, 4)
        self.assertAlmostEqual(units.thermal_speed(dump[0]), 0.02, 2)
        self.assertAlmostEqual(ion.mass * ion.kick.value, -electron.kick.value, 6)

    def test_speeds_along_each_axis(self):
        more = {"particles_a_cell": 64, "thermal_speed": 0.02, "thermal_speed_y": 0.06, "start": "random"}
        for cells, speeds in ((8, 2, 2), (0.02, 0.06, 0)), ((3, 3, 3), (0.02, 0.06, 0.02)):
            plasma = Plasma(**SMALL | more | {"cells": cells, "steps": 0})
            self.assertEqual(plasma.thermal_speeds, speeds)
            velocity = model_dump(plasma.deck().text())[0].species("electron")["velocity"] / FAST
            for one, expected in zip(velocity.std(axis=0), speeds):
                self.assertAlmostEqual(one, expected, 2)

    def test_streams_have_no_current(self):
        for start, share in ("quiet", 0.125), ("random", 0.25), ("quiet", 0.5):
            plasma = Plasma(**SMALL | {"start": start, "drift": 0.1, "beam_share": share, "cells": (3, 3, 4)})
            frame = model_dump(plasma.deck().text())[0]
            forward, backward = (frame.species(name)["velocity"] for name in ("forward", "backward"))
            self.assertAlmostEqual(len(forward) / plasma.electrons, share)
            self.assertAlmostEqual(forward[:, 0].mean() / FAST, 0.1, 5)
            self.assertLess(abs(forward.sum() + backward.sum()) / FAST, 0.001)
            self.assertFalse(frame.b.any())

    def test_all_drift_with_their_ions(self):
        for start in "quiet", "lattice", "random":
            for mass in 0, 25:
                plasma = Plasma(**SMALL | {"start": start, "drift": 0.1, "beam_share": 1, "mass_ratio": mass, "cells": (3, 3, 4)})
                frame = model_dump(plasma.deck().text())[2]
                for kind in frame.header.species:
                    self.assertAlmostEqual(frame.species(kind.name)["velocity"][:, 0].mean() / FAST, 0.1, 2)

    def test_each_axis_gives_the_same_run(self):
        """The scheme is the same along x, y and z taken in a ring, and so are decks and dumps."""
        for more in ({"drift": 0.15, "thermal_speed": 0.01}, {"gyration": 0.1}, {"drift": 0.2, "drift_axis": "y"},
                     {"gyration": 0.1, "gyration_axis": "x"}, {"mass_ratio": 100, "thermal_speed_z": 0.01}):
            along = SMALL | {"wave": 1, "wave_speed": 0.01, "drift_axis": "x", "gyration_axis": "z"} | more
            first = model_dump(Plasma(**along).deck().text())[2]
            for by, axis in (1, "y"), (2, "z"):
                turned = along | {"cells": tuple(np.roll(along["cells"], by).tolist()), "wave_axis": axis}
                for name in "drift", "gyration":
                    if name in along:
                        turned[name + "_axis"] = "xyz"[("xyz".index(along[name + "_axis"]) + by) % 3]
                if "thermal_speed_z" in turned:
                    turned["thermal_speed_" + "xyz"[(2 + by) % 3]] = turned.pop("thermal_speed_z")
                second = model_dump(Plasma(**turned).deck().text())[2]
                order = 0, *(1 + np.roll(range(3), -by))
                for one, other in (first.e, second.e), (first.b, second.b):
                    self.assertTrue((np.roll(one, by, axis=0).transpose(order) == other).all(), (more, axis))
                electrons = np.roll(first.particles["velocity"], by, axis=1)[: len(first.particles) // 2]
                self.assertTrue((electrons == second.particles["velocity"][: len(electrons)]).all(), (more, axis))

    def test_all_drift_across_both_fields(self):
        for axis in range(3):
            for more in {"mass_ratio": 16}, {"start": "random", "cells": (3, 3, 4)}:
                plasma = Plasma(**SMALL | {"gyration": 0.3, "gyration_axis": "xyz"[axis], "cross_drift": 0.1, "steps": 4} | more)
                dump = model_dump(plasma.deck().text())
                first, last = dump[0], dump[4]
                for frame in first, last:
                    self.assertEqual(np.nonzero(first.e.mean(axis=(1, 2, 3)))[0].tolist(), [(axis + 2) % 3])
                    for kind in frame.header.species:
                        mean = np.roll(frame.species(kind.name)["velocity"].mean(axis=0) / FAST, -axis)
                        self.assertLess(abs(mean - [0, 0.1, 0]).max(), 0.001)
                self.assertLess(abs(last.e - first.e).max() / abs(first.e).max(), 0.01)

    def test_a_deck_names_the_command_that_makes_it(self):
        chosen = SMALL | {"drift": 0.2, "drift_axis": "y", "wave": 2, "wave_speed": 0.01}
        words = ("python3 -m pictools deck --plasma-frequency 0.1 --drift 0.2 --drift-axis y --particles-a-cell 8 --wave 2 "
                 "--wave-speed 0.01 --cells 8 2 2 --steps 2 --every 1")
        self.assertIn(f"# {words}\nversion = 1\n", Plasma(**chosen).deck().text())

    def test_a_magnetic_field_along_each_axis(self):
        for axis in range(3):
            plasma = Plasma(**SMALL | {"gyration": 0.2, "gyration_axis": "xyz"[axis], "steps": 0})
            field = model_dump(plasma.deck().text())[0].b.mean(axis=(1, 2, 3))
            self.assertEqual(np.nonzero(field)[0].tolist(), [axis])
            self.assertEqual(field[axis], plasma.field_b)

    def test_nothing_varies_along_a_short_axis(self):
        dump = model_dump(Plasma(**SMALL | {"gyration": 0.3, "thermal_speed": 0.02, "start": "random"}).deck().text())
        for field in dump[2].e, dump[2].b:
            self.assertEqual(np.ptp(field, axis=(1, 2)).max(), 0)

    def test_a_cold_wave_keeps_its_height(self):
        plasma = Plasma(**SMALL | {"particles_a_cell": 16, "wave": 1, "wave_speed": 0.01, "steps": 8})
        heights = np.fft.fft(model_dump(plasma.deck().text()).field("e", 0)[:, 0, 0], axis=1)[:, 1]
        self.assertLess(np.ptp(abs(heights)) / abs(heights).mean(), 0.03)
        turn = np.angle(heights[8] / heights[0])
        self.assertAlmostEqual(-turn / 8, plasma.wave_frequency.real, 3)

    def test_a_growing_wave_grows_from_the_first_step(self):
        for more, name, axis in (({"drift": 0.15}, "e", 0), ({"drift": 0.3, "drift_axis": "y"}, "b", 2),
                                 ({"drift": 0.2, "beam_share": 0.125, "particles_a_cell": 16}, "e", 0)):
            plasma = Plasma(**SMALL | {"cells": (16, 2, 2), "wave": 1, "wave_speed": 0.01, "steps": 8} | more)
            heights = np.fft.fft(model_dump(plasma.deck().text()).field(name, axis)[:, 0, 0], axis=1)[:, 1]
            rates = np.diff(np.log(abs(heights)))
            self.assertLess(abs(rates / plasma.wave_frequency.imag - 1).max(), 0.08 if "beam_share" in more else 0.05, more)
            turn = np.unwrap(np.angle(heights))
            self.assertAlmostEqual((turn[0] - turn[-1]) / 8, plasma.wave_frequency.real, 2, more)

    def test_report_warns(self):
        lines = Plasma(plasma_frequency=0.3, light_speed=0.6, thermal_speed=0.001, drift=0.7).report()
        warnings = [line for line in lines if line.startswith("Warning")]
        for word in "Debye", "above 0.2", "Courant", "relativistic", "sub-cells":
            self.assertTrue(any(word in line for line in warnings), word)
        lines = Plasma(plasma_frequency=0.1, thermal_speed=0.05, wave=2, wave_speed=0.01).report()
        self.assertFalse([line for line in lines if line.startswith("Warning")])


class Documents(unittest.TestCase):
    def test_the_deck_with_notes(self):
        text = (Path(__file__).parents[2] / "docs" / "FORMATS.md").read_text(encoding="utf-8")
        dump = model_dump(text.split("```toml\n")[1].split("```")[0])
        self.assertEqual((dump.steps[-1], len(dump), dump.header.particles), (100, 11, 4))


class Fields(unittest.TestCase):
    def test_gauss(self):
        dice = np.random.default_rng(1)
        for shape in (2, 2, 2), (3, 5, 4), (2, 2, 16):
            charge = dice.integers(-2**50, 2**50, shape)
            charge[0, 0, 0] -= charge.sum()
            self.assertTrue((divergence(field_of(charge)) == charge).all())
        with self.assertRaisesRegex(DeckError, "charge"):
            field_of(np.ones((2, 2, 2), np.int64))

    def test_charge_of_a_corner(self):
        # An ion on a node, and an electron in the middle of eight.
        plasma = Plasma(**SMALL)
        ion, electron = plasma.species[1], plasma.species[0]
        electron.position = np.full((1, 3), 2048)
        charge = charges((8, 2, 2), [replace(ion, charge=1, first=[0, 0, 0], sites=[1, 1, 1]), electron])
        self.assertEqual((charge[0, 0, 0], charge[1, 1, 1], charge[0, 0, 2]), (824633720832 - 103079215104, -103079215104, 0))

    def test_multiplier(self):
        self.assertEqual([multiplier(v) for v in (0.25, -3, 0)], [Multiplier(1, 2), Multiplier(-3, 0), Multiplier(0, 0)])
        self.assertAlmostEqual(multiplier(0.1).value, 0.1, 8)
        with self.assertRaises(DeckError):
            multiplier(2.0**-70)


if __name__ == "__main__":
    unittest.main()
