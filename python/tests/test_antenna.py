"""Decks of the maker with a displaced start, an antenna and probes, run by the second model: they say what was chosen, and the physics
is that of theory. And headers with loops."""

import io
import unittest
from dataclasses import replace
from math import pi, sin

import numpy as np

from pictools import antenna, cost, info, measure, theory, thin
from pictools.deck import Place
from pictools.dump import Dump, DumpError
from pictools.header import Loop
from pictools.outline import outline
from pictools.plasma import Plasma
from tests.test_plasma import model_dump
from tests.test_versions import model_bytes

SMALL = {"plasma_frequency": 0.2, "cells": (8, 2, 2), "particles_a_cell": 4, "steps": 2, "every": 1}


class Displaced(unittest.TestCase):
    def test_every_start_swings_at_the_plasma_frequency(self):
        """From the way x that they are displaced by, E's mean goes as x cos(w n), where w is that of theory."""
        for more in ({}, {"start": "lattice"}, {"start": "random"}, {"filter": 1}, {"mass_ratio": 9}, {"drift": 0.05},
                     {"displace_axis": "y", "start": "random", "particles_a_cell": 64}, {"cells": (4, 4, 4), "start": "random", "sub": 14},
                     {"gyration": 0.1, "gyration_axis": "x"}, {"wave_axis": "y", "cells": (2, 8, 2), "displace_axis": "y"}):
            with self.subTest(more):
                plasma = Plasma(**SMALL | {"displace": 0.25} | more)
                dump, axis = model_dump(plasma.deck().text()), "xyz".index(plasma.displace_axis)
                header = dump.header
                means = np.array([frame.e[axis].mean() for frame in dump]) / (header.unit_charge * 4 * plasma.particles_a_cell / 4)
                self.assertAlmostEqual(means[0], 0.25, 3)
                square = plasma.plasma_frequency**2 * (1 + (1 / plasma.mass_ratio if plasma.mass_ratio else 0))
                # The first kick is a whole one, of electrons at rest, where a swing would have had half a step of it before.
                # Where electrons are drawn, their density isn't even.
                self.assertLess(abs(means[1] / means[0] - (1 - square)), (0.15 if plasma.start == "random" else 0.02) * square + 1e-3)
                self.assertEqual(header.version, 2)

    def test_what_is_said(self):
        plasma = Plasma(**SMALL | {"displace": -0.5, "start": "lattice"})
        said = "\n".join(plasma.report())
        for words in ("They start -0.5 cells along x from their ions", "one beside each electron",
                      "swing together with 0.20033 a step, sin(w/2) = wp/2, once in 31.36 steps"):
            self.assertIn(words, said)
        self.assertIn('displace = { of = "ion", by = [-2048, 0, 0], v = [0, 0, 0] }', plasma.deck().text())
        self.assertIn("--displace -0.5", plasma.deck().text())
        quiet = Plasma(**SMALL | {"displace": 0.1, "gyration": 0.1}).deck()
        self.assertIn('displace = { of = "electron", by = [-410, 0, 0], v = [0, 0, 0] }', quiet.text())
        self.assertNotIn("swing together", "\n".join(quiet.comment))
        self.assertFalse(quiet.edges.any())

    def test_a_dump_says_it(self):
        """Its first frame has it, though its header hasn't."""
        for more, names in ((SMALL | {"displace": -0.5, "start": "lattice"}, ("electron", "ion")),
                            (SMALL | {"displace": -0.5, "start": "random", "thermal_speed": 0.01}, ("ion", "electron"))):
            dump, way = model_dump(Plasma(**more).deck().text()), "-0.5" if names[0] == "electron" else "0.5"
            self.assertIn((f"displaced {names[0]}", f"each {names[0]} starts {way}, 0, 0 cells along x, y and z from its {names[1]}"),
                          info.facts(dump))
            self.assertEqual(info.displaced(dump[1]), [])
        for more in {"start": "lattice"}, {"mass_ratio": 4}, {"start": "random"}:
            self.assertEqual(info.displaced(model_dump(Plasma(**SMALL | more).deck().text())[0]), [])


class Antennas(unittest.TestCase):
    chosen = SMALL | {"cells": (16, 2, 2), "antenna": 0.01, "antenna_period": 16, "start": "random", "mass_ratio": 100}

    def test_loops(self):
        plasma = Plasma(**self.chosen | {"antenna_place": 3})
        loops = plasma.deck().loops
        self.assertEqual([loop.cell for loop in loops], [(3, 0, 0), (3, 1, 0), (3, 0, 1), (3, 1, 1)])
        self.assertEqual({(loop.axis, len(loop.wave)) for loop in loops}, {(2, 16)})
        self.assertEqual(max(loops[0].wave), round(antenna.Antenna(plasma).height))
        turned = Plasma(**self.chosen | {"antenna_axis": "z", "cells": (2, 2, 16), "antenna_place": 3}).deck().loops
        self.assertEqual([(loop.axis, loop.cell) for loop in turned], [(1, cell) for cell in
                                                                         ((0, 0, 3), (1, 0, 3), (0, 1, 3), (1, 1, 3))])
        wide = Plasma(**self.chosen | {"cells": (8, 4, 4), "start": "lattice"}).deck()
        self.assertEqual(len(wide.loops), 16)

    def test_the_light_is_as_high_as_theory_has_it(self):
        """In vacuum, once the waves stand: E beside the antenna is M sin(w/2) / (c^2 cos(k/2)) high."""
        plasma = Plasma(**self.chosen | {"cells": (64, 2, 2), "plasma_frequency": 1e-3, "steps": 60})
        deck = replace(plasma.deck(), species=[])
        heights = np.array([frame.e[1, 0, 0, 3] for frame in model_dump(deck.text())])[-32:]
        w, high = 2 * pi / 16, abs(np.mean(heights * np.exp(2j * pi / 16 * np.arange(32)))) * 2
        k = theory.light_number(w, 0.5).real
        self.assertLess(abs(high / (max(deck.loops[0].wave) * sin(w / 2) / (0.25 * np.cos(k / 2))) - 1), 0.03)
        self.assertLess(abs(high * 2 * abs(plasma.kick.value) * plasma.e_force.value / (2 * sin(w / 2)) / 2**24 / 0.01 - 1), 0.03)

    def test_a_dump_has_its_loops(self):
        text = Plasma(**self.chosen).deck().text()
        data = model_bytes(text)
        stream = Dump.stream(io.BytesIO(data))
        header = stream.header
        self.assertEqual(header.loops, outline(text).header.loops)
        self.assertEqual((header.length, len(list(stream))), (76 + 120 + 4 * (20 + 8 * 16), 3))
        self.assertEqual(cost.dump_bytes(Plasma(**self.chosen).deck()), len(data))
        self.assertRegex("\n".join(info.info(model_dump(text))),
                         r"\nloops 0 to 3 +around the faces of the cells \(0, 0, 0\), \(0, 1, 0\), \(0, 0, 1\), \(0, 1, 1\) across z, by a "
                         r"wave of 16 steps, up to 3.878e\+11 in size\ndriven +by these loops from outside")
        loops = (Loop(2, (0, 0, 0), (1,)), Loop(2, (1, 0, 0), (1, 2)), Loop(2, (2, 0, 0), (1, 2)), Loop(1, (2, 0, 0), (1, 2)))
        self.assertEqual([name for name, _ in info.loops(replace(header, loops=loops))], ["loop 0", "loops 1 to 2", "loop 3", "driven"])
        self.assertEqual(info.loops(replace(header, loops=())), [])
        thinned = io.BytesIO()
        thin.thin(io.BytesIO(data), thinned, 2)
        self.assertEqual(Dump.stream(io.BytesIO(thinned.getvalue())).header.loops, header.loops)
        for place, number, reason in ((68, 17, "number of loops"), (196, 3, "axis"), (204, 2, "cell"), (212, 0, "length"), (212, 65, "length"),
                                      (216, 2**29, "a number of a wave")):
            with self.assertRaisesRegex(DumpError, reason) as fault:
                Dump.stream(io.BytesIO(data[:place] + number.to_bytes(4, "big") + data[place + 4:]))
            self.assertEqual(fault.exception.place, place)
        for length in 195, 205, 215, 300:
            with self.assertRaisesRegex(DumpError, f"byte {length}: the dump ends in its header"):
                Dump.stream(io.BytesIO(data[:length]))

    def test_what_is_said(self):
        said = "\n".join(Plasma(**self.chosen | {"cells": (64, 2, 2)}).report())
        self.assertRegex(said, "An antenna of 4 loops across x, at its cell 0, with a period of 16 steps, 0.3927 a step; its E stands along "
                               "y, and an electron swings by 0.01 cells a step beside it. Its waves are 9.067 cells long, go both ways, "
                               "meet after some \\d+ steps and come round the box after \\d+.")
        said = "\n".join(Plasma(**self.chosen | {"plasma_frequency": 0.5}).report())
        self.assertIn("doesn't go through the plasma: it falls by e in 1.4", said)
        self.assertIn("take --every", "\n".join(Plasma(**self.chosen | {"every": 10}).report()))

    def test_light_number(self):
        for wp, filter in (0, 0), (0.1, 0), (0.15, 1):
            k = theory.light_number(0.3, 0.5, wp, filter)
            self.assertAlmostEqual(theory.light(k.real, 0.5, theory.filtered(wp, k.real) if filter else wp), 0.3)
            self.assertEqual(k.imag, 0)
        damped = theory.light_number(0.01, 0.5, 0.1)
        self.assertEqual(damped.real, 0)
        self.assertLess(abs(damped.imag - (0.1**2 - 0.01**2)**0.5 / 0.5), 1e-3)


class Probing(unittest.TestCase):
    def test_places_and_ids(self):
        deck = Plasma(**SMALL | {"probe": "ey,bz", "trace": 4, "drift": 0.1}).deck()
        self.assertEqual(deck.places, [Place(name, (n, 0, 0)) for name in ("ey", "bz") for n in range(8)])
        self.assertEqual(deck.ids, [0, 32, 64, 96])
        read = outline(deck.text())
        self.assertEqual((read.places, read.ids), (tuple(deck.places), tuple(deck.ids)))
        ions_first = Plasma(**SMALL | {"trace": 2, "start": "lattice"}).deck()
        self.assertEqual(ions_first.ids, [128, 192])
        for cells, names, number in ((128, "ex", 64), (128, "ex,ey,ez,bx,by,bz", 10), (60, "ex,bz", 30), (2, "bz", 2)):
            found = Plasma(**SMALL | {"cells": (4, cells, 4), "probe": names, "probe_axis": "y", "sub": 10, "particles_a_cell": 1}).deck().places
            self.assertEqual(len(found), number * len(names.split(",")))
            self.assertEqual({place.cell[0] + place.cell[2] for place in found}, {0})
        self.assertIn("`pic probe` puts ey and bz at 8 cells along x, at every step.", deck.comment)

    def test_turned(self):
        """What is chosen along an axis goes with the others in a ring."""
        along_x = Plasma(**SMALL | {"antenna": 0.01, "displace": 0.1, "thermal_speed": 0.05})
        along_z = Plasma(**SMALL | {"cells": (2, 2, 8), "antenna": 0.01, "antenna_axis": "z", "displace": 0.1, "displace_axis": "z",
                                    "wave_axis": "z", "thermal_speed": 0.05})
        one, other = (model_dump(plasma.deck().text()) for plasma in (along_x, along_z))
        self.assertEqual(one.energies.tolist(), other.energies.tolist())


class Ways(unittest.TestCase):
    def test_through_the_sides(self):
        there = np.cumsum(np.full((9, 2, 3), [0.9, -0.7, 0.4]), axis=0)
        self.assertLess(abs(measure.through(there % 4, (4, 4, 4)) - (there - np.floor(there[0] / 4) * 4)).max(), 1e-9)


if __name__ == "__main__":
    unittest.main()
