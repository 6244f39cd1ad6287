"""Version 2, whose cells have a side of their own: decks that are made for it, and dumps that are read. The dumps are the second
model's, and the program's where it takes version 2."""

import io
import subprocess
import tempfile
import unittest
from math import log2
from pathlib import Path

import numpy as np

from pictools import info, units
from pictools.dump import Dump, DumpError
from pictools.plasma import Plasma
from tests.test_plasma import model_dump
from tests.test_program import HOME, PROGRAM, call, needs_program, takes_version_2

SMALL = {"cells": (8, 2, 2), "particles_a_cell": 8, "steps": 2, "every": 1, "plasma_frequency": 0.1, "thermal_speed": 0.05}
WAVE = {"drift": 0.15, "wave": 1, "wave_speed": 0.01}
FINE = (HOME / "decks" / "two_charges_fine.toml").read_text()


def without_comment(deck: str) -> str:
    return deck[deck.index("version") :]


class Decks(unittest.TestCase):
    def test_one_more_in_sub_is_the_same_physics(self):
        filament = {"drift": 0.3, "drift_axis": "y", "wave": 1, "wave_speed": 0.01}
        for more in {}, WAVE, {"gyration": 0.3, "mass_ratio": 100}, filament:
            one, two = (Plasma(**SMALL | more, sub=sub) for sub in (11, 12))
            self.assertEqual((two.e_force.n, two.e_force.k), (one.e_force.n, one.e_force.k + 3))
            self.assertAlmostEqual(two.kick.value / one.kick.value, 2, 6)
            self.assertAlmostEqual(two.turn.value / one.turn.value, 1, 6)
            self.assertLess(abs(two.field_b - 8 * one.field_b), 1e-5 * abs(two.field_b) + 9)
            for a, b in zip(one.species, two.species):
                self.assertLess(abs(b.position - 2 * a.position).max(), 3)
            for a, b in zip(one.deck().species, two.deck().species):
                if hasattr(a, "velocity"):
                    self.assertLess(abs(b.velocity - 2 * a.velocity).max(), 3)
            if more is not WAVE:
                for a, b in zip(one.fields(), two.fields()):
                    self.assertLess(np.abs(b / 8 - a).max(), 1e-2 * np.abs(a).max() + 9)

    def test_sub_12_is_version_1_but_for_its_spelling(self):
        one, two = Plasma(**SMALL | WAVE).deck(), Plasma(**SMALL | WAVE, sub=12).deck()
        self.assertEqual(without_comment(two.text()),
                         without_comment(one.text()).replace("version = 1", "version = 2").replace("\n\n[run", "\nsub = 12\n\n[run"))
        one, two = model_dump(one.text()), model_dump(two.text())
        self.assertEqual((two.header.length - one.header.length, two.records.tobytes()), (12, one.records.tobytes()))

    def test_dumps_say_what_was_chosen(self):
        for sub in 8, 11, 14:
            chosen = SMALL | WAVE | {"gyration_axis": "x", "gyration": 0.2, "drift": 0, "light_speed": 0.4}
            plasma = Plasma(**chosen, sub=sub)
            dump = model_dump(plasma.deck().text())
            header, frame = dump.header, dump[0]
            self.assertEqual((header.version, header.sub, header.side), (2, sub, 2**sub))
            self.assertAlmostEqual(units.plasma_frequency(header), 0.1, 6)
            self.assertAlmostEqual(units.light_speed(header), 0.4, 6)
            self.assertAlmostEqual(units.thermal_speed(frame), 0.05, 2)
            self.assertAlmostEqual(units.gyration(header, header.species[0], frame.b[0].mean()), -0.2, 4)
            self.assertLess(abs(frame.particles["position"][:, 0].max() / 2**sub - 8), 0.2)
            self.assertIn(f"{2**sub} sub-cells a cell along each axis, by version 2", "\n".join(info.info(dump)))

    def test_a_wave_grows_alike_for_all_sides(self):
        for sub, off in (10, 0.08), (12, 0.05), (14, 0.05):
            plasma = Plasma(**SMALL | WAVE | {"cells": (16, 2, 2), "thermal_speed": 0, "steps": 6, "wave_speed": 0.02}, sub=sub)
            heights = np.fft.fft(model_dump(plasma.deck().text()).field("e", 0)[:, 0, 0], axis=1)[:, 1]
            rates = np.diff(np.log(abs(heights)))
            self.assertLess(abs(rates / plasma.wave_frequency.imag - 1).max(), off, sub)

    def test_larger_grids_and_more_particles(self):
        big = {"cells": (128, 128, 64), "particles_a_cell": 4, "start": "random", "thermal_speed": 0.0625}
        deck = Plasma(**SMALL | big | {"mass_ratio": 0, "particles_a_cell": 2}, sub=14).deck()
        self.assertEqual(deck.particles, 2**22)
        self.assertIn("spread = [4194304, 4194304, 4194304]", deck.text())


class Dumps(unittest.TestCase):
    def test_damage(self):
        data = model_bytes(FINE)
        for place, new, reason in ((7, b"3", "PICDUMP3"), (7, b"0", "PICDUMP0"), (60, b"\0\0\0\7", "sub"), (60, b"\0\0\0\x0f", "sub"),
                                   (64, b"\0\0\0\2", "filter"), (68, b"\0\0\0\x11", "loops"), (72, b"\0\0\0\x11", "species"),
                                   (8, b"\0\0\0\x81", "cells"), (132, b"\0\x40\0\1", "particles")):
            with self.assertRaises(DumpError) as fault:
                Dump.stream(io.BytesIO(data[:place] + new + data[place + len(new) :]))
            self.assertEqual(fault.exception.place, place)
            self.assertIn(reason, str(fault.exception))

    def test_a_particle_is_far_by_the_side(self):
        text = FINE.replace("e_force = [1, 20]", "e_force = [1, 0]").replace("kick = [0, 0]", "kick = [1, 5]")
        data = model_bytes(text.replace("steps = 1", "steps = 9"))
        with tempfile.TemporaryDirectory() as folder:
            path = Path(folder) / "a.dump"
            path.write_bytes(data)
            end = Dump(path).end
            self.assertRegex(end.text, r"^stopped 2 particle \d far 0 -?\d+$")
            value = int(end.text.split()[-1])
            self.assertTrue(256 < abs(value) < 4096, value)
            path.write_bytes(data[:-16] + (256).to_bytes(16, "big"))
            with self.assertRaisesRegex(DumpError, "256 doesn't pass the bound 256"):
                Dump(path)

    def test_lengths(self):
        dump = Dump.stream(io.BytesIO(model_bytes(FINE)))
        self.assertEqual((dump.header.length, len(model_bytes(FINE)), 2**log2(dump.header.side)), (196, 12692, 256))


def model_bytes(text: str) -> bytes:
    from compare import Model
    return Model(text).run()[1]


@needs_program
class Runs(unittest.TestCase):
    def setUp(self):
        if not takes_version_2():
            self.skipTest("the program takes decks of version 1 alone")

    def test_the_model_agrees(self):
        for chosen in (SMALL | WAVE, SMALL | {"start": "lattice", "gyration": 0.1, "cells": (4, 4, 4)},
                       SMALL | {"start": "random", "cells": (4, 3, 5), "mass_ratio": 9}):
            for sub in 8, 14:
                text = Plasma(**chosen, sub=sub).deck().text()
                status, dump, _ = call("run", "--workers", "3", given=text.encode())
                self.assertEqual((status, dump == model_bytes(text)), (0, True), (chosen, sub))
                self.assertEqual(call("verify", given=dump), (0, b"verified 3 frames\n", b""))

    def test_two_charges_fine(self):
        done = subprocess.run([PROGRAM, "run"], input=FINE.encode(), capture_output=True)
        self.assertEqual(done.stderr.decode().splitlines(), [
            "frame 0 kinetic 274877906944 electric 0 magnetic 0", "frame 1 kinetic 274877906944 electric 9216 magnetic 0", "done 1"])
        self.assertEqual(done.stdout, model_bytes(FINE))


if __name__ == "__main__":
    unittest.main()
