"""Scans by the built program: their tables and pictures, engines, and scans that were cut off. Skipped where none was built."""

import csv
import hashlib
import importlib.util
import os
import shlex
import signal
import subprocess
import sys
import unittest
from dataclasses import replace
from math import asin
from pathlib import Path

import numpy as np
from compare import Model

from pictools import command_scan, scan
from pictools.dump import Dump
from pictools.plasma import Plasma
from pictools.scan import Quantity, Scan
from tests import engine, made
from tests.test_program import HOME, PROGRAM, call, needs_program
from tests.test_running import Folder

FIXED = {"plasma_frequency": 0.1, "drift": 0.1, "thermal_speed": 0.005, "cells": (32, 2, 2), "particles_a_cell": 8,
         "wave_speed": 0.002, "steps": 160}
WORDS = ("scan --plasma-frequency 0.1 --drift 0.1 --thermal-speed 0.005 --cells 32 2 2 --particles-a-cell 8 --wave-speed 0.002 "
         "--steps 160 -o a.csv --processes 1")

# The program, which writes down whose child each call is, and at one call does something to it.
COUNTED = """#!/bin/sh
echo $PPID >> {calls}
if [ {at} != 0 ] && [ "$(wc -l < {calls})" -ge {at} ] && mkdir {calls}.once 2>/dev/null; then {what}; fi
exec {program} "$@"
"""


class Swinging(Folder):
    def test_displaced_electrons_are_measured_together(self):
        for axis, component in ("x", None), ("y", None), ("x", "ex"):
            plasma = Plasma(plasma_frequency=0.3, cells=(3, 3, 3), particles_a_cell=1, start="lattice", displace=0.25, displace_axis=axis,
                            steps=60, every=1, mass_ratio=4)
            (self.folder / "a.dump").write_bytes(Model(plasma.deck().text()).run()[1])
            row = scan.measured(Dump(self.folder / "a.dump"), plasma, Quantity("frequency", component=component))
            self.assertAlmostEqual(float(row["theory"]), 2 * asin(0.3 * 1.25**0.5 / 2))
            self.assertLess(abs(float(row["measured"]) / float(row["theory"]) - 1), 0.01)
        turned = replace(plasma, gyration=0.1)
        self.assertIsNone(Quantity("frequency").theory(turned))
        self.assertEqual(Quantity("frequency", 1).component_of(replace(plasma, displace_axis="y")), "ex")

    def test_no_energy_to_begin_with(self):
        (self.folder / "a.dump").write_bytes(made.dump((4, 2, 2), np.zeros((8, 3, 2, 2, 4))))
        row = scan.measured(Dump(self.folder / "a.dump"), Plasma(0.1), Quantity("heating"))
        self.assertEqual(row, {"reason": "there is no energy at step 0 that it could be a multiple of; --from names a later one"})


@needs_program
class Scanning(Folder):
    def counted(self, at: int = 0, what: str = "true") -> str:
        path = self.folder / "pic.sh"
        calls, program = (shlex.quote(str(name)) for name in (self.folder / "calls", PROGRAM))
        path.write_text(COUNTED.format(calls=calls, at=at, what=what, program=program))
        path.chmod(0o755)
        return str(path)

    def calls(self) -> list[str]:
        return (self.folder / "calls").read_text().split()

    def table(self, name: str = "a.csv") -> list[dict[str, str]]:
        with open(self.folder / name, newline="") as file:
            return list(csv.DictReader(file))

    def again(self, *words: str) -> subprocess.CompletedProcess:
        return self.call(*WORDS.split(), "--program", str(self.folder / "pic.sh"), *words)

    def here(self, over: dict[str, list], out: str = "a.csv", asked: Quantity = Quantity(), **more) -> list[scan.Row]:
        """A scan in this process."""
        return scan.planned(over, str(self.folder / out), asked, named=PROGRAM, **FIXED | more).run(engine.thread())

    def test_a_table_and_its_picture(self):
        self.counted()
        picture = ["--picture", "a.png"] if importlib.util.find_spec("matplotlib") else []
        done = self.again("--wave", "1", "2", "3", "17", *picture)
        self.assertEqual(done.returncode, 0, done.stderr)
        lines = done.stdout.splitlines()
        self.assertRegex(lines[1], r"^wave 2: growth 0\.03\d+ ± 0\.00\d+; theory 0\.03\d+, off by [-+]0\.\d%$")
        self.assertEqual(lines[3], "wave 17: no deck: --wave 17: 32 cells along x hold waves 1 to 16")
        self.assertEqual(self.names(), {"a.csv", "a_runs", "calls", "pic.sh", *picture[1:]})
        self.assertEqual({path.name for path in (self.folder / "a_runs").iterdir()}, {f"wave_{n}.toml" for n in (1, 2, 3)})
        rows = self.table()
        self.assertEqual([row["wave"] for row in rows], ["1", "2", "3", "17"])
        for row in rows[:3]:
            self.assertLess(abs(float(row["measured"]) / float(row["theory"]) - 1), 0.03)
            deck = (self.folder / "a_runs" / row["deck"]).read_bytes()
            _, dump, report = call("run", given=deck)
            self.assertEqual([row["deck_sha256"], row["dump_sha256"], row["end"]],
                             [hashlib.sha256(deck).hexdigest(), hashlib.sha256(dump).hexdigest(), "done 160"])
            made = self.call(*shlex.split(row["command"])[3:])
            self.assertEqual(made.stdout.encode(), deck)
        # What is there isn't run again, and a value that is added is.
        self.assertEqual(len(self.calls()), 3)
        self.assertEqual(self.again("--wave", "1", "2", "3", "17").stdout, done.stdout)
        self.assertEqual(len(self.calls()), 3)
        self.again("--wave", "1", "2", "3", "4", "17")
        self.assertEqual((len(self.calls()), [row["wave"] for row in self.table()]), (4, ["1", "2", "3", "4", "17"]))

    def cut_off(self, what: str, status: int, line: str) -> None:
        """A scan that is cut off at its third run goes on at the next call, and comes to what it would have come to."""
        self.counted(3, what)
        waves = ["--wave", "1", "2", "3", "4"]
        words = [sys.executable, "-m", "pictools", *WORDS.split(), "--program", "./pic.sh", *waves]
        # As from a prompt: what is started in the background is deaf to Ctrl-C, and so is all that it starts.
        done = subprocess.run(words, capture_output=True, text=True, cwd=self.folder, env=self.environment, timeout=600,
                              start_new_session=True, preexec_fn=lambda: signal.signal(signal.SIGINT, signal.SIG_DFL))
        self.assertEqual(done.returncode, status, done.stderr)
        self.assertRegex(done.stderr, line)
        self.assertEqual([row["wave"] for row in self.table()], ["1", "2"])
        self.assertEqual(self.again(*waves).returncode, 0)
        self.assertEqual(len(self.calls()), 5)
        self.assertEqual({path.name for path in (self.folder / "a_runs").iterdir()}, {f"wave_{n}.toml" for n in (1, 2, 3, 4)})
        there = self.table()
        rows = self.here({"wave": [1, 2, 3, 4]}, "b.csv")
        for row in there + rows:
            row.pop("program_sha256")
        self.assertEqual(there, [{name: row.get(name, "") for name in there[0]} for row in rows])

    def test_a_lost_process(self):
        self.cut_off("kill -9 $PPID", 1, r"^pictools: .*terminated abruptly.* \(a\.csv: what was done stands in it, and the same "
                                         r"command goes on\)\n$")

    def test_ctrl_c(self):
        """Which a terminal sends to all processes of a command."""
        self.cut_off("kill -2 0", 130, r"^pictools: a\.csv: what was done stands in it, .*\npictools: stopped by Ctrl-C\n$")

    @unittest.skipUnless(importlib.util.find_spec("distributed"), "distributed isn't there")
    def test_dask_and_a_worker_that_is_ended(self):
        """Its run is done by the other worker, or by the one that takes its place."""
        self.counted(2, "kill -9 $PPID")
        done = self.call(*WORDS.split()[:-2], "--program", "./pic.sh", "--wave", "1", "2", "3", "4", "--executor",
                         "tests.engine:dask")
        self.assertEqual(done.returncode, 0, done.stderr)
        self.assertEqual((len(self.calls()), len(set(self.calls()))), (5, 2 + (len(set(self.calls())) > 2)))
        rows = self.here({"wave": [1, 2, 3, 4]}, "b.csv")
        self.assertEqual([(row["measured"], row["dump_sha256"]) for row in self.table()],
                         [(row["measured"], row["dump_sha256"]) for row in rows])

    def test_other_scans_tables_are_kept(self):
        self.here({"wave": [1, 2]})
        before = (self.folder / "a.csv").read_bytes()
        for more in {"steps": 150}, {"asked": Quantity("growth", first=16, last=80)}:
            with self.assertRaisesRegex(ValueError, r"a\.csv: it has 2 rows that aren't of this scan"):
                self.here({"wave": [1, 2]}, **more)
        with self.assertRaisesRegex(ValueError, r"a\.csv: it has 1 row that isn't of this scan"):
            self.here({"wave": [2, 3]})
        self.assertEqual((self.folder / "a.csv").read_bytes(), before)

    def test_kept_dumps(self):
        self.here({"wave": [2, 3]})
        rows = self.here({"wave": [2, 3]}, keep=True)
        for row in rows:
            dump = (self.folder / "a_runs" / row["deck"].replace("toml", "dump")).read_bytes()
            self.assertEqual(hashlib.sha256(dump).hexdigest(), row["dump_sha256"])

    def test_refusals(self):
        self.counted()
        for words, line in ((["--wave", "1", "1"], "--wave: a value is given twice"),
                            (["--wave", "1", "--cells", "8", "2", "2", "8"], "--cells 8 2 2 8: there are three numbers"),
                            (["--wave", "1", "--executor", "tests.engine:nothing"], "--executor .*it has no submit"),
                            (["--wave", "1", "--executor", "tests.engine"], "--executor tests.engine: .*MODULE:NAME"),
                            (["--wave", "1", "--executor", "no:no"], "--executor no:no: No module named 'no'")):
            with self.assertRaisesRegex(ValueError, line):
                typed = command_scan_words(self.folder, *WORDS.split()[1:], "--program", PROGRAM, *words)
                command_scan.scan(typed)
        self.assertEqual(self.names(), {"pic.sh"})

    @unittest.skipUnless(importlib.util.find_spec("matplotlib"), "matplotlib isn't there")
    def test_pictures(self):
        from pictools import scan_picture
        two = Scan({"drift": [0.1, 0.12], "wave": [3, 2]}, FIXED, "b.csv", Quantity(), PROGRAM)
        rows = [{"measured": str(n), "error": "0.1", "theory": "0.5", "program_sha256": "abc"} for n in range(4)]
        axes = scan_picture.figure(two, rows, "Two").axes[0]
        points = [line.get_xydata().tolist() for line in axes.lines if line.get_marker() == "o"]
        k = 2 * np.pi / 32
        self.assertEqual(points, [[[2 * k, 1], [3 * k, 0]], [[2 * k, 3], [3 * k, 2]]])
        self.assertEqual(sorted(text.get_text() for text in axes.get_legend().texts), ["drift 0.1", "drift 0.12", "theory"])
        curve = [line for line in axes.lines if line.get_linestyle() == "--"][0]
        from pictools import theory
        at = np.nanargmin(abs(curve.get_xdata() - 3 * k))
        there = theory.two_stream(curve.get_xdata()[at], 0.1, 0.1, 0.005).imag
        self.assertAlmostEqual(curve.get_ydata()[at], there, 12)
        words = Scan({"start": ["quiet", "random"]}, FIXED | {"wave": 2}, "b.csv", Quantity(), PROGRAM)
        axes = scan_picture.figure(words, rows[:2]).axes[0]
        self.assertEqual([text.get_text() for text in axes.get_legend().texts][1:], ["start quiet", "start random"])


class Measuring(Folder):
    """What is asked of a dump, of dumps whose waves are known."""

    def measured(self, kind: str, plasma: Plasma, part: tuple[str, np.ndarray], particles=None, **asked) -> scan.Row:
        name, heights = part
        steps, more = 8 * np.arange(len(heights)), {} if particles is None else {"kinds": [("electron", -1, 64)]}
        field = made.waves((16, 2, 2), steps, name, [((2, 0, 0), heights)])
        path = self.folder / "a.dump"
        path.write_bytes(made.dump(cells=(16, 2, 2), every=8, particles=particles, **{name[0]: field}, **more))
        return scan.measured(Dump(path), plasma, Quantity(kind, **asked))

    def test_waves(self):
        time = 8 * np.arange(100)
        swings = Plasma(plasma_frequency=0.1, thermal_speed=0.05, wave=2, wave_speed=0.01, cells=(16, 2, 2))
        streams = Plasma(plasma_frequency=0.1, drift=0.1, cells=(16, 2, 2))
        for kind, plasma, name, height, value in (
                ("growth", streams, "ex", 0.001 * np.exp(0.01 * time), 0.01),
                ("damping", swings, "ex", np.exp((-0.006 - 0.12j) * time), 0.006),
                ("frequency", swings, "ex", np.exp(-0.12j * time), 0.12),
                ("growth", replace(streams, drift_axis="y"), "bz", 0.001 * np.exp(0.02 * time), 0.02)):
            row = self.measured(kind, plasma, (name, height), wave=2)
            self.assertAlmostEqual(float(row["measured"]), value, 4)
            self.assertEqual("error" in row, kind != "frequency")
        self.assertEqual(float(self.measured("frequency", swings, ("ex", np.exp(-0.12j * time)))["theory"]),
                         swings.wave_frequency.real)
        row = self.measured("growth", streams, ("ex", np.exp(-0.01 * time)), wave=2)
        self.assertEqual(row.keys(), {"reason"})
        self.assertIn("doesn't grow", row["reason"])
        row = self.measured("growth", streams, ("ex", 0.001 * np.exp(0.01 * time)), wave=2, first=40, last=160)
        self.assertAlmostEqual(float(row["measured"]), 0.01, 6)
        self.assertEqual(str(Quantity("growth", 2, "bz", 40, 160)), "growth of wave 2 of bz from 40 to 160")

    def test_heating(self):
        places = np.random.default_rng(1).random((64, 3)) * (16, 2, 2)
        row = self.measured("heating", Plasma(plasma_frequency=0.1), ("ex", np.zeros(5)),
                            lambda number: (places, np.full((64, 3), 0.1 * (1 + number / 4))))
        self.assertAlmostEqual(float(row["measured"]), 4, 4)
        self.assertEqual(row.keys(), {"measured"})


def command_scan_words(folder: Path, *words: str):
    """A scan's words as the command reads them, its files in a folder."""
    from pictools.__main__ import Parser
    part = Parser()
    command_scan.add_scan(part)
    typed = part.parse_args(words)
    typed.out = str(folder / typed.out)
    return typed


if __name__ == "__main__":
    unittest.main()
