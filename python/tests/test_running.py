"""Long runs by the built program: the bar, the note that pictures name, and dumps that are whole however a run ended; and dumps
that are mended, made by hand. What needs the program is skipped where none was built."""

import hashlib
import importlib.util
import json
import os
import pty
import re
import resource
import signal
import subprocess
import sys
import tempfile
import time
import unittest
from pathlib import Path

from tests import made
import numpy as np

from pictools import info, note, running
from pictools.dump import Dump
from pictools.mend import DONE, STEPS_PLACE, mend, mended
from pictools.plasma import Plasma
from tests.test_program import HOME, PROGRAM, TOO_FAST, call, needs_program

SHORT = Plasma(plasma_frequency=0.1, cells=(4, 4, 4), particles_a_cell=2, thermal_speed=0.05, start="random", seed=5, steps=20)
LONG = Plasma(plasma_frequency=0.1, cells=(8, 2, 2), particles_a_cell=64, thermal_speed=0.05, start="random", seed=7, steps=10**6,
              every=10)


def sha256(data: bytes) -> str:
    return hashlib.sha256(data).hexdigest()


class Folder(unittest.TestCase):
    """A test in a folder of its own."""

    def setUp(self):
        folder = tempfile.TemporaryDirectory()
        self.addCleanup(folder.cleanup)
        self.folder = Path(folder.name)

    @property
    def environment(self) -> dict[str, str]:
        return os.environ | {"PYTHONPATH": str(HOME / "python"), "PIC_PROGRAM": PROGRAM}

    def call(self, *words: str, **more) -> subprocess.CompletedProcess:
        return subprocess.run([sys.executable, "-m", "pictools", *words], capture_output=True, text=True, cwd=self.folder,
                              env=self.environment, timeout=600, **more)

    def names(self) -> set[str]:
        return {path.name for path in self.folder.iterdir()}


class Gauges(Folder):
    def test_a_run_from_nothing_has_no_shares(self):
        """Where loops drive a cold plasma there is no energy at the start that the others could be shares of."""
        for speed, words in (0.0, 1), (0.1, 4):
            e, places = np.zeros((2, 3, 2, 2, 4)), np.zeros((4, 3))
            (self.folder / "a.dump").write_bytes(made.dump((4, 2, 2), e, None, 1, lambda _: (places, places + speed), [("electron", -1, 4)]))
            said = running.Gauge(str(self.folder / "a.dump"), 0).shown(1, (0, 5, 0)).split(", ")
            self.assertEqual((len(said), said[0].endswith(" million particle-steps/s")), (words, True))


class Mending(Folder):
    def setUp(self):
        super().setUp()
        self.fields = np.random.default_rng(1).normal(size=(4, 3, 2, 2, 4))
        self.whole = made.dump(cells=(4, 2, 2), e=self.fields, every=5)
        self.path = self.folder / "a.dump"

    def test_a_cut_dump_becomes_that_of_fewer_steps(self):
        size = 53 + 96 * 16
        for length in range(64, len(self.whole)):
            if length % 29 and (length - 64) % size not in (0, 1, size - 1) and length < len(self.whole) - 6:
                continue
            self.path.write_bytes(self.whole[:length])
            frames = (length - 64) // size
            if frames == 0:
                with self.assertRaisesRegex(ValueError, r"a\.dump: byte \d+: .*; nothing can be mended, and nothing was written"):
                    mend(self.path)
                self.assertEqual(self.path.read_bytes(), self.whole[:length])
                continue
            self.assertEqual(len(mend(self.path)), frames)
            self.assertEqual(self.path.read_bytes(), made.dump(cells=(4, 2, 2), e=self.fields[:frames], every=5))

    def test_it_can_be_cut_off_itself(self):
        """After each of its writes it goes on to the same dump."""
        length, steps = 64 + 2 * (53 + 96 * 16), (5).to_bytes(4, "big")
        short = self.whole[:STEPS_PLACE] + steps + self.whole[STEPS_PLACE + 4 : length]
        for left in self.whole[:length], short, short + DONE, short + DONE + steps[:2], short + DONE + steps:
            self.path.write_bytes(left)
            mend(self.path)
            self.assertEqual(self.path.read_bytes(), short + DONE + steps)

    def test_a_whole_dump_stays(self):
        self.path.write_bytes(self.whole)
        before = self.path.stat().st_mtime_ns
        self.assertEqual(mend(self.path).end.text, "done 15")
        self.assertEqual((self.path.read_bytes(), self.path.stat().st_mtime_ns), (self.whole, before))

    def test_the_command(self):
        self.path.write_bytes(self.whole[:-100])
        done = self.call("mend", "a.dump", "-o", "b.dump")
        self.assertEqual((done.returncode, done.stderr), (0, "b.dump: done 10, 3 frames\n"))
        self.assertEqual(self.path.read_bytes(), self.whole[:-100])
        self.assertEqual(self.call("mend", "a.dump").returncode, 0)
        self.assertEqual(self.path.read_bytes(), (self.folder / "b.dump").read_bytes())
        for data in self.whole[:100], self.whole[:STEPS_PLACE], self.whole + b"x":
            self.path.write_bytes(data)
            with self.assertRaisesRegex(ValueError, "a.dump: byte .*nothing was written"):
                mended(self.path, self.folder / "out.dump")
        self.assertEqual(self.names(), {"a.dump", "b.dump"})

    @needs_program
    def test_it_is_the_dump_of_a_shorter_run(self):
        """Cut at random, with particles, as the program itself writes it and verifies it."""
        chosen = {"plasma_frequency": 0.1, "cells": (4, 4, 4), "particles_a_cell": 2, "thermal_speed": 0.05, "start": "random",
                  "every": 3}
        whole = call("run", given=Plasma(steps=20, **chosen).deck().text().encode())[1]
        for length in np.random.default_rng(2).integers(64 + 2 * 60 + 53 + 96 * 64 + 24 * 256, len(whole), 8):
            self.path.write_bytes(whole[:length])
            steps = int(mend(self.path).steps[-1])
            self.assertEqual(self.path.read_bytes(), call("run", given=Plasma(steps=steps, **chosen).deck().text().encode())[1])
            self.assertEqual(call("verify", given=self.path.read_bytes())[0], 0)


@needs_program
class Running(Folder):
    def deck(self, plasma: Plasma, name: str = "a.toml") -> str:
        (self.folder / name).write_text(plasma.deck().text())
        return name

    def test_a_run_and_its_note(self):
        name = self.deck(SHORT)
        done = self.call("run", name, "-o", "a.dump", "--workers", "2")
        self.assertEqual(done.returncode, 0, done.stderr)
        self.assertRegex(done.stderr, r"^a\.dump: done 20, 6 frames, .* kB, in .* seconds; its note is a\.dump\.json\n$")
        self.assertEqual(self.names(), {"a.toml", "a.dump", "a.dump.json"})
        data, text = (self.folder / "a.dump").read_bytes(), (self.folder / name).read_bytes()
        _, whole, report = call("run", given=text)
        self.assertEqual(data, whole)
        told = json.loads((self.folder / "a.dump.json").read_text())
        lines = report.decode().splitlines()
        parts = ("first", "last", "end", "mended after", "frames", "bytes", "sha256", "workers")
        self.assertEqual([told[part] for part in parts],
                         [lines[0], lines[-2], "done 20", "", 6, len(data), sha256(data), 2])
        self.assertEqual((told["deck"]["file"], told["deck"]["sha256"], told["deck"]["seeds"]),
                         (name, sha256(text), [5]))
        self.assertEqual("\n".join(told["deck text"]) + "\n", text.decode())
        self.assertTrue(told["deck"]["made by"].startswith("python3 -m pictools deck --plasma-frequency 0.1 --thermal-speed "))
        self.assertEqual(told["program"]["sha256"], sha256(Path(PROGRAM).read_bytes()))
        self.assertEqual(told["versions"].keys(), {"pictools", "python", "numpy"})
        lines = "\n".join(info.info(Dump(self.folder / "a.dump")))
        self.assertRegex(lines, r"\nits run +a\.dump: deck a\.toml [0-9a-f]{12}, seed 5, ")

    def test_a_deck_that_is_refused_leaves_what_was_there(self):
        (self.folder / "a.dump").write_bytes(b"old")
        (self.folder / "a.toml").write_text("version = 3\n")
        done = self.call("run", "a.toml", "-o", "a.dump")
        self.assertEqual((done.returncode, self.names()), (3, {"a.toml", "a.dump"}))
        self.assertRegex(done.stderr, r"^pictools: a\.toml: no dump was written: refused .*\n    ")
        self.assertEqual((self.folder / "a.dump").read_bytes(), b"old")
        self.assertRegex(self.call("run", "b.toml", "-o", "a.dump").stderr, r"^pictools: b\.toml: No such file.*\n$")
        done = self.call("run", "a.toml", "-o", "a.dump", "--program", "no")
        self.assertRegex(done.stderr, r"^pictools: there is no program no")

    def test_decks_that_are_none(self):
        """They are the program's to refuse."""
        good = SHORT.deck().text().encode()
        for text, line in ((b"species = 3\nversion = 1", "refused 3 missing grid"), (b"run = 3", "refused 3 missing version"),
                           (b"\xff", "refused 1 text"), (b"a = " + b"[" * 5000, "refused 1 text"),
                           (good.replace(b"seed = 5", b"seed = [5]"), r"refused 4 kind species\[0\]\.random\.seed"),
                           (good.replace(b"random = {", b"random = 'no' #"), r"refused 4 kind species\[0\]\.random$")):
            ended = running.run("a.toml", str(self.folder / "a.dump"), named=PROGRAM, text=text)
            self.assertEqual((ended.status, ended.dump), (3, None))
            self.assertRegex(ended.line, line)
        self.assertEqual(self.names(), set())

    def test_a_run_that_stops(self):
        done = self.call("run", "-", "-o", "a.dump", input=TOO_FAST)
        self.assertEqual(done.returncode, 1)
        self.assertRegex(done.stderr, r"^a\.dump: stopped 1 particle 0 far 0 8192, 1 frame, .*\nstopped 1 .*\n    The run ended")

    def test_an_end_by_a_time_limit(self):
        """The dump is mended: it is that of a shorter run, which the note tells too."""
        self.deck(LONG)
        words = [sys.executable, "-m", "pictools", "run", "a.toml", "-o", "a.dump"]
        with subprocess.Popen(words, cwd=self.folder, env=self.environment, stderr=subprocess.PIPE, text=True) as started:
            self.wait_for_frames()
            # It still runs: the note names the dump already.
            self.assertIn("seed 7", note.said(Dump(self.folder / "a.dump", partial=True)))
            started.send_signal(signal.SIGTERM)
            said = started.stderr.read()
            self.assertEqual(started.wait(60), 143)
        found = re.fullmatch(r"pictools: a\.dump: stopped by SIGTERM, .*\. It was mended, and is the dump of a run of (\d+) "
                             r"steps: .*\n", said)
        self.assertTrue(found, said)
        data = (self.folder / "a.dump").read_bytes()
        self.assertEqual(call("verify", given=data)[0], 0)
        text = (self.folder / "a.toml").read_text().replace("steps = 1000000", f"steps = {found[1]}")
        self.assertEqual(data, call("run", given=text.encode())[1])
        told = json.loads((self.folder / "a.dump.json").read_text())
        self.assertEqual((told["end"], told["mended after"], told["sha256"]),
                         (f"done {found[1]}", "stopped by SIGTERM, as by a time limit", sha256(data)))
        self.assertEqual(self.names(), {"a.toml", "a.dump", "a.dump.json"})

    def wait_for_frames(self) -> None:
        until = time.monotonic() + 60
        path = self.folder / "a.dump"
        while not (path.exists() and path.stat().st_size > 500000):
            self.assertLess(time.monotonic(), until)
            time.sleep(0.02)

    def test_a_file_that_can_not_grow(self):
        """What stops the program, as a full disk does, leaves its whole frames, and a whole dump."""
        self.deck(LONG)
        limit = (200000, resource.getrlimit(resource.RLIMIT_FSIZE)[1])
        done = self.call("run", "a.toml", "-o", "a.dump", preexec_fn=lambda: resource.setrlimit(resource.RLIMIT_FSIZE, limit))
        self.assertIn(done.returncode, (5, 128 + signal.SIGXFSZ), done.stderr)
        self.assertRegex(done.stderr, r"^pictools: a\.dump: the program ended with the status \d+\. It was mended, and is the "
                                      r"dump of a run of \d+ steps: ")
        self.assertEqual(call("verify", given=(self.folder / "a.dump").read_bytes())[0], 0)

    def test_places_that_are_none(self):
        self.deck(SHORT)
        for out, line in ("/dev/null", "/dev/null: it is no file"), ("no/a.dump", "no/a.dump: there is no folder no"):
            with self.assertRaisesRegex(ValueError, line):
                running.run(str(self.folder / "a.toml"), out, named=PROGRAM)
        (self.folder / "link.dump").symlink_to("b.dump")
        ended = running.run(str(self.folder / "a.toml"), str(self.folder / "link.dump"), named=PROGRAM)
        self.assertTrue(ended.dump.end.done and (self.folder / "link.dump").is_symlink())
        self.assertEqual(self.names(), {"a.toml", "link.dump", "link.dump.json", "b.dump"})

    @unittest.skipUnless(importlib.util.find_spec("tqdm"), "tqdm isn't there")
    def test_the_bar_and_ctrl_c(self):
        """On a terminal, whose Ctrl-C goes to the program too."""
        self.deck(LONG)
        words = [sys.executable, "-m", "pictools", "run", "a.toml", "-o", "a.dump"]
        child, terminal = pty.fork()
        if child == 0:
            os.chdir(self.folder)
            os.execve(words[0], words, self.environment)
        out = b""
        while b"electric" not in out:
            out += os.read(terminal, 1000)
        os.write(terminal, b"\x03")
        while True:
            try:
                out += os.read(terminal, 10000)
            except OSError:
                break
        os.close(terminal)
        self.assertEqual(os.waitstatus_to_exitcode(os.waitpid(child, 0)[1]), 130)
        self.assertRegex(out.decode(), r"a\.dump: +\d+%.*/1000000 \[\d\d:\d\d<.*step/s, .* million particle-steps/s, energy "
                                       r"[01]\.\d+, electric [\d.e-]+, magnetic 0\]")
        self.assertIn(b"a.dump: stopped by Ctrl-C. It was mended", out)
        self.assertEqual(call("verify", given=(self.folder / "a.dump").read_bytes())[0], 0)

    def test_without_tqdm(self):
        """A line says so where there would be a bar, on a terminal, and nowhere else."""
        (self.folder / "tqdm.py").write_text("raise ModuleNotFoundError('no', name='tqdm')\n")
        self.deck(Plasma(plasma_frequency=0.1, cells=(4, 2, 2), particles_a_cell=2, steps=4))
        done = self.call("run", "a.toml", "-o", "a.dump")
        self.assertEqual(done.returncode, 0)
        self.assertRegex(done.stderr, r"^a\.dump: done 4, ")
        reader, terminal = pty.openpty()
        self.addCleanup(os.close, reader)
        words = [sys.executable, "-m", "pictools", "run", "a.toml", "-o", "b.dump"]
        done = subprocess.run(words, stderr=terminal, cwd=self.folder, env=self.environment, timeout=600)
        os.close(terminal)
        self.assertEqual(done.returncode, 0)
        self.assertTrue(os.read(reader, 1000).startswith(b"pictools: no progress is shown: that needs tqdm; on Debian it is python3-tqdm\r\n"))

    @unittest.skipUnless(importlib.util.find_spec("matplotlib"), "matplotlib isn't there")
    def test_pictures_name_the_note(self):
        from pictools import plots
        self.deck(SHORT)
        self.call("run", "a.toml", "-o", "a.dump")
        dump = Dump(self.folder / "a.dump")
        said = note.said(dump)
        self.assertRegex(said, r"^a\.dump: deck a\.toml [0-9a-f]{12}, seed 5, pic \S.* [0-9a-f]{12}$")
        self.assertEqual(plots.figure({"a": dump, "b": dump}, ["energies"])._supxlabel.get_text(), f"{said}\n{said}")
        # Of another run in its place the note says nothing.
        self.assertIn("b_to_e = [1, 2]", (self.folder / "a.toml").read_text())
        text = (self.folder / "a.toml").read_text().replace("b_to_e = [1, 2]", "b_to_e = [1, 3]")
        (self.folder / "a.dump").write_bytes(call("run", given=text.encode())[1])
        self.assertEqual(note.said(Dump(self.folder / "a.dump")), "")
        self.assertEqual(plots.figure(Dump(self.folder / "a.dump"), ["energies"])._supxlabel, None)
        (self.folder / "a.dump.json").write_text("[]")
        self.assertEqual(note.said(Dump(self.folder / "a.dump")), "")


if __name__ == "__main__":
    unittest.main()
