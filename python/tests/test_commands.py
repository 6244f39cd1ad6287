"""The commands, as they are typed; those that draw are skipped where matplotlib isn't there."""

import contextlib
import importlib.util
import io
import os
import re
import signal
import subprocess
import sys
import tempfile
import time
import unittest
from pathlib import Path
from unittest import mock

import measure as examples
import numpy as np
from compare import Model

from pictools import __main__ as commands
from pictools.dump import Dump
from pictools.plasma import Plasma

HOME = Path(__file__).parents[1]
DECK = ("deck --plasma-frequency 0.1 --cells 8 2 2 --particles-a-cell 2 --drift 0.1 --wave 1 --wave-speed 0.003 --steps 100 "
        "--every 5")
DRAWS = unittest.skipUnless(importlib.util.find_spec("matplotlib"), "matplotlib isn't there")


class Signal:
    """As much of a dump as a frequency wants."""

    def __init__(self, steps: np.ndarray):
        self.steps = steps

    def __len__(self) -> int:
        return len(self.steps)


class Commands(unittest.TestCase):
    @classmethod
    def setUpClass(cls):
        folder = tempfile.TemporaryDirectory()
        cls.addClassCleanup(folder.cleanup)
        cls.folder = Path(folder.name)
        text = cls.call(DECK).stdout.decode()
        _, dump, report = Model(text).run()
        (cls.folder / "a.dump").write_bytes(dump)
        (cls.folder / "a.toml").write_text(text)
        (cls.folder / "a.report").write_bytes(report)

    @classmethod
    def call(cls, words: str, program: str = "-m pictools", given: bytes = b"") -> subprocess.CompletedProcess:
        return subprocess.run([sys.executable, *program.split(), *words.split()], input=given, capture_output=True,
                              cwd=cls.folder, env=os.environ | {"PYTHONPATH": str(HOME)}, timeout=600)

    def test_deck_to_a_file(self):
        done = self.call(DECK + " -o a.toml")
        self.assertEqual((done.returncode, done.stdout), (0, b""))
        self.assertIn(b"Two-stream instability at the start: it grows by", done.stderr)
        self.assertTrue((self.folder / "a.toml").read_text().startswith("# A plasma of 64 electrons, 2 a cell"))

    def test_thin(self):
        dump = (self.folder / "a.dump").read_bytes()
        done = self.call("thin 4", given=dump)
        self.assertEqual((done.returncode, done.stderr), (0, b"kept 6 frames\n"))
        self.assertEqual(len(done.stdout), len(dump) - 15 * (53 + 96 * 32 + 24 * (64 + 8)))

    def test_thin_to_a_file(self):
        dump = (self.folder / "a.dump").read_bytes()
        done = self.call("thin 4 -o thin.dump", given=dump)
        self.assertEqual((done.returncode, done.stdout, done.stderr), (0, b"", b"kept 6 frames\n"))
        self.assertEqual((self.folder / "thin.dump").read_bytes(), self.call("thin 4", given=dump).stdout)
        for number, given in (4, dump[:100]), (0, dump), (4, dump[:200] + b"X"):
            self.assertEqual(self.call(f"thin {number} -o lost.dump", given=given).returncode, 1)
        self.assertEqual([path.name for path in self.folder.iterdir() if "lost" in path.name], [])

    def test_dumps_that_end_early(self):
        whole = (self.folder / "a.dump").read_bytes()
        size = 53 + 96 * 32 + 24 * (64 + 8)
        (self.folder / "cut.dump").write_bytes(whole[: len(whole) - 6 - size // 2])
        line = (rb"pictools: .*: byte \d+: the dump ends in a frame; its run was cut, or still writes. Taken: (\d+) whole frames, "
                rb"the last of step 95\n")
        done = self.call("info cut.dump")
        self.assertEqual((done.returncode, re.fullmatch(line, done.stderr)[1]), (0, b"20"))
        self.assertRegex(done.stdout, rb"\nend +none: byte \d+: the dump ends in a frame\n")
        done = self.call("thin 4", given=(self.folder / "cut.dump").read_bytes())
        self.assertEqual((done.returncode, done.stdout[-size:-size + 5]), (0, b"F\0\0\0P"))
        self.assertIn(b"Kept: 5 whole frames, the last of step 80\n", done.stderr)
        self.assertEqual(self.call("thin 1", given=done.stdout).stdout, done.stdout)

    def test_info(self):
        done = self.call("info a.dump")
        self.assertEqual((done.returncode, done.stderr), (0, b""))
        for name, text in (
                ("cells", "8 x 2 x 2, 32 in all"), ("steps", "100, a frame every 5"),
                ("frames", "21 of 21, of steps 0 to 100, .*; 4.85 kB each"),
                ("end", "done 100"), ("particles", "72"), ("species forward", "32 of charge -1, mass 1, kick -0.00.*"),
                ("species ion", "8 of charge 8, mass 1, .*, feels no field"), ("b_to_e", r"\[1, 2\], 0.25"),
                ("light", "0.5 cells a step"),
                ("plasma frequency", "0.1 a step, .* 62.83 steps"), ("thermal speed", "0.* cells a step, .*"),
                ("Debye length", "0.* cells.*")):
            self.assertRegex(done.stdout.decode(), rf"(?m)^{name} +{text}$")

    def test_explain(self):
        done = self.call("explain refused 5 limit grid.cells[0] 128 2 64")
        self.assertRegex(done.stdout, rb"^refused 5 .*\n    grid.cells\[0\] is 128; it has to be from 2 to 64.\n    Choose 2")
        done = self.call("explain", given=(self.folder / "a.report").read_bytes())
        self.assertEqual((done.returncode, done.stdout.count(b"\n\n"), done.stderr), (0, 1, b""))
        self.assertRegex(done.stdout, rb"(?s)^frame 0 .*\n\ndone 100\n    The run came to its last step")

    def test_the_cost_is_said(self):
        self.assertRegex(self.call(DECK).stderr,
                         rb"The run has 100 steps of 72 particles in 32 cells: about 1 second on one thread. "
                         rb"Its dump has 21 frames, 102 kB.\n$")
        self.assertEqual((self.folder / "a.dump").stat().st_size, 64 + 3 * 60 + 21 * (53 + 96 * 32 + 24 * 72) + 6)

    def test_faults_are_one_line(self):
        for words, status, line in (
                ("plot no.dump -o a.png", 1, "no.dump: No such file"), ("info .", 1, "\\.: Is a directory"),
                ("thin -3", 1, "thin -3: .*the number is at least 1"),
                ("energies a.toml -o a.png", 1, "a.toml: it is no report"),
                ("deck --plasma-frequency 0", 1, "--plasma-frequency 0: it is above 0 to below 2"),
                ("plot a.report -o a.png", 1, "a.report: byte 0: no dump begins so"),
                ("energies a.dump -o a.png", 1, "a.dump: it is a dump"),
                ("plot a.dump -o no/a.png", 1, "no/a.png: there is no folder no"), ("info a.report", 1, "a.report: byte 0"),
                ("explain go", 1, "no line of the program is 'go'"),
                ("deck --plasma-frequency x", 2, "--plasma-frequency: invalid float"),
                ("deck --plasma-frequency 0.1 --particles-a-cell 200", 1, "--particles-a-cell 200: .* at most 1048576"),
                ("deck", 2, "required: --plasma-frequency"), ("deck --plasma-frequency 0.1 --seed 1.5", 2, "--seed: invalid int"),
                ("fly", 2, "invalid choice: 'fly'"), ("thin 0", 1, "the number is at least 1")):
            with self.subTest(words):
                self.assertRegex(self.fault(words, status), r"^pictools.*: .*" + line + r".*\n$")

    def fault(self, words: str, status: int) -> str:
        """The line of a command that fails, which is run in this process; paths are in the folder."""
        given, out = io.TextIOWrapper(io.BytesIO((self.folder / "a.dump").read_bytes())), io.TextIOWrapper(io.BytesIO())
        with (mock.patch("sys.argv", ["pictools", *words.split()]), mock.patch("sys.stdin", given), mock.patch("sys.stdout", out),
              contextlib.redirect_stderr(io.StringIO()) as said, contextlib.chdir(self.folder)):
            try:
                ended = commands.main()
            except SystemExit as gone:
                ended = gone.code
        self.assertEqual((ended, said.getvalue().count("\n")), (status, 1), said.getvalue())
        return said.getvalue()

    def test_decks_to_other_places(self):
        """A link stays one, and what is no file is written to."""
        (self.folder / "link.toml").symlink_to("linked.toml")
        text = self.call(DECK).stdout
        self.assertEqual(self.call(DECK + " -o link.toml").returncode, 0)
        self.assertEqual(((self.folder / "linked.toml").read_bytes(), (self.folder / "link.toml").is_symlink()), (text, True))
        self.assertEqual(self.call(DECK + " -o /dev/stdout").stdout, text)

    @DRAWS
    def test_a_failed_picture_leaves_no_file(self):
        (self.folder / "old.png").write_bytes(b"old")
        for words in "plot a.dump -o bad.txt", "plot a.dump -o bad.png --panels growth --wave 0", "energies a.dump -o bad.png", (
                "plot a.dump -o old.png --panels growth --wave 0"):
            self.fault(words, 1)
        self.assertEqual([path.name for path in self.folder.iterdir() if "bad" in path.name], [])
        self.assertEqual((self.folder / "old.png").read_bytes(), b"old")

    def test_without_numpy(self):
        done = subprocess.run([sys.executable, "-S", "-m", "pictools", "info", "a.dump"], capture_output=True, cwd=self.folder,
                              env={"PYTHONPATH": str(HOME)}, timeout=600)
        self.assertEqual((done.returncode, done.stderr), (1, b"pictools: it needs numpy; on Debian it is python3-numpy\n"))

    def test_an_interrupt_is_one_line(self):
        """It leaves the whole frames that came before it, or no file where there were none."""
        dump = (self.folder / "a.dump").read_bytes()
        cut = rb"pictools: standard input: stopped by Ctrl-C; .* Kept: (\d+) whole frames, the last of step \d+\n"
        for length, line in (5000, rb"pictools: stopped by Ctrl-C\n"), (100000, cut):
            words = [sys.executable, "-m", "pictools", "thin", "2", "-o", "half.dump"]
            with subprocess.Popen(words, stdin=subprocess.PIPE, stderr=subprocess.PIPE, cwd=self.folder,
                                  env=os.environ | {"PYTHONPATH": str(HOME)},
                                  preexec_fn=lambda: signal.signal(signal.SIGINT, signal.SIG_DFL)) as running:
                running.stdin.write(dump[:length])
                running.stdin.flush()
                while not [path for path in self.folder.glob(".half*") if path.stat().st_size >= min(length, 35000) - 5000]:
                    time.sleep(0.01)
                running.send_signal(signal.SIGINT)
                self.assertEqual(running.wait(60), 130)
                found = re.fullmatch(line, running.stderr.read())
                self.assertTrue(found)
            self.assertEqual((self.folder / "half.dump").exists(), length > 5000)
            self.assertEqual(list(self.folder.glob(".half*")), [])
        self.assertEqual(len(Dump(self.folder / "half.dump", partial=True)), int(found[1]))

    def test_measure(self):
        script = str(HOME.parent / "examples" / "measure.py")
        done = self.call("--any two_stream a.dump", script)
        self.assertRegex(done.stdout, rb"wave 1: growth rate +measured +0\.\d+ +theory +0\.\d+")
        self.assertEqual(self.call("two_charges a.dump", script).returncode, 2)
        for words, reason in (
                ("two_stream a.dump", rb"decks/two_stream.toml: cells \[8, 2, 2\] in place of \[64, 2, 2\]; it isn't of the "
                                      rb"gallery's deck: cells"),
                ("upper_hybrid a.dump", rb"it isn't of the gallery's deck: cells .*--any"),
                ("--any upper_hybrid a.dump", rb"2 species"),
                ("--any langmuir a.dump", rb"2 species"), ("--any plasma_oscillation a.dump", rb"2 species"),
                ("--any gyration a.dump", rb"mean B along z 0"), ("langmuir a.report", rb"byte 0")):
            done = self.call(words, script)
            self.assertEqual((done.returncode, done.stdout), (1, b""), words)
            said = rb"^\w+: a\..* can't be measured as a dump of this deck: .*" + reason + rb".*\n$"
            self.assertRegex(done.stderr, said, words)

    def test_measures_of_their_own_decks_alone(self):
        """The header is held against that of the deck named, whatever the run's steps."""
        model = Model((HOME.parent / "decks" / "gyration.toml").read_text())
        model.steps = 32
        (self.folder / "gyration.dump").write_bytes(model.run()[1])
        gallery = Plasma(plasma_frequency=0.1, thermal_speed=0.05, wave=2, wave_speed=0.01, steps=0)
        (self.folder / "langmuir.dump").write_bytes(Model(gallery.deck().text()).run()[1])
        for name, others in (("gyration", ("e_cross_b", "light_wave", "thermal_plasma")),
                             ("langmuir", ("two_stream", "filamentation"))):
            dump = Dump(self.folder / f"{name}.dump")
            examples.test_deck(name, dump)
            for other in others:
                with self.assertRaisesRegex(ValueError, "it isn't of"):
                    examples.test_deck(other, dump)
        # Its header is that of the langmuir deck; what it lacks is B.
        with self.assertRaisesRegex(ValueError, "mean B along z is 0"):
            examples.upper_hybrid(dump)

    def test_what_can_not_be_measured(self):
        """Frames too far apart for a frequency, a wave that the noise hides, and one that is gone at once."""
        turning = np.exp(-0.1j * np.arange(0, 400, 40))
        with self.assertRaisesRegex(ValueError, "40 steps apart, and the frequency 0.1 wants 1 to 31"):
            examples.frequency(Signal(np.arange(0, 400, 40)), turning, 0.1)
        steps = np.arange(0, 400, 20)
        self.assertAlmostEqual(examples.frequency(Signal(steps), np.exp(-0.1j * steps), 0.1), 0.1)
        noise = Plasma(plasma_frequency=0.1, cells=(32, 2, 2), particles_a_cell=8, thermal_speed=0.05, wave=4, wave_speed=0.001,
                       steps=0, start="random")
        (self.folder / "hidden.dump").write_bytes(Model(noise.deck().text()).run()[1])
        done = self.call("--any langmuir hidden.dump", str(HOME.parent / "examples" / "measure.py"))
        self.assertRegex(done.stderr, rb"no wave of ex stands above the noise: wave \d+ is 1\.?\d* times as high as the next, "
                                      rb"and 3 times is clear")

    def test_measures_of_noise(self):
        """The decks that begin without a field, cut down to some particles and steps, and stronger."""
        number, short = rb" +measured +0\.\d+ +theory +0\.\d+", {"64, 2, 2": "8, 2, 2", "[4, 1, 1]\n\n[run": "[2, 1, 1]\n\n[run"}
        cuts = {
            "thermal_plasma": ({"12, 12, 12": "4, 4, 2", "[4, 4, 4]": "[2, 2, 1]", "3456": "16", "1000": "72", "= 20": "= 4"},
                               b"kinetic energy over first" + number),
            "langmuir": (short | {"[32,": "[1024,", "[64, 0": "[2048, 0", "[4096,": "[16,", "1600": "64", "= 16\n": "= 4\n"},
                         b"wave 1: frequency" + number),
            "two_stream": (short | {"[64,": "[1024,", "[128,": "[2048,", "[2048, 1,": "[16, 1,", "400": "88"},
                           b"wave 1: growth rate" + number),
        }
        for name, (changes, line) in cuts.items():
            text = (HOME.parent / "decks" / f"{name}.toml").read_text()
            for old, new in (changes | {"[-1, 8]": "[-1, 1]"}).items():
                self.assertIn(old, text, name)
                text = text.replace(old, new)
            text = text.replace("[1, 8]", "[1, 1]")
            _, dump, _ = Model(text).run()
            (self.folder / "noise.dump").write_bytes(dump)
            done = self.call(f"--any {name} noise.dump", str(HOME.parent / "examples" / "measure.py"))
            self.assertRegex(done.stdout, line, (name, done.stderr))
            for other in cuts.keys() - {name, "langmuir"}:
                done = self.call(f"--any {other} noise.dump", str(HOME.parent / "examples" / "measure.py"))
                self.assertRegex(done.stderr, rb"can't be measured as a dump of this deck: .+\n$", (name, other))

    @DRAWS
    def test_pictures(self):
        panels = "energies phase orbits field history growth spectrum --steps 100 --wave 1 --speed y --title Streams"
        for words in "plot a.dump --panels " + panels, "energies a.report":
            done = self.call(words + " -o a.png")
            self.assertEqual((done.returncode, done.stderr), (0, b""), words)
            self.assertEqual((self.folder / "a.png").read_bytes()[:4], b"\x89PNG")


if __name__ == "__main__":
    unittest.main()
