"""Movies: as many pictures as frames, on one scale, by ffmpeg or without it."""

import importlib.util
import shutil
import subprocess
import tempfile
import unittest
from pathlib import Path
from unittest import mock

import numpy as np
from tests import made
from tests.called import called

from pictools import views
from pictools.dump import Dump

if importlib.util.find_spec("matplotlib"):
    from PIL import Image

    from pictools import movie

CELLS, STEPS = (16, 8, 2), np.arange(0, 24, 4)


def grown(number: int) -> tuple[np.ndarray, np.ndarray]:
    """Particles whose speeds spread as the frames go by."""
    dice = np.random.default_rng(2)
    return dice.random((60, 3)) * CELLS, dice.normal(0, 0.01 * (1 + number), (60, 3))


class Movies(unittest.TestCase):
    @classmethod
    def setUpClass(cls):
        folder = tempfile.TemporaryDirectory()
        cls.addClassCleanup(folder.cleanup)
        cls.folder = Path(folder.name)
        field = made.waves(CELLS, STEPS, "ey", [((1, 1, 0), 0.001 * np.exp(0.1 * STEPS))])
        (cls.folder / "a.dump").write_bytes(made.dump(CELLS, field, every=4, particles=grown, kinds=[("electron", -1, 60)]))
        cls.dump = Dump(cls.folder / "a.dump")

    def setUp(self):
        if not importlib.util.find_spec("matplotlib"):
            self.skipTest("matplotlib isn't there")

    def call(self, words: str, status: int = 0) -> tuple[str, str]:
        """What a command says on both outputs."""
        ended, *outputs = called("movie " + words, self.folder)
        self.assertEqual(ended, status, outputs)
        return tuple(outputs)

    def test_one_scale_for_all_frames(self):
        made_of = movie.Movie(self.dump, ["field", "phase", "energies", "history"], views.view_of(component="ey", letters=True))
        field, phase, energies, history = made_of.places
        scales, moments = set(), []
        for frame in made_of.frames:
            made_of.turn(frame)
            scales.add((field.get_images()[0].get_clim(), phase.get_ylim(), phase.get_xlim(), energies.get_ylim()))
            self.assertIn(f"step {STEPS[frame]}", field.get_title())
            self.assertEqual([text.get_text() for text in phase.texts], ["(b)"])
            moments.append((energies.get_lines()[-1].get_xdata()[0], history.get_lines()[-1].get_ydata()[0]))
        self.assertEqual(len(scales), 1)
        (_, top), (low, high), *_ = scales.pop()
        strongest = views.strength(self.dump.header, "ey", views.STEPS, self.dump.field("e", 1)[-1, 0])[0]
        self.assertAlmostEqual(top, abs(strongest).max())
        speeds = np.stack([frame.particles["velocity"][:, 0] for frame in self.dump]) / 2**24
        self.assertTrue(speeds.min() - 0.05 < low < speeds.min() and speeds.max() < high < speeds.max() + 0.05)
        self.assertEqual(moments, [(step, step) for step in STEPS])

    def test_one_scale_of_densities(self):
        with mock.patch("pictools.panels.MOST_DOTS", 10):
            made_of = movie.Movie(self.dump, ["phase"], views.view_of())
            ends = set()
            for frame in made_of.frames:
                made_of.turn(frame)
                ends.add((made_of.places[0].collections[0].get_clim(), made_of.places[0].get_ylim()))
        self.assertEqual(len(ends), 1)

    @unittest.skipUnless(shutil.which("ffmpeg") and shutil.which("ffprobe"), "ffmpeg isn't there")
    def test_mp4(self):
        said, complained = self.call("a.dump -o a.mp4 --rate 5 --dpi 50")
        self.assertEqual((said.splitlines()[-1], "ffmpeg" in complained), ("6 pictures in a.mp4", False))
        found = subprocess.run(["ffprobe", "-v", "error", "-count_frames", "-show_entries",
                                "stream=codec_name,pix_fmt,nb_read_frames,r_frame_rate", "-of", "csv=p=0", "a.mp4"],
                               cwd=self.folder, capture_output=True, text=True, check=True).stdout
        self.assertEqual(found.strip(), "h264,yuv420p,5/1,6")

    def test_gif(self):
        self.call("a.dump -o a.gif --panels field --component ey --steps 0 12 20 --dpi 50")
        with Image.open(self.folder / "a.gif") as image:
            self.assertEqual((image.n_frames, image.info["duration"], image.info["loop"]), (3, 80, 0))

    def test_without_ffmpeg(self):
        with mock.patch.object(movie.FFMpegWriter, "isAvailable", return_value=False):
            said, complained = self.call("a.dump -o b.mp4 --panels phase --steps 0 8")
        self.assertEqual(said, "2 pictures in b.gif\n")
        self.assertIn("pictools: b.mp4 needs ffmpeg, on Debian ffmpeg; in its place there is b.gif\n", complained)
        self.assertFalse((self.folder / "b.mp4").exists())

    def test_a_fault_of_ffmpeg_is_one_line(self):
        with mock.patch.dict("matplotlib.rcParams", {"animation.ffmpeg_path": "false"}), mock.patch.object(
                movie.FFMpegWriter, "isAvailable", return_value=True):
            _, complained = self.call("a.dump -o c.mp4 --panels phase", 1)
        self.assertRegex(complained, r"(?m)^pictools: .*ffmpeg couldn't write it.*\n$")
        self.assertEqual(list(self.folder.glob("*c*.mp4")), [])

    def test_refusals(self):
        for words, line in (("-o a.avi", "--out a.avi: a movie's name ends in .mp4 or .gif"),
                            ("-o d.gif --panels energies", "--panels energies: none of them moves; phase and field do"),
                            ("-o d.gif --panels field --steps 99", "--steps 99: the dump has the steps 0 to 20")):
            self.assertRegex(self.call("a.dump " + words, 1)[1], rf"(?m)^pictools: {line}.*\n$")
        self.assertEqual(list(self.folder.glob("*d.gif")), [])


if __name__ == "__main__":
    unittest.main()
