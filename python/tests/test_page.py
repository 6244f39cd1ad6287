"""Pages of runs: what they say, that they need no other file, and how a browser shows one."""

import hashlib
import importlib.util
import json
import os
import shutil
import subprocess
import tempfile
import unittest
from html.parser import HTMLParser
from pathlib import Path

from compare import Model
from tests.called import called
from tests.test_program import PROGRAM

from pictools import note
from pictools.dump import Dump
from pictools.plasma import Plasma

BROWSER = shutil.which("chromium") or shutil.which("chromium-browser") or shutil.which("google-chrome")
EMPTY = ("meta", "img", "br", "link")


class Reader(HTMLParser):
    """The elements of a page, its text, and what its attributes refer to."""

    def __init__(self, text: str):
        super().__init__()
        self.open, self.seen, self.refers, self.words = [], [], [], []
        self.feed(text)

    def handle_starttag(self, tag: str, attributes: list) -> None:
        self.seen.append((tag, dict(attributes)))
        self.refers += [value for name, value in attributes if name in ("src", "href")]
        if tag not in EMPTY:
            self.open.append(tag)

    def handle_endtag(self, tag: str) -> None:
        assert self.open.pop() == tag, tag

    def handle_data(self, data: str) -> None:
        self.words.append(data)

    @property
    def text(self) -> str:
        return " ".join("\n".join(self.words).split())


class Pages(unittest.TestCase):
    @classmethod
    def setUpClass(cls):
        if not importlib.util.find_spec("matplotlib"):
            raise unittest.SkipTest("matplotlib isn't there")
        folder = tempfile.TemporaryDirectory()
        cls.addClassCleanup(folder.cleanup)
        cls.folder = Path(folder.name)
        plasma = Plasma(plasma_frequency=0.1, cells=(8, 2, 2), particles_a_cell=2, drift=0.1, wave=1, wave_speed=0.003, steps=60,
                        every=5)
        cls.deck = plasma.deck().text()
        (cls.folder / "a.toml").write_text(cls.deck)
        (cls.folder / "a.dump").write_bytes(Model(cls.deck).run()[1])
        (cls.folder / "other.toml").write_text(cls.deck.replace("charge = -1", "charge = -2"))
        (cls.folder / "few.toml").write_text(cls.deck.replace("count = [8, 1, 1]", "count = [4, 1, 1]"))

    def page(self, words: str) -> Reader:
        status, _, said = called(f"page {words} -o a.html --size 4 3 --dpi 50", self.folder)
        self.assertEqual(status, 0, said)
        reader = Reader((self.folder / "a.html").read_text(encoding="utf-8"))
        self.assertEqual(reader.open, [])
        return reader

    def test_what_it_says(self):
        page = self.page("a.dump --deck a.toml --panels energies growth --program no")
        for words in ("The run came to its last step, 60", "8 x 2 x 2, 32 in all", "species forward", "plasma frequency",
                      hashlib.sha256((self.folder / "a.dump").read_bytes()).hexdigest(), "step kinetic electric magnetic all",
                      "At the end all are 1.", "not verified", "./pic run < a.toml > a.dump", "./pic verify < a.dump",
                      "python3 -m pictools deck --plasma-frequency 0.1 --drift 0.1"):
            self.assertIn(words, page.text)
        images = [attributes for tag, attributes in page.seen if tag == "img"]
        self.assertEqual([image["alt"] for image in images], ["Energies, in one unit", "Ex: growth along x, mean over y and z"])

    def test_it_needs_no_other_file(self):
        page = self.page("a.dump --deck a.toml --panels phase --program no")
        self.assertEqual([reference.partition(";")[0] for reference in page.refers], ["data:image/png", "data:application/toml"])
        text = (self.folder / "a.html").read_text()
        for word in "url(", "@import", "<script", "<link", "http:", "https:":
            self.assertNotIn(word, text)

    def test_a_movie_in_it(self):
        page = self.page("a.dump --panels phase --program no --movie --steps 0 30 --title Streams")
        self.assertEqual(len(page.refers), 2)
        self.assertRegex(page.refers[1], "^data:(video/mp4|image/gif);base64,")
        self.assertIn("2 frames, steps 0 to 30, on one scale", page.text)
        self.assertIn(("h1", {}), page.seen)
        self.assertIn("Streams", page.text)

    def test_the_deck_of_a_note(self):
        text, dump = self.deck.encode(), Dump(self.folder / "a.dump")
        kept = note.begun("elsewhere/b.toml", text, "/bin/true", 2) | {"first": note.line_of(dump[0])}
        (self.folder / "a.dump.json").write_text(json.dumps(kept))
        self.addCleanup((self.folder / "a.dump.json").unlink)
        page = self.page("a.dump --panels phase --program no")
        self.assertIn("It ran on 2 threads, by true; SHA-256", page.text)
        self.assertIn("./pic run < b.toml > a.dump", page.text)
        self.assertIn("b.toml", [attributes.get("download") for tag, attributes in page.seen if tag == "a"])
        kept = note.goes_on(note.goes_on(kept, kept | {"end": "done 20"}), kept | {"earlier calls": [{"end": "done 20"}]})
        (self.folder / "a.dump.json").write_text(json.dumps(kept))
        page = self.page("a.dump --panels phase --program no")
        self.assertIn("It went on behind 2 earlier calls, which left: done 20, a lost end.", page.text)

    def test_refusals(self):
        for words, line in (("a.dump --deck other.toml -o b.html", r"--deck other.toml: it isn't the deck of a.dump: species\[0\]"
                                                                   r".charge is -2 in place of -1"),
                            ("a.dump --deck a.dump -o b.html", "it isn't the deck of a.dump: "),
                            ("a.dump --deck few.toml -o b.html", r"the number of particles of species\[2\] is 4 in place of 8"),
                            ("a.dump -o b.txt", "--out b.txt: a page's name ends in .html")):
            status, _, said = called(f"page {words} --program no", self.folder)
            self.assertEqual(status, 1)
            self.assertRegex(said, rf"^pictools: .*{line}.*\n$")
        self.assertEqual(list(self.folder.glob("*b.*")), [])

    def test_a_driven_plasma_that_is_displaced(self):
        """Its page says loops, filter and ways in words, and takes no deck with others."""
        deck = Plasma(plasma_frequency=0.2, cells=(8, 2, 2), particles_a_cell=2, displace=0.25, antenna=0.01, filter=1, steps=2, every=1).deck().text()
        (self.folder / "d.toml").write_text(deck)
        (self.folder / "d.dump").write_bytes(Model(deck).run()[1])
        page = self.page("d.dump --deck d.toml --panels energies --program no")
        for words in ("each ion starts -0.25, 0, 0 cells along x, y and z from its electron", "loops 0 to 3 around the faces of the cells",
                      "driven by these loops from outside", "the current is smoothed"):
            self.assertIn(words, page.text)
        for old, new, reason in (("filter = 1", "filter = 0", "run.filter is 0 in place of 1"), ("cell = [0, 0, 1]", "cell = [1, 0, 1]", r"drive\[2\].cell is")):
            (self.folder / "another.toml").write_text(deck.replace(old, new))
            status, _, said = called("page d.dump --deck another.toml -o b.html --program no", self.folder)
            self.assertEqual(status, 1)
            self.assertRegex(said, reason)

    @unittest.skipUnless(PROGRAM or os.environ.get("PIC_PROGRAM"), "no program was built of these sources")
    def test_verdicts(self):
        whole = (self.folder / "a.dump").read_bytes()
        self.assertIn("verified 13 frames The dump is of the format, and each of its 13 frames meets Gauss's law.",
                      self.page(f"a.dump --panels phase --program {PROGRAM}").text)
        (self.folder / "cut.dump").write_bytes(whole[:-5000])
        page = self.page(f"cut.dump --panels phase --program {PROGRAM}")
        self.assertIn(f"bad dump {len(whole) - 5000} 9", page.text)
        self.assertIn("It has no end: byte", page.text)
        self.assertEqual([attributes["class"] for tag, attributes in page.seen if tag == "p" and "class" in attributes], ["bad"])

    @unittest.skipUnless(BROWSER, "chromium isn't there")
    def test_a_browser_shows_it(self):
        """The pictures' own colours are on the screen: they were read and drawn."""
        from PIL import Image
        self.page("a.dump --panels phase energies --program no")
        words = [BROWSER, "--headless", "--no-sandbox", "--disable-gpu", "--hide-scrollbars", f"--user-data-dir={self.folder}/kept",
                 "--window-size=800,1600", "--screenshot=a.png", f"file://{self.folder}/a.html"]
        subprocess.run(words, cwd=self.folder, capture_output=True, check=True, timeout=300)
        with Image.open(self.folder / "a.png") as shot:
            colours = dict((colour[:3], count) for count, colour in shot.convert("RGB").getcolors(2**24))
        for colour in (0x0b, 0x5f, 0xa5), (0xd1, 0x49, 0x5b), (0xc9, 0x8a, 0x1b):
            self.assertGreater(colours.get(colour, 0), 20)


if __name__ == "__main__":
    unittest.main()
