"""docs/TOOLS.md as it stands there: its commands and its code are run, and print what it says, with the tools that are there."""

import contextlib
import importlib.util
import io
import os
import tempfile
import unittest
from pathlib import Path

from tests.test_program import PROGRAM
from tests.test_repeat import REPEAT

# What each section needs; a movie and a page take longer, and have tests of their own.
NEEDS = {"xarray": ("xarray", "dask"), "pandas": ("pandas",), "ParaView and VisIt": ("vtkmodules",), "yt": ("yt", "xarray")}
ELSEWHERE = {"A movie", "A page"}
RUN = "Other people's tools"


@unittest.skipUnless(PROGRAM or os.environ.get("PIC_PROGRAM"), "no program was built of these sources")
class Tools(unittest.TestCase):
    @classmethod
    def setUpClass(cls):
        folder = tempfile.TemporaryDirectory()
        cls.addClassCleanup(folder.cleanup)
        cls.sections = {section.title: section for section in REPEAT.sections("docs/TOOLS.md")}
        cls.repeat = REPEAT.Repeat(Path(folder.name), PROGRAM)
        assert not cls.run_section(RUN)

    @classmethod
    def run_section(cls, title: str) -> str:
        """Runs a section. What it says where something differs."""
        before = cls.repeat.wrong
        with contextlib.redirect_stdout(io.StringIO()) as said:
            cls.repeat.section(cls.sections[title])
        return said.getvalue() if cls.repeat.wrong > before else ""

    def test_each_section(self):
        self.assertEqual(self.sections.keys(), NEEDS.keys() | ELSEWHERE | {RUN})
        for title, needed in NEEDS.items():
            missing = [name for name in needed if not importlib.util.find_spec(name)]
            with self.subTest(title):
                if missing:
                    self.skipTest(f"{missing[0]} isn't there")
                self.assertEqual(self.run_section(title), "")


if __name__ == "__main__":
    unittest.main()
