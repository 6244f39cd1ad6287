"""The notebook runs as it stands: what its cells print is what stands in it, and each of its pictures is drawn. Skipped where
what runs notebooks, or the program, isn't there."""

import importlib.util
import os
import unittest
from unittest import mock

from tests.test_program import HOME, PROGRAM, needs_program

NEEDED = ("nbformat", "nbclient", "ipykernel", "matplotlib")
LACKING = [name for name in NEEDED if not importlib.util.find_spec(name)]


def told(cell) -> list[tuple[str, str]]:
    """What a cell puts out: its texts, and that it draws a picture. A picture's bytes aren't compared: they are matplotlib's."""
    found = []
    for out in cell.get("outputs", []):
        data = out.get("data", {})
        if out.get("name") != "stderr":
            found.append(("picture", "") if "image/png" in data else ("text", out.get("text") or data.get("text/plain", "")))
    return found


@needs_program
@unittest.skipIf(LACKING, f"{', '.join(LACKING)} isn't there")
class Notebook(unittest.TestCase):
    def test_it_runs_as_it_stands(self):
        import nbformat
        from nbclient import NotebookClient
        stored = nbformat.read(HOME / "docs" / "NOTEBOOK.ipynb", as_version=4)
        nbformat.validate(stored)
        fresh = nbformat.from_dict(stored)
        there = {"PYTHONPATH": str(HOME / "python"), "PIC_PROGRAM": PROGRAM, "PYDEVD_DISABLE_FILE_VALIDATION": "1"}
        with mock.patch.dict(os.environ, there):
            NotebookClient(fresh, timeout=600, record_timing=False).execute()
        for before, after in zip(stored.cells, fresh.cells):
            with self.subTest(before.source):
                self.assertEqual(told(before), told(after))
        self.assertEqual(sum(told(cell).count(("picture", "")) for cell in stored.cells), 3)


if __name__ == "__main__":
    unittest.main()
