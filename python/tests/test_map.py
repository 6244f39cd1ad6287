"""The index of the crates, docs/INDEX.md, and the drawing of their layers are those of the crates."""

import subprocess
import sys
import unittest
from pathlib import Path

HOME = Path(__file__).parents[2]


class TestMap(unittest.TestCase):
    def test_each_crate_module_and_name_has_its_place(self):
        held = subprocess.run([sys.executable, HOME / "tools" / "map.py", "--check"], capture_output=True, text=True)
        self.assertEqual(held.returncode, 0, held.stdout + held.stderr)


if __name__ == "__main__":
    unittest.main()
