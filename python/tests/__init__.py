"""Tests of the package: python3 -m unittest discover -s python/tests -t python, from the project's folder."""

import sys
from pathlib import Path

# The second models of the scheme and of dumps, which share no code with the program nor with the package.
sys.path[:0] = [str(Path(__file__).parents[2] / folder) for folder in ("examples", "tools")]
