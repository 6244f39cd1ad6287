"""The script that repeats the documents' figures, on documents of some lines; the documents' own blocks are understood."""

import contextlib
import importlib.machinery
import importlib.util
import io
import sys
import tempfile
import unittest
from pathlib import Path

HOME = Path(__file__).parents[2]


def script():
    """docs/repeat, which has no ending, as a module."""
    loader = importlib.machinery.SourceFileLoader("repeat", str(HOME / "docs" / "repeat"))
    module = importlib.util.module_from_spec(importlib.util.spec_from_loader("repeat", loader))
    sys.modules["repeat"] = module
    loader.exec_module(module)
    return module


REPEAT = script()
TEXT = """# A document

Text.

    apt-get install nothing

## One

    for n in 1 2; do
        python3 -c "print('it is', $n / 8)"
    done

    it is 0.125
    it is   0.25

Text behind.

    from pictools import Dump

    print(Dump.__name__)

prints

    Dump

<!-- repeat: 2 -->
| what | value |
|---|---|
| an eighth | 0.12, +2.5e-01 |

## Two

    python3 -c 'print(3)'
"""


class Repeating(unittest.TestCase):
    def call(self, text: str, only: str = "") -> tuple[int, str]:
        with tempfile.TemporaryDirectory() as folder:
            path = Path(folder) / "a.md"
            path.write_text(text)
            before, sys.argv = sys.argv, ["repeat", "--only", only, str(path)]
            try:
                with contextlib.redirect_stdout(io.StringIO()) as out:
                    status = REPEAT.main()
            finally:
                sys.argv = before
        return status, out.getvalue()

    def test_all_there(self):
        status, out = self.call(TEXT)
        self.assertEqual(status, 0, out)
        self.assertIn("One\n    3 lines looked for, all there", out)
        self.assertIn("1 rows of a table looked for", out)
        self.assertNotIn("Two", self.call(TEXT, "one")[1])

    def test_what_differs_is_named(self):
        for old, new, what in (("it is 0.125", "it is 0.126", "it is 0.126"), ("0.12,", "0.14,", "0.14"),
                               ("    Dump\n\n<", "    Dumb\n\n<", "Dumb"), ("print(3)", "raise SystemExit(3)", "status 3")):
            status, out = self.call(TEXT.replace(old, new))
            self.assertEqual(status, 1)
            self.assertIn(what, out)
            self.assertIn("1 differ", out)

    def test_numbers_are_rounded(self):
        for number, there in (("0.25", True), ("0.2500", False), ("0.251", True), ("+2.5e-01", True), ("3", False),
                              ("-0.25", False)):
            self.assertEqual(REPEAT.printed(number, [0.2514]), there, number)

    def test_the_documents(self):
        kinds = {}
        for document in REPEAT.USUAL:
            for section in REPEAT.sections(document):
                for kind, lines in section.blocks:
                    kinds[kind] = kinds.get(kind, 0) + 1
                    if kind == "run":
                        self.assertNotIn("apt-get", "\n".join(lines))
        self.assertGreater(kinds["run"], 30)
        self.assertGreater(kinds["prints"], 15)
        self.assertGreater(kinds["table"], 20)


if __name__ == "__main__":
    unittest.main()
