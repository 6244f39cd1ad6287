"""docs/PROMISES.md: each clause that a row names for a call is a clause of that call, and each public function is named."""

import re
import unittest
from pathlib import Path

HOME = Path(__file__).parents[2]
TEXT = (HOME / "docs" / "PROMISES.md").read_text()
OWNER = re.compile(r"^(?:impl|pub trait)(?:<.*?>)? (?:[\w<>, ']+ for )?(\w+)")
FUNCTION = re.compile(r"^(\s*)(?:pub(?:\(crate\))? )?fn (\w+)")
# A method's promises about what is lent stand in its impl as ghost items.
CLAUSE = re.compile(r"^\s*(?:ensures\*? (\w+) \{|ghost (\w+) = )")
NAMES = re.compile(r"`([\w:]+)`")
# Names of calls, and behind a colon those of their clauses.
CITED = re.compile(r"((?:`[\w:]+`(?:, | of )?)+): ((?:`\w+`(?:, )?)+)")


def clauses() -> dict[str, set[str]]:
    """The names of the clauses of each function; a method stands by its name, behind its type's, and with all others of its type."""
    found: dict[str, set[str]] = {}
    for path in HOME.glob("crates/*/src/*.rt"):
        owner, keys, waiting = "", [], set()
        for line in path.read_text().splitlines():
            if owned := OWNER.match(line):
                owner, keys, waiting = owned[1], [], set()
            if function := FUNCTION.match(line):
                keys = [function[2], f"{owner}::{function[2]}", owner] if function[1] else [function[2]]
                for key in keys:
                    found.setdefault(key, set()).update(waiting)
            if clause := CLAUSE.match(line):
                if clause[2]:
                    waiting.add(clause[2])
                for key in keys:
                    found[key].add(clause[1] or clause[2])
    return found


def cells(row: str) -> list[str]:
    return [re.sub(r" \([^()]*\)", "", cell).strip() for cell in re.split(r"(?<!\\)\|", row)[1:-1]]


class Promises(unittest.TestCase):
    @classmethod
    def setUpClass(cls):
        cls.clauses = clauses()
        cls.rows = [cells(row) for row in re.findall(r"^\|.*\|$", TEXT, re.MULTILINE)]

    def hold(self, calls: list[str], names: list[str], row: list[str]):
        """Each name is a clause of one of these calls, or a law of its own."""
        known = [self.clauses.get(call) or self.clauses.get(call.split("::")[-1], set()) for call in calls]
        for name in names:
            with self.subTest(row=row[0][:60], calls=calls, clause=name):
                self.assertTrue(name in self.clauses or any(name in of for of in known))

    def test_clauses_of_promises(self):
        seen = 0
        for row in (row for row in self.rows if len(row) == 2):
            for calls, names in CITED.findall(row[1]):
                calls = [call for call in NAMES.findall(calls) if not call.startswith("pic_")]
                self.hold(calls, NAMES.findall(names), row)
                seen += 1
        self.assertGreater(seen, 100)

    def test_clauses_of_answers(self):
        seen, calls = 0, []
        for row in (row for row in self.rows if len(row) == 5):
            several = ".." in row[0] or (not row[0] and not calls)
            calls = [] if several else [call for call in NAMES.findall(row[0]) if not call.startswith("pic_")] or calls
            if calls:
                self.hold(calls, NAMES.findall(row[4]), row)
                seen += 1
        self.assertGreater(seen, 100)

    def test_each_public_function_is_named(self):
        named = set(re.findall(r"\w+", TEXT))
        families = tuple(re.findall(r"`([a-z]+_)\.\.`", TEXT))
        for lib in (path for path in HOME.glob("crates/*/src/lib.rt") if not path.parts[-3].endswith("_tests")):
            for names in re.findall(r"^pub use [\w:]+::(?:(\w+)|\{([^}]*)\});", lib.read_text(), re.MULTILINE):
                for name in re.findall(r"\b[a-z]\w*", " ".join(names)):
                    if not name.startswith(families):
                        with self.subTest(crate=lib.parts[-3], function=name):
                            self.assertIn(name, named)


if __name__ == "__main__":
    unittest.main()
