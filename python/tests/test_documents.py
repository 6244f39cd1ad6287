"""The documents: each link, path, crate, section and name of the code that one has is there; the front page is short, and rows can be
read."""

import re
import unittest
from pathlib import Path

HOME = Path(__file__).parents[2]
DOCUMENTS = sorted([*HOME.glob("*.md"), *HOME.glob("docs/*.md"), *HOME.glob("bench/*.md")])
# What changed once may name what has gone since.
PRESENT = [page for page in DOCUMENTS if page.name != "CHANGELOG.md"]
# These name types, functions, clauses, laws and tests.
OF_THE_CODE = ("ARCHITECTURE", "DECISIONS", "GLOSSARY", "PROMISES", "PROOFS", "SCHEME", "TESTED", "WRONG_BODIES")
LINK = re.compile(r"\]\(([^)#\s]+)(?:#[^)]*)?\)")
CODE = re.compile(r"`([^`\n]+)`")
PATH = re.compile(r"(?:crates|docs|bench|tools|python|examples|decks|release|\.ci)/[\w./*-]*|[A-Z]+\.(?:md|cff)")
# A document in one of the two ways of naming it, and then titles of its sections.
CITED = re.compile(r"(?:`((?:docs/|bench/)?\w+\.md)`|\]\(((?:docs/|bench/)?\w+\.md)\))((?:,? \(?\"[^\"]+\"\)?)+)")


def text_of(page: Path) -> str:
    """A document as running text, without its blocks of code."""
    return re.sub(r"\s+", " ", re.sub(r"```.*?```", "", page.read_text(), flags=re.DOTALL))


class Documents(unittest.TestCase):
    def test_links_lead_to_files(self):
        for page in DOCUMENTS:
            for target in LINK.findall(text_of(page)):
                if not re.match(r"\w+:", target):
                    with self.subTest(page=page.name, link=target):
                        self.assertTrue((page.parent / target).exists())

    def test_paths_are_there(self):
        for page in PRESENT:
            for path in filter(PATH.fullmatch, CODE.findall(text_of(page))):
                if not re.search(r"\b(?:[A-Z]|NAME|CRATE)\b(?!\.md)", path):
                    with self.subTest(page=page.name, path=path):
                        self.assertTrue(list(HOME.glob(path)))

    def test_crates_are_there(self):
        there = {line.split(":")[0] for line in (HOME / "crates.txt").read_text().splitlines()}
        for page in (page for page in PRESENT if page.name != "INDEX.md"):
            for name in sorted(set(re.findall(r"\bpic_[a-z_]+\b(?!\.\w|-)", page.read_text()))):
                with self.subTest(page=page.name, crate=name):
                    self.assertTrue(name in there)

    def test_names_are_there(self):
        """What stands in marks of code and looks like a name is a name of the sources or their files."""
        files = [path for form in ("crates/*/src/*.rt", "crates/*/specs/*.antt", "crates/*/proofs/**/*.antt", "tools/*", "decks/*",
                                   "python/*/*.py", "pic", "crates.txt") for path in HOME.glob(form) if path.is_file()]
        there = {path.stem for path in HOME.glob("crates/*/must-fail/*.edit")} | {path.stem for path in files}
        for path in files:
            there.update(re.findall(r"[A-Za-z_]\w*(?:-\w+)*", path.read_text()))
        for page in (HOME / "docs" / f"{name}.md" for name in OF_THE_CODE):
            for name in sorted(set(CODE.findall(text_of(page)))):
                if re.fullmatch(r"[A-Za-z_][\w-]*(?:::\w+)*", name):
                    with self.subTest(page=page.name, name=name):
                        self.assertTrue(there.issuperset(name.split("::")))

    def test_modules_are_there(self):
        """Lists of what has to be read: a crate, and modules of its definitions."""
        text = text_of(HOME / "docs" / "PROMISES.md")
        for crate, modules in re.findall(r"`(pic_\w+)`: ((?:[A-Z]\w+(?: \(`\w+`\))?(?:, )?)+)", text):
            for name in re.findall(r"[A-Z]\w+", modules):
                with self.subTest(crate=crate, module=name):
                    self.assertTrue((HOME / "crates" / crate / "specs" / f"{name}.antt").exists())

    def test_sections_that_are_cited_are_there(self):
        for page in PRESENT:
            for one, other, titles in CITED.findall(text_of(page)):
                headings = re.findall(r"^#+ (.*)$", (HOME / (one or other)).read_text(), re.MULTILINE)
                for title in re.findall(r"\"([^\"]+)\"", titles):
                    with self.subTest(page=page.name, document=one or other, section=title):
                        self.assertIn(title.rstrip(".,"), headings)

    def test_the_front_page_is_short(self):
        self.assertLessEqual(len((HOME / "README.md").read_text().split()), 1200)
        self.assertLessEqual(len((HOME / "docs" / "ARCHITECTURE.md").read_text().splitlines()), 150)

    def test_rows_can_be_read(self):
        for page in PRESENT:
            for row in re.findall(r"^\|.*\|$", page.read_text(), re.MULTILINE):
                with self.subTest(page=page.name, row=row[:60]):
                    self.assertLess(len(row), 500)

    def test_every_document_is_known_to_readme(self):
        known = (HOME / "README.md").read_text()
        for page in HOME.glob("docs/*.md"):
            with self.subTest(page=page.name):
                self.assertIn(f"docs/{page.name}", known)

    def test_as_many_edits_as_are_told(self):
        told = re.search(r"There are (\d+) edits", (HOME / "docs" / "WRONG_BODIES.md").read_text())[1]
        self.assertEqual(int(told), len(list(HOME.glob("crates/*/must-fail/*.edit"))))

    def test_the_version_is_that_of_the_release(self):
        version = re.search(r"^version (.*)$", (HOME / "release" / "MANIFEST").read_text(), re.MULTILINE)[1]
        self.assertIn(f'\nversion: "{version}"\n', (HOME / "CITATION.cff").read_text())
        self.assertIn(f"\n## {version}\n", (HOME / "CHANGELOG.md").read_text())
        self.assertIn(f"\nThe released program is {version}.\n", (HOME / "README.md").read_text())


if __name__ == "__main__":
    unittest.main()
