"""The release: what its manifest says of the released program, and what `./pic` answers by it where nothing was built, in a copy of this
folder without the toolchain. No other test runs the released program."""

import hashlib
import os
import re
import shutil
import subprocess
import tempfile
import unittest
from pathlib import Path

HOME = Path(__file__).parents[2]
RELEASE = HOME / "release"
PROGRAM = RELEASE / "pic-x86_64-linux"
FIELDS = dict(line.split(" ", 1) for line in (RELEASE / "MANIFEST").read_text().splitlines())
PLAIN = {"PATH": "/usr/bin:/bin"}
NOTE = rb"pic: [^\n]*\n"


def call(folder: Path, *words: str, given: bytes = b"", **more: str) -> tuple[int, bytes, bytes]:
    """Exit status, standard output and standard error of ./pic there, in an environment of its own."""
    done = subprocess.run([folder / "pic", *words], input=given, capture_output=True, timeout=120, env=PLAIN | more, cwd="/")
    return done.returncode, done.stdout, done.stderr


def printed(opening: str) -> bytes:
    """What README prints in the first block behind a line with these words."""
    return (HOME / "README.md").read_text().partition(opening)[2].split("```\n")[1].encode()


class Manifest(unittest.TestCase):
    def test_fields(self):
        self.assertEqual(list(FIELDS), ["version", "commit", "toolchain", "sources", "system", "program", "bytes", "sha256"])
        for name, form in (("version", r"\d+\.\d+(\.\d+)?"), ("commit", "[0-9a-f]{40}"), ("sources", "[0-9a-f]{64}"),
                           ("toolchain", r"rattle-kit-\S+ logic [0-9a-f]{16}")):
            with self.subTest(name):
                self.assertRegex(FIELDS[name], f"^{form}$")

    def test_program(self):
        program = PROGRAM.read_bytes()
        self.assertTrue(os.access(PROGRAM, os.X_OK))
        self.assertEqual((FIELDS["program"], FIELDS["bytes"]), (PROGRAM.name, str(len(program))))
        self.assertEqual(FIELDS["sha256"], hashlib.sha256(program).hexdigest())
        self.assertEqual((RELEASE / "SHA256SUMS").read_text(), f"{FIELDS['sha256']}  {PROGRAM.name}\n")
        asked = {tuple(map(int, it.split(b"."))) for it in re.findall(rb"GLIBC_([0-9]+(?:\.[0-9]+)*)", program)}
        self.assertEqual(FIELDS["system"], "Linux x86_64 GLIBC_" + ".".join(map(str, max(asked))))

    def test_sources_of_its_commit(self):
        git = ["git", "-C", HOME]
        if subprocess.run([*git, "cat-file", "-e", f"{FIELDS['commit']}^{{commit}}"], capture_output=True).returncode:
            self.skipTest("this clone hasn't the commit of the release")
        with tempfile.TemporaryDirectory() as folder:
            files = subprocess.check_output([*git, "archive", FIELDS["commit"], "crates", "crates.txt", "HANDLES"])
            subprocess.run(["tar", "-x", "-C", folder], input=files, check=True)
            self.assertEqual(call(HOME, "sources", folder), (0, FIELDS["sources"].encode() + b"\n", b""))


class Copy(unittest.TestCase):
    """A copy of this folder in which nothing is built."""

    def setUp(self):
        room = tempfile.TemporaryDirectory()
        self.addCleanup(room.cleanup)
        self.copy = Path(room.name) / "a copy"
        self.copy.mkdir()
        for name in ("pic", "crates.txt", "HANDLES"):
            shutil.copy2(HOME / name, self.copy)
        for name in ("release", "crates"):
            shutil.copytree(HOME / name, self.copy / name, ignore=shutil.ignore_patterns("out", "must-fail"))
        self.deck = (HOME / "decks" / "two_charges.toml").read_bytes()
        self.source = self.copy / "crates" / "pic_prog" / "src" / "main.rt"

    def sources(self) -> str:
        return call(self.copy, "sources")[1].decode().strip()

    def test_answers_as_readme_prints(self):
        quiet = {"PIC_QUIET": "1"}
        self.assertEqual(call(self.copy, "demo", "7", **quiet), (0, printed("The demonstration prints"), b""))
        status, dump, report = call(self.copy, "run", given=self.deck, **quiet)
        self.assertEqual((status, len(dump), report), (0, 12680, printed("The run of `decks/two_charges.toml` prints")))
        self.assertEqual(call(self.copy, "verify", given=dump, **quiet), (0, b"verified 2 frames\n", b""))
        self.assertEqual(call(self.copy, "check", given=self.deck, **quiet), (0, b"ok 2 particles\n", b""))
        antenna = (HOME / "decks" / "antenna.toml").read_bytes()
        status, lines, report = call(self.copy, "probe", given=antenna, **quiet)
        self.assertEqual((status, report, lines.splitlines()[-1].split()[0]), (0, b"", b"done"))

    def test_a_line_where_the_sources_are_others(self):
        with self.source.open("a") as file:
            file.write("// another line\n")
        status, out, said = call(self.copy, "check", given=self.deck)
        self.assertEqual((status, out), (0, b"ok 2 particles\n"))
        self.assertRegex(said, rb"\A" + NOTE + rb"\Z")
        (self.copy / "release" / "MANIFEST").write_text(f"sources {self.sources()}\n")
        self.assertEqual(call(self.copy, "check", given=self.deck), (0, b"ok 2 particles\n", b""))

    def test_what_counts_as_a_source(self):
        first, prog = self.sources(), self.copy / "crates" / "pic_prog"
        (prog / "out").mkdir()
        for stray in (prog / "src" / ".main.rt.swp", prog / "src" / ".#main.rt", prog / "src" / "main.rt~", prog / "out" / "x.rt",
                      prog / "notes.txt", self.copy / "crates" / "pic_laws" / "src" / "stray.rt", self.copy / "crates" / "stray"):
            stray.write_text("stray")
        self.assertEqual(self.sources(), first)
        with (self.copy / "crates.txt").open("a") as file:
            file.write("pic_new_tests: pic_num\n")
        self.assertEqual(self.sources(), first)
        (prog / "src" / "stray.rt").write_text("stray")
        self.assertNotEqual(self.sources(), first)

    def test_built_goes_before_released(self):
        status, out, said = call(self.copy, "built")
        self.assertEqual((status, out), (70, b""))
        self.assertRegex(said, rb"\A" + NOTE + rb"\Z")
        self.assertEqual(call(self.copy, "build")[0], 70)
        built = self.copy / "out" / f"pic-{self.sources()[:16]}"
        built.parent.mkdir()
        shutil.copy2("/bin/echo", built)
        self.assertEqual(call(self.copy, "built"), (0, f"{built}\n".encode(), b""))
        self.assertEqual(call(self.copy, "demo", "7"), (0, b"demo 7\n", b""))
        self.assertEqual(call(self.copy, "check", given=self.deck, PIC_PROGRAM=str(PROGRAM)), (0, b"ok 2 particles\n", b""))
        self.assertEqual(call(self.copy, "built", PIC_PROGRAM="/nowhere")[0], 70)


if __name__ == "__main__":
    unittest.main()
