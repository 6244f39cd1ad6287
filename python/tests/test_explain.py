"""What the program's lines mean: each line that docs/FORMATS.md has is explained, and each key and cause that it has is known."""

import re
import unittest
from pathlib import Path

from pictools.explain import all_lines, explain
from pictools.meanings import ADVICE, CAUSES, KEYS, STATUSES
from tests import test_displace, test_drive, test_probe

FORMATS = (Path(__file__).parents[2] / "docs" / "FORMATS.md").read_text(encoding="utf-8")

LINES = (
    ("refused 1 text", "tomllib"),
    ("refused 2 unknown grid.cell", "cells, tiles"),
    ("refused 2 unknown ", "Take it out|there can be: version, grid"),
    ("refused 2 unknown species[3].lattice", "just one of"),
    ("refused 2 unknown species[3].colour", "name, charge, mass, kick, turn"),
    ("refused 3 missing run.every", "from 1 to 1000000"),
    ("refused 3 missing species[0].points", "lattice, random, pair or displace"),
    ("refused 3 missing species[0].random.spread", "1/16 cell"),
    ("refused 4 kind grid.cells", "three whole numbers.*from 2 to 64"),
    ("refused 4 kind species[1].name", "a text"),
    ("refused 4 kind field.edges[17][4]", "0.5 or 1e3 is none"),
    ("refused 4 kind scale.e_force", r"multiplier \[n, k\]"),
    ("refused 5 limit grid.cells[0] 128 2 64", "from 2 to 64"),
    ("refused 5 limit grid.tiles[1] 3 0 0", "divide.*--tiles-y"),
    ("refused 5 limit grid.tiles[1] 9 1 4", "at least 2 cells.*--tiles-y"),
    ("refused 5 limit grid.tiles 1000 1 512", "512 tiles in all"),
    ("refused 5 limit run.every 0 1 1000000", "multiples"), ("refused 5 limit run.steps 1000001 0 1000000", "at the last step"),
    ("refused 5 limit run.steps 0 1 1000000", "in all, not so many more"),
    ("refused 5 limit scale.e_force 99999999999999 -17592186044416 17592186044416", "as particles feel it"),
    ("refused 5 limit scale.e_force[1] 63 0 62", "n / 2\\^k"),
    ("refused 5 limit species[1].mass -1836 1 65536", "kinetic energy"),
    ("refused 5 limit species[0] 1048577 0 1048576", "particles so far"),
    ("refused 5 limit species 17 0 16", "16 species"),
    ("refused 5 limit species[0].random.spread[2] 1048577 0 1048576", "1/16 cell a step.*--start quiet"),
    ("refused 5 limit species[0].pair.drift[2] 8388609 -8388608 8388608", "half a cell"),
    ("refused 5 limit species[0].points[7][0] 262144 0 262143", "4096 times"),
    ("refused 5 limit run.filter 2 0 1", "binomial filter.*no other"), ("refused 4 kind run.filter", "smooths the current, 0 or 1"),
    ("refused 2 unknown run.filter", "key of version 2.*6 more in k"), ("refused 2 unknown run.filters", "steps, every, filter"),
    ("refused 2 unknown drive", "version = 2 and grid.sub = 12"), ("refused 2 unknown probe", "key of version 2"),
    ("refused 2 unknown species[1].displace", "just one of.*version 2 alone"), ("refused 2 unknown probe.place", "places, ids"),
    ("refused 3 missing drive[0].wave", "1 to 64 whole numbers"), ("refused 4 kind probe.places[3]", "0.5 or 1e3 is none"),
    ("refused 5 limit species[1].displace.by[0] 4097 -4096 4096", "at most a cell"),
    ("refused 5 limit species[1].charge -2 -1 -1", "displaced from another"), ("refused 5 limit drive 17 0 16", "at most 16 loops"),
    ("refused 5 limit drive[0].wave 0 1 64", "how many numbers"), ("refused 5 limit drive[0].axis 3 0 2", "Axes are 0, 1 and 2"),
    ("refused 5 limit drive[0].cell[1] 4 0 3", "cells count from 0"), ("refused 5 limit probe.places[0][0] 2 0 1", "0 for E and 1 for B"),
    ("refused 5 limit drive[0].wave[7] 1152921504606846977 -1152921504606846976 1152921504606846976", "unit of E"),
    ("refused 5 limit probe.ids[0] 2 0 1", "from 0 through all species"), ("refused 5 limit probe.ids 65 0 64", "At most 64"),
    ("refused 6 name species[1].displace.of", "earlier species: displaced"),
    ("refused 2 unknown grid.sub", "version = 2 and keep it"), ("refused 5 limit grid.sub 15 8 14", "256 to 16384"), ("refused 3 missing grid.sub", "version 2.*from 8 to 14"),
    ("refused 5 limit species[0].points[7][3] 16777217 -16777216 16777216", "one cell a step"),
    ("refused 5 limit deck 1048577 0 1048576", "lattice, random, pair"),
    ("refused 5 limit version 2 1 1", "version 1 alone"), ("refused 5 limit version 3 1 2", "two versions"),
    ("refused 6 name species[1].name", "1 to 32 letters"),
    ("refused 6 name species[1].pair.of", "earlier species"),
    ("gauss 0 1 2 div 0 rho 824633720832", "aren't neutral.*field_of.*add up to 0"),
    ("gauss 0 1 2 div 5 rho -824633720832", "-1 particles of charge 1.*64 times that with a filter.*anew.*run.filter"),
    ("stopped 6 field half1 value 1 2 3 4 -1237940039285380274899124225", "B along y at \\(2, 3, 4\\).*2\\^90.*1/3"),
    ("stopped 6 field electric force 0 0 0 0 1237940039285380274899124225", "E along x.*2\\^44"),
    ("stopped 392 particle 8191 far 0 4120", "1.006 cells.*thermal speed"),
    ("stopped 392 particle 8191 turn 2 16777217", "B is too strong"),
    ("stopped 392 particle 8191 speed 1 1099511627777", "E is far too strong"),
    ("bad dump 12679 9", "mend.*resume.*info, plot and thin"), ("bad dump 7 1", "another version"),
    ("broken frame 1 node 0 0 0 div 412316860416 rho 412518187008", "bytes were changed"),
    ("read fault", "< DECK"), ("usage: pic [check | run [--workers N] | verify | demo SEED [--workers N] | upgrade | "
                                "resume --steps M [--workers N]]", "nothing was read.*resume --steps M"),
    ("frame 4 kinetic 39027395632217877 electric 183584460 magnetic 20386363", "three units"),
    ("1 412316860416 3072 0 0 8388608 0 0", "of step 1: .*--deck DECK"), ("done 16", "dump is whole"), ("ok 2 particles", "can be run"), ("verified 2 frames", "Gauss's law"),
    ("upgraded 2 frames", "version 2"),
    ("5", "disk is full.*whole frames.*resume goes on"), ("status 6", "97 bytes a particle"), ("exit 137", "want of memory"), ("99", "128"),
)


class Explained(unittest.TestCase):
    def test_each_line(self):
        for line, words in LINES:
            with self.subTest(line):
                said = explain(line)
                self.assertEqual(said.split("\n")[0], line)
                self.assertRegex(said.replace("\n", " "), words)
                for part in said.split("\n")[1:]:
                    self.assertTrue(part.startswith("    ") and part.endswith((".", "?", "DECK", "DUMP")), part)

    def test_what_is_no_line(self):
        for line in "", "refused 7 mood", "stopped", "gauss 1 2", "bad dump", "five":
            with self.assertRaisesRegex(ValueError, "no line of the program"):
                explain(line)

    def test_lines_of_a_report(self):
        report = [f"frame {step} kinetic 1 electric 0 magnetic 0" for step in (0, 4, 8)] + ["", "done 8"]
        self.assertEqual([part.split("\n")[0] for part in all_lines(report)], [report[0], "done 8"])
        self.assertEqual([part.split("\n")[0] for part in all_lines(["0 -5", "1 7", "done 1"])], ["0 -5", "done 1"])

    def test_the_formats_document(self):
        answers = re.findall(r"^\| [^|]+ \| (\d) \|", FORMATS, re.MULTILINE)
        self.assertEqual(sorted(set(map(int, answers))), list(range(9)))
        self.assertLessEqual(set(map(int, answers)), set(STATUSES))
        deck = FORMATS.split("## The deck\n")[1].split("## A deck with notes")[0]
        rows = re.findall(r"^\| (`[^|]+) \|", deck, re.MULTILINE)
        for key in re.findall(r"`([a-z_.]+)`", " ".join(row for row in rows if "refused" not in row)):
            self.assertTrue(any(table + key in KEYS for table in ("", "species[i].", "drive[i].", "probe.")), key)
        causes = re.findall(r"^\| (\d+) \| ", FORMATS.split("**Faults.**")[1].split("## The report")[0], re.MULTILINE)
        self.assertEqual(causes, list(CAUSES))

    def test_what_devices_and_ways_are_refused_for(self):
        """Each refusal of a displaced species, of a loop and of a probe says what to change, beyond its own words."""
        for _, _, line in test_displace.REFUSED + test_drive.REFUSED + test_probe.REFUSED:
            self.assertGreater(len(explain(line)), 2 * len(line) + 40, line)
            if line.startswith("refused 5"):
                self.assertEqual(len(explain(line).split("\n")), 3, line)

    def test_no_advice_is_hidden_by_an_earlier_one(self):
        lines = [re.fullmatch(r"refused 5 limit (\S+) -?\d+ (-?\d+ -?\d+)", line) for line, _ in LINES]
        values = [re.sub(r"\[\d+\]", "[i]", found[1]) + " " + found[2] for found in lines if found]
        first = {next(pattern for pattern, _ in ADVICE if re.fullmatch(pattern, value)) for value in values}
        self.assertLessEqual({pattern for pattern, _ in ADVICE} - first, {r"species\[i\]\.charge .*"})


if __name__ == "__main__":
    unittest.main()
