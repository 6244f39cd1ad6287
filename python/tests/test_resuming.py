"""A long run that was ended is gone on with by a second call, to the dump of a run in one; by the built program, skipped where none was
built."""

import io
import json
import resource
import signal
import subprocess
import sys
import time
import unittest
from dataclasses import replace
from pathlib import Path

from pictools import running
from pictools.dump import Dump
from pictools.mend import mend
from pictools.plasma import Plasma
from tests.test_program import PROGRAM, call, needs_program
from tests.test_running import Folder, sha256

PLASMA = Plasma(plasma_frequency=0.1, cells=(4, 4, 4), particles_a_cell=2, thermal_speed=0.05, start="random", seed=5, steps=20, every=3)


def parts_of(told: dict) -> list[tuple[str, str]]:
    return [(part.get("end", ""), part.get("mended after", "")) for part in told.get("earlier calls", [])]


@needs_program
class Resuming(Folder):
    def setUp(self):
        super().setUp()
        self.text = PLASMA.deck().text()
        self.deck, self.dump = self.folder / "a.toml", self.folder / "a.dump"
        self.deck.write_text(self.text)
        _, self.whole, _ = call("run", given=self.text.encode())
        self.frame = (len(self.whole) - 6 - 184) // 8

    def note(self) -> dict:
        return json.loads(Path(f"{self.dump}.json").read_text())

    def limited(self, most: int, *words: str) -> subprocess.CompletedProcess:
        """A call on a disk that is full when a file has so many bytes."""
        limit = (most, resource.getrlimit(resource.RLIMIT_FSIZE)[1])
        return self.call("run", "a.toml", "-o", "a.dump", *words, preexec_fn=lambda: resource.setrlimit(resource.RLIMIT_FSIZE, limit))

    def test_a_full_disk_and_a_second_call(self):
        done = self.limited(184 + 3 * self.frame + 100)
        self.assertRegex(done.stderr, r"^pictools: a\.dump: .*It was mended, and is the dump of a run of 6 steps: 3 frames, .*\. The same "
                                      r"command goes on behind them\n$")
        done = self.call("run", "a.toml", "-o", "a.dump", "--workers", "3")
        self.assertEqual(done.returncode, 0, done.stderr)
        self.assertRegex(done.stderr, r"^a\.dump: done 20, it went on behind step 6; 8 frames, .* kB, in .* seconds; its note is a\.dump\.json\n$")
        self.assertEqual(self.dump.read_bytes(), self.whole)
        told = self.note()
        self.assertEqual((told["end"], told["mended after"], told["frames"], told["sha256"], told["workers"]),
                         ("done 20", "", 8, sha256(self.whole), 3))
        self.assertEqual([end for end, _ in parts_of(told)], ["done 6"])
        self.assertRegex(parts_of(told)[0][1], "the program ended with the status")
        self.assertEqual(self.names(), {"a.toml", "a.dump", "a.dump.json"})

    def test_in_the_middle_of_a_wave(self):
        """Of loops that drive a filtered plasma which is displaced at the start, whose deck has probes too."""
        plasma = replace(PLASMA, displace=0.5, antenna=0.01, antenna_period=7, filter=1, probe="ey", trace=2, thermal_speed=0)
        self.deck.write_text(plasma.deck().text())
        _, whole, _ = call("run", given=self.deck.read_bytes())
        header = Dump.stream(io.BytesIO(whole)).header
        done = self.limited(header.length + 3 * header.frame_type.itemsize + 100)
        self.assertIn("is the dump of a run of 6 steps: 3 frames", done.stderr)
        self.assertEqual(Dump(self.dump).header.loops, tuple(plasma.deck().loops))
        self.assertEqual(running.run(str(self.deck), str(self.dump), named=PROGRAM).start, 6)
        self.assertEqual(self.dump.read_bytes(), whole)

    def test_an_earlier_dump_stays_until_there_is_more(self):
        """Twice on the same full disk: the second call gets no further, and takes nothing away."""
        self.limited(184 + 3 * self.frame + 100)
        before, told = self.dump.read_bytes(), self.note()
        done = self.limited(184 + 3 * self.frame + 100)
        self.assertNotEqual(done.returncode, 0)
        self.assertRegex(done.stderr, r"^pictools: a\.toml: no dump was written: a\.dump stays the dump of a run of 6 steps: ")
        self.assertEqual((self.dump.read_bytes(), self.note()), (before, told))
        self.limited(184 + 5 * self.frame + 100)
        self.assertEqual(Dump(self.dump).end.text, "done 12")
        self.assertEqual(running.run(str(self.deck), str(self.dump), named=PROGRAM).start, 12)
        self.assertEqual(self.dump.read_bytes(), self.whole)
        self.assertEqual([end for end, _ in parts_of(self.note())], ["done 6", "done 12"])

    def test_after_an_end_that_no_one_saw(self):
        """As a lost machine leaves it: the dump is cut anywhere, and the note doesn't say how it ended."""
        for length in range(184 + self.frame, len(self.whole), 4001):
            with self.subTest(length=length):
                running.run(str(self.deck), str(self.dump), named=PROGRAM, anew=True)
                told = self.note()
                for name in "last", "end", "mended after", "frames", "bytes", "sha256", "seconds":
                    del told[name]
                Path(f"{self.dump}.json").write_text(json.dumps(told))
                self.dump.write_bytes(self.whole[:length])
                ended = running.run(str(self.deck), str(self.dump), named=PROGRAM)
                frames = (length - 184) // self.frame
                self.assertEqual((ended.status, ended.start), (0, min(3 * (frames - 1), 20)))
                self.assertEqual(self.dump.read_bytes(), self.whole)

    def test_what_is_begun_anew(self):
        """Another deck, a whole dump, one without a note, one that was thinned, and where it is asked for."""
        def started() -> int | None:
            ended = running.run(str(self.deck), str(self.dump), named=PROGRAM)
            self.assertEqual(ended.status, 0)
            return ended.start

        def cut() -> None:
            self.limited(184 + 3 * self.frame + 100, "--anew")

        self.assertIsNone(started())
        self.assertIsNone(started())
        cut()
        self.assertEqual(self.call("run", "a.toml", "-o", "a.dump", "--anew").returncode, 0)
        self.assertEqual((self.dump.read_bytes(), parts_of(self.note())), (self.whole, []))
        cut()
        self.deck.write_text(self.text + "# another\n")
        self.assertIsNone(started())
        self.deck.write_text(self.text)
        cut()
        Path(f"{self.dump}.json").unlink()
        self.assertIsNone(started())
        cut()
        done = subprocess.run([sys.executable, "-m", "pictools", "thin", "2", "-o", "b.dump"], input=self.dump.read_bytes(),
                              capture_output=True, cwd=self.folder, env=self.environment)
        self.assertEqual(done.returncode, 0, done.stderr)
        self.dump.write_bytes((self.folder / "b.dump").read_bytes())
        self.assertIsNone(started())

    def test_a_run_that_stops_is_no_part(self):
        """Its dump is whole: the same deck stops again."""
        from tests.test_program import TOO_FAST
        self.deck.write_text(TOO_FAST)
        for _ in range(2):
            ended = running.run(str(self.deck), str(self.dump), named=PROGRAM)
            self.assertEqual((ended.status, ended.start, ended.line), (1, None, "stopped 1 particle 0 far 0 8192"))

    def test_a_dump_that_is_still_written(self):
        """Neither a second call nor mend touches it."""
        long = Plasma(plasma_frequency=0.1, cells=(8, 2, 2), particles_a_cell=64, thermal_speed=0.05, start="random", seed=7, steps=10**6, every=10)
        self.deck.write_text(long.deck().text())
        words = [sys.executable, "-m", "pictools", "run", "a.toml", "-o", "a.dump"]
        with subprocess.Popen(words, cwd=self.folder, env=self.environment, stderr=subprocess.PIPE, text=True) as started:
            until = time.monotonic() + 60
            while not (self.dump.exists() and self.dump.stat().st_size > 500000):
                self.assertLess(time.monotonic(), until)
                time.sleep(0.02)
            for command in ["run", "a.toml", "-o", "a.dump"], ["mend", "a.dump"]:
                done = self.call(*command)
                self.assertEqual(done.returncode, 1)
                self.assertRegex(done.stderr, r"^pictools: (\S*/)?a\.dump: a run still writes it\n$")
            started.send_signal(signal.SIGINT)
            self.assertEqual(started.wait(60), 130)
        self.assertTrue(Dump(self.dump).end.done)

    def test_mended_by_hand_and_gone_on_with(self):
        """What the documents tell: mend, and then the program with the deck's tiles."""
        for length in range(184 + self.frame + 1, len(self.whole), 2999):
            self.dump.write_bytes(self.whole[:length])
            mend(self.dump)
            done = call("resume", "--steps", "20", "--workers", "2", "--tiles-x", "2", "--tiles-z=2", given=self.dump.read_bytes())
            self.assertEqual(done[:2], (0, self.whole))


if __name__ == "__main__":
    unittest.main()
