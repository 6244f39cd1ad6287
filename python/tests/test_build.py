"""What `./pic build` does with a toolchain's command that proves nothing: which crates it asks for and when, and what is there after a
crate that isn't proved, after two calls at once, and after one that was stopped."""

import os
import shutil
import signal
import subprocess
import tempfile
import time
import unittest
from pathlib import Path

HOME = Path(__file__).parents[2]

# A stand-in for `rt lib` and `rt run`: it wants what the crates below gave, and gives as little as `rt` leaves.
RT = """#!/usr/bin/env bash
name=$(basename "$PWD")
echo "$1 $name ${RT_BACKEND:-}" >>"$CALLS"
while [ -e "$CALLS.slow" ]; do sleep 0.1; done
grep -rh 'error' src && exit 1
for low in ../*/; do
    [ "$low" = "../$name/" ] || [ -e "$low/out/rlib/stamp" ] || exit 1
done
mkdir -p "out/rlib/$name.rlib"
sha256sum src/* >"out/rlib/$name.rlib/format"
cp "out/rlib/$name.rlib/format" out/rlib/stamp
[ "$1" = lib ] || cp /bin/echo out/pic_prog
"""


class Build(unittest.TestCase):
    def setUp(self):
        room = tempfile.TemporaryDirectory()
        self.addCleanup(room.cleanup)
        self.room, self.here = Path(room.name), Path(room.name) / "a copy"
        (self.here / "release").mkdir(parents=True)
        shutil.copy2(HOME / "pic", self.here)
        shutil.copy2(HOME / "release" / "build.py", self.here / "release")
        (self.here / "HANDLES").write_text("Handles allowed: none.\n")
        (self.here / "crates.txt").write_text("laws: low high\nhigh: low toml\nlow: arrayvec\nother:\npic_prog: high other\n")
        for name in ("laws", "high", "low", "other", "pic_prog"):
            self.edit(name, "first")
        (self.here / "crates" / "pic_prog" / "stdin").touch()
        (self.room / "bin").mkdir()
        (self.room / "bin" / "rt").write_text(RT)
        (self.room / "bin" / "rt").chmod(0o755)
        self.calls, self.slow = self.room / "calls", self.room / "calls.slow"
        self.calls.touch()

    def edit(self, name, text):
        source = self.here / "crates" / name / "src" / "lib.rt"
        source.parent.mkdir(parents=True, exist_ok=True)
        source.write_text(f"// {text}\n")

    def start(self, word="build"):
        own = {"PATH": f"{self.room}/bin:{os.environ['PATH']}", "CALLS": str(self.calls), "XDG_CACHE_HOME": f"{self.room}/cache",
               "RT_BACKEND": "rattle"}
        # (what runs in the background hands on that it ignores Ctrl-C)
        return subprocess.Popen([self.here / "pic", word], env=own, stdout=subprocess.PIPE, stderr=subprocess.PIPE, text=True,
                                preexec_fn=lambda: signal.signal(signal.SIGINT, signal.SIG_DFL))

    def build(self):
        call = self.start()
        _, said = call.communicate(timeout=60)
        return call.returncode, said

    def programs(self):
        return sorted(it.name for it in (self.here / "out").glob("*"))

    def await_calls(self, number):
        while len(self.calls.read_text().splitlines()) < number:
            time.sleep(0.02)

    def test_crates_below_the_program_each_behind_those_below_it(self):
        self.assertEqual(self.build()[0], 0)
        lines = self.calls.read_text().splitlines()
        self.assertEqual(sorted(lines[:2]), ["lib low ", "lib other "])
        self.assertEqual(lines[2:], ["lib high ", "run pic_prog "])
        built = self.start("built")
        self.assertEqual(Path(built.communicate()[0].strip()), self.here / "out" / self.programs()[0])
        self.assertEqual(self.build()[0], 0)
        self.assertEqual(len(self.calls.read_text().splitlines()), 4)

    def test_an_older_program_stays_until_there_is_a_new_one(self):
        self.assertEqual(self.build()[0], 0)
        first = self.programs()
        self.edit("high", "an error")
        status, said = self.build()
        self.assertEqual((status, self.programs()), (70, first))
        self.assertIn("// an error\npic: high isn't proved", said)
        self.edit("high", "second")
        self.assertEqual(self.build()[0], 0)
        self.assertEqual(len(set(self.programs()) - set(first)), 1)

    def test_two_calls_at_once_build_once(self):
        self.slow.touch()
        calls = [self.start()]
        self.await_calls(2)
        calls.append(self.start())
        self.assertIn("waiting for it", calls[1].stderr.readline())
        self.slow.unlink()
        for call in calls:
            call.communicate(timeout=60)
        self.assertEqual(([call.returncode for call in calls], len(self.calls.read_text().splitlines())), ([0, 0], 4))

    def test_one_that_is_stopped(self):
        for sent, status in ((signal.SIGINT, 130), (signal.SIGTERM, 143)):
            self.slow.touch()
            self.calls.write_text("")
            call = self.start()
            self.await_calls(2)
            call.send_signal(sent)
            call.communicate(timeout=60)
            self.assertEqual((call.returncode, self.programs()), (status, []))
            self.slow.unlink()
        self.assertEqual(self.build()[0], 0)


if __name__ == "__main__":
    unittest.main()
