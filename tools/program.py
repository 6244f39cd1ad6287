"""Calls of the built program for the tools beside this: the program, a test's count of how its cases ended, a deck's whole run."""

import re
import subprocess
import sys
import time
from collections import Counter
from concurrent.futures import ThreadPoolExecutor
from pathlib import Path

HOME = Path(__file__).parents[1]
NEVER_SO_LONG = 600


def chosen_program(path):
    """The program at this path, or where none is given the one that was built of these sources, or that PIC_PROGRAM names."""
    if path is None:
        found = subprocess.run([HOME / "pic", "built"], stdout=subprocess.PIPE, text=True)
        return Path(found.stdout.strip()) if found.returncode == 0 else sys.exit(1)
    return path.resolve() if path.exists() else sys.exit(f"there is no program {path}")


class Program:
    """The program, and how a call of it ended: exit status (below 0: the signal), standard output, standard error."""

    def __init__(self, path, jobs=1):
        self.path, self.jobs = path, jobs

    def call(self, *words, given=b"", **others):
        streams = {"stdout": subprocess.PIPE, "stderr": subprocess.PIPE, **others}
        if "stdin" not in streams:
            streams["input"] = given
        done = subprocess.run([self.path, *words], timeout=NEVER_SO_LONG, **streams)
        return done.returncode, done.stdout, done.stderr

    def start(self, *words, **others):
        streams = {"stdin": subprocess.PIPE, "stdout": subprocess.PIPE, "stderr": subprocess.PIPE, **others}
        return subprocess.Popen([self.path, *words], **streams)

    def each(self, call, items):
        """The items, each with what the call gives for it, so many calls at once as there are jobs."""
        items = list(items)
        with ThreadPoolExecutor(self.jobs) as pool:
            yield from zip(items, pool.map(call, items))


class Test:
    """Counts how the cases of a test ended, and keeps those that ended otherwise than they may."""

    rows, wrong = [], 0

    def __init__(self, what):
        self.what, self.ends, self.wrong, self.since = what, Counter(), 0, time.monotonic()

    def case(self, name, fits, ended, word=None):
        self.ends[word or f"status {ended[0]}"] += 1
        if not fits:
            self.wrong += 1
            texts = [text[-200:] if text else text for text in ended[1:]]
            print(f"WRONG: {self.what}, {name}: status {ended[0]}, {texts[0]!r}, {texts[1]!r}", flush=True)

    def end(self):
        ends = ", ".join(f"{count} {word}" for word, count in sorted(self.ends.items()))
        took = time.monotonic() - self.since
        Test.wrong += self.wrong
        Test.rows.append(f"| {self.what} | {sum(self.ends.values())} | {ends} | {self.wrong} | {took:.1f} |")
        print(f"{self.what}: {ends}, {self.wrong} wrong, {took:.1f} s", file=sys.stderr, flush=True)

    @classmethod
    def table(cls):
        """The table of all tests, and whether all cases ended as they may."""
        print("\n| what | cases | how they ended | wrong | seconds |\n|---|---|---|---|---|")
        print(*cls.rows, sep="\n")
        print("\nall cases ended as they may" if not cls.wrong else f"\n{cls.wrong} cases ended otherwise")
        return cls.wrong == 0


def with_steps(deck, steps, every=None):
    """A deck's text with other steps, and another number of steps between its frames where one is given."""
    deck = re.sub(r"(?m)^steps = \d+", f"steps = {steps}", deck, count=1)
    return deck if every is None else re.sub(r"(?m)^every = \d+", f"every = {every}", deck, count=1)


class Run:
    """A call that writes a dump, and how it ends when nothing hinders it: the whole dump, the report's lines, and where the frames end
    in the dump. The call is `run` with a deck; of `resumed` it is `resume` with a dump. `probe_lines` is what `probe` puts for the deck."""

    def __init__(self, program, name, words=("run",), given=None):
        self.name, self.deck, self.words = f"{name}.toml", (HOME / "decks" / f"{name}.toml").read_bytes(), list(words)
        self.probe_lines = program.call("probe", given=self.deck)[1]
        self.given = self.deck if given is None else given
        status, self.dump, report = program.call(*words, given=self.given)
        assert status == 0, f"{words[0]} doesn't end well with {name}"
        self.report = report.splitlines(keepends=True)
        front = 76 if self.dump[7:8] == b"2" else 64
        self.header = front + 60 * self.number(front - 4)
        for _ in range(self.number(68) if front == 76 else 0):
            self.header += 20 + 8 * self.number(self.header + 16)
        frames = len(self.report) - 1
        frame = (len(self.dump) - 6 - self.header) // frames
        self.frame_ends = [self.header + (n + 1) * frame for n in range(frames)]

    def number(self, place):
        """The number of four bytes at a place of the dump."""
        return int.from_bytes(self.dump[place:place + 4], "big")

    @classmethod
    def resumed(cls, program, name, *words):
        """The run of a deck in two parts: five steps, whose frames are those of the steps 0, 2, 4 and 5, and then to nine."""
        deck = with_steps((HOME / "decks" / f"{name}.toml").read_text(), 5, 2)
        return cls(program, name, ["resume", "--steps", "9", *words], program.call("run", given=deck.encode())[1])

    def lines_of(self, length):
        """The lines of the frames that so long a front of the dump has whole; all lines where it is the whole dump."""
        if length >= len(self.dump):
            return b"".join(self.report)
        return b"".join(self.report[:sum(end <= length for end in self.frame_ends)])

    def lines(self):
        """Where the lines begin in the report, and how long the dump is before each."""
        starts = [sum(map(len, self.report[:n])) for n in range(len(self.report))]
        return list(zip(starts, [*self.frame_ends, len(self.dump)]))
