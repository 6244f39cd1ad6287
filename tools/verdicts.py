"""What `verify` answers to a dump, for answers.py: the first fault of its bytes, or the first frame that breaks Gauss's law."""

import re
import sys
from pathlib import Path
from struct import unpack_from

sys.path.insert(0, str(Path(__file__).parents[1] / "examples"))
from compare import FAULTS, Halt, Model, scaled

# The newest version of decks and dumps that the program takes, and what each allows: cells on an axis, particles, sub; and the filters.
MOST_VERSION = 2
MOST_CELLS, MOST_PARTICLES, SUBS = {1: 64, 2: 128}, {1: 2**20, 2: 2**22}, {1: (12, 12), 2: (8, 14)}
MOST_FILTER = 1
# Loops, the numbers of a loop's wave, and the greatest of these in size.
MOST_LOOPS, MOST_WAVE, MOST_NUMBER = 16, 64, 2**60
MOST_FORCE, MOST_VALUE = 2**44, 2**90
MOST_FACTOR, MOST_SHIFT, MOST_STEPS, MOST_SPECIES = 2**31 - 1, 62, 1000000, 16


class Bad(Exception):
    """The bytes leave a dump's format: place and cause."""


class Broken(Exception):
    """A frame doesn't meet Gauss's law: its line of the report."""


class Dump:
    """A dump, read field by field from its front."""

    def __init__(self, held):
        self.held, self.place, self.model = held, 0, None
        self.electric, self.magnetic, self.particles = None, None, []

    def field(self, form, size, cause, fits):
        """A number, which has to fit. A field that the end cuts has another fault."""
        if self.place + size > len(self.held):
            raise Bad(len(self.held), 9)
        if form == "wide":
            value = int.from_bytes(self.held[self.place:self.place + 16], "big", signed=True)
        else:
            value = unpack_from(f">{form}", self.held, self.place)[0]
        if not fits(value):
            raise Bad(self.place, cause)
        self.place += size
        return value

    def small(self, cause, fits):
        return self.field("B", 1, cause, fits)

    def natural(self, cause, fits):
        return self.field("I", 4, cause, fits)

    def signed(self, cause, fits):
        return self.field("i", 4, cause, fits)

    def factor(self):
        return [self.signed(2, lambda n: abs(n) <= MOST_FACTOR), self.natural(2, lambda k: k <= MOST_SHIFT)]

    def header(self):
        for byte in b"PICDUMP":
            self.small(1, lambda found: found == byte)
        self.version = version = self.small(1, lambda digit: 1 <= digit - 48 <= MOST_VERSION) - 48
        self.cells = [self.natural(2, lambda n: 2 <= n <= MOST_CELLS[version]) for _ in range(3)]
        self.steps = self.natural(2, lambda n: n <= MOST_STEPS)
        self.every = self.natural(2, lambda n: 1 <= n <= MOST_STEPS)
        self.scale = {name: self.factor() for name in ("e_to_b", "b_to_e", "e_force", "b_force")}
        self.side, self.filter, number = (2**12, 0, 0) if version == 1 else self.form()
        self.species, names, total = [], set(), 0
        for _ in range(self.natural(2, lambda n: n <= MOST_SPECIES)):
            name = self.field("32s", 32, 2, lambda name: re.fullmatch(rb"[A-Za-z0-9_]{1,32}\0*", name) and name not in names)
            names.add(name)
            charge, mass = self.signed(2, lambda n: -32768 <= n <= 32767), self.natural(2, lambda n: 1 <= n <= 65536)
            kick, turn = self.factor(), self.factor()
            count = self.natural(2, lambda n: total + n <= MOST_PARTICLES[version])
            total += count
            self.species.append({"name": name.rstrip(b"\0").decode(), "charge": charge, "mass": mass, "kick": kick, "turn": turn,
                                 "count": count})
        self.loops = [self.loop() for _ in range(number)]

    def form(self):
        """What version 2 says more: the side of a cell, the filter, and the number of loops."""
        sub = self.natural(2, lambda n: SUBS[2][0] <= n <= SUBS[2][1])
        return 2**sub, self.natural(2, lambda n: n <= MOST_FILTER), self.natural(2, lambda n: n <= MOST_LOOPS)

    def loop(self):
        axis, cell = self.natural(2, lambda n: n < 3), [self.natural(2, lambda n: n < cells) for cells in self.cells]
        length = self.natural(2, lambda n: 1 <= n <= MOST_WAVE)
        return {"axis": axis, "cell": cell, "wave": [self.field("q", 8, 2, lambda n: abs(n) <= MOST_NUMBER) for _ in range(length)]}

    def values(self, name):
        """The three components of a field."""
        def fits(value):
            return abs(value) <= MOST_VALUE and abs(scaled(value, self.scale[name])) <= MOST_FORCE

        nodes = self.cells[0] * self.cells[1] * self.cells[2]
        return [[self.field("wide", 16, 5, fits) for _ in range(nodes)] for _ in range(3)]

    def frame(self, due):
        self.natural(4, lambda step: step == due)
        self.electric, self.magnetic = self.values("e_force"), self.values("b_force")
        self.particles = []
        for kind in self.species:
            for _ in range(kind["count"]):
                position = [self.natural(6, lambda x: x < self.side * n) for n in self.cells]
                velocity = [self.signed(6, lambda v: -2048 <= v + 4096 * self.side and v <= 4096 * self.side + 2047) for _ in range(3)]
                self.particles.append((kind, position, velocity))
        kinetic = sum(kind["mass"] * sum(c * c for c in velocity) for kind, _, velocity in self.particles)
        squares = (sum(scaled(v, self.scale[name]) ** 2 for part in field for v in part)
                   for field, name in ((self.electric, "e_force"), (self.magnetic, "b_force")))
        for energy in kinetic, *squares:
            self.field("wide", 16, 7, lambda found: found % 2**128 == energy)

    def state(self):
        """The run's state that the last frame read is; before the first one it has none."""
        if self.model is None:
            self.model = object.__new__(Model)
            for name in "version", "cells", "side", "scale", "steps", "every", "filter", "loops":
                setattr(self.model, name, getattr(self, name))
            self.model.kinds, self.model.counts = self.species, [kind["count"] for kind in self.species]
            self.model.lay_out()
        self.model.electric, self.model.magnetic, self.model.particles = self.electric, self.magnetic, self.particles
        return self.model

    def test_gauss(self, number):
        try:
            self.state().test_gauss()
        except Halt as end:
            raise Broken(end.args[1].replace("gauss ", f"broken frame {number} node "))

    def end(self, last, following):
        """The end record, after the frame of step `last` and before that of `following`, where one is due."""
        ended = self.small(8, lambda kind: kind in ((1, 2) if following else (0,)))
        self.natural(4, lambda step: last < step <= following if ended else step == self.steps)
        if ended == 1:
            self.small(8, lambda phase: phase in (1, 3, 4))
            bound = self.small(8, lambda bound: bound in (1, 2))
            self.small(8, lambda axis: axis < 3)
            for n in self.cells:
                self.natural(8, lambda index: index < n)
            self.field("wide", 16, 8, lambda value: abs(value) > (MOST_VALUE if bound == 1 else MOST_FORCE))
        if ended == 2:
            self.natural(8, lambda identity: identity < sum(kind["count"] for kind in self.species))
            what = self.small(8, lambda what: 0 < what < len(FAULTS))
            self.small(8, lambda axis: axis < 3)
            self.field("wide", 16, 8, lambda value: abs(value) > (2**40, 2**24, self.side)[what - 1])
        if self.place < len(self.held):
            raise Bad(self.place, 10)

    def frames(self):
        """Reads all behind the header, frame by frame: the steps."""
        last, due, number = None, 0, 0
        while True:
            marks = ([70] if due is not None else []) + ([69] if number else [])
            if self.small(3, lambda mark: mark in marks) == 69:
                self.end(last, due)
                return
            self.frame(due)
            self.test_gauss(number)
            yield due
            last, number = due, number + 1
            due = min(last - last % self.every + self.every, self.steps) if last < self.steps else None


def verify(held):
    dump = Dump(held)
    try:
        dump.header()
        return 0, b"verified %d frames\n" % len(list(dump.frames())), b""
    except Bad as fault:
        return 7, b"", b"bad dump %d %d\n" % fault.args
    except Broken as line:
        return 8, b"", f"{line.args[0]}\n".encode()
