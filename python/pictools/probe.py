"""What `pic probe` puts: for every step the values at some places, and where some particles are, exactly.

    lines = Probes("antenna.lines", "decks/antenna.toml")   # the deck says what the columns are
    lines.places                            # (Place("ey", (0, 0, 0)), ..), and lines.ids
    lines.signal(0)                         # float64 of the first place, a value a step, in the dump's own unit
    lines.exact_signal(0)                   # the same as Python's whole numbers
    lines.along("ey", "x")                  # its cells along x, and the values, of shape (steps, cells)
    lines.orbit(1)                          # of the particle 1: places and velocities, whole numbers of shape (steps, 3)
    lines.to_pandas(1, 7)                   # the orbits of two particles, as those of a dump
    lines.to_xarray("ey")                   # an xarray.Dataset: ey over steps and places
    lines.end                               # "done 400", or how the run stopped
"""

from __future__ import annotations

import os
import re
from dataclasses import replace
from functools import cached_property
from pathlib import Path
from typing import TYPE_CHECKING

import numpy as np
from numpy.typing import NDArray

from pictools import measure
from pictools.outline import outline

if TYPE_CHECKING:
    import pandas
    import xarray

END = re.compile(rb"done \d+|stopped \d+ (field|particle) .*")


class ProbeError(ValueError):
    """The text isn't that of `pic probe` for a deck. The number is that of the line, from 1."""

    def __init__(self, number: int, reason: str):
        super().__init__(f"line {number}: {reason}")


def is_lines(path: str | os.PathLike) -> bool:
    """Whether a file may be one of probe lines: its first byte is a digit, which no dump's is."""
    with open(path, "rb") as file:
        return file.read(1).isdigit()


class Probes:
    """The lines of a deck's `pic probe`. `header` is that of the deck's dump with a frame of every step. With `partial` a text that ends
    early, of a call that was ended, gives its whole lines; then `end` is empty."""

    def __init__(self, path: str | os.PathLike, deck: str | os.PathLike, partial: bool = False):
        self.path, self.deck, text = os.fspath(path), os.fspath(deck), Path(deck).read_text(encoding="utf-8")
        try:
            header, self.places, self.ids, self.uniform_b = outline(text)
        except ValueError as error:
            raise ValueError(f"{self.deck}: {error}") from None
        self.header = replace(header, every=1)
        lines = Path(path).read_bytes().split(b"\n")
        # What stands behind the last line feed is no whole line.
        rest = lines.pop()
        self.end = lines.pop().decode("ascii") if lines and END.fullmatch(lines[-1]) else ""
        if rest and (self.end or not partial) or not self.end and not partial:
            raise ProbeError(len(lines) + 1, "the text has no end, or goes on behind it; its call was ended, or still writes")
        self.rows = [self.row(number, line) for number, line in enumerate(lines)]
        if not self.rows:
            raise ProbeError(1, "there is no line of a step")

    def row(self, number: int, line: bytes) -> list[int]:
        """The numbers of a line, which is that of the step `number`."""
        columns = 1 + len(self.places) + 6 * len(self.ids)
        if not re.fullmatch(rb"\d+( -?\d+)*", line):
            raise ProbeError(number + 1, f"{line[:40]!r} isn't a step and whole numbers behind it")
        numbers = [int(word) for word in line.split(b" ")]
        if len(numbers) != columns:
            raise ProbeError(number + 1, f"it has {len(numbers)} numbers, and {self.deck} makes {columns}: a step, {len(self.places)} "
                             f"places, and 6 for each of {len(self.ids)} particles")
        if numbers[0] != number:
            raise ProbeError(number + 1, f"it is of step {numbers[0]}, where that of step {number} comes")
        return numbers

    def __len__(self) -> int:
        return len(self.rows)

    def __repr__(self) -> str:
        return (f"<Probes {self.path}: {len(self)} steps of {len(self.places)} places and {len(self.ids)} particles, "
                f"{self.end or 'without its end'}>")

    @cached_property
    def steps(self) -> NDArray[np.int64]:
        return np.arange(len(self))

    def exact_signal(self, place: int) -> list[int]:
        """The values at the place of this number, a step each."""
        if not 0 <= place < len(self.places):
            raise ValueError(f"there is no place {place}; the deck has {len(self.places)}, from 0")
        return [row[1 + place] for row in self.rows]

    def signal(self, place: int) -> NDArray[np.float64]:
        """The same as float64, each the nearest to its number."""
        return np.array([float(value) for value in self.exact_signal(place)])

    def of(self, component: str) -> list[int]:
        """The numbers of the places of a component."""
        found = [number for number, place in enumerate(self.places) if place.component == component]
        if not found:
            there = sorted({place.component for place in self.places})
            raise ValueError(f"{component} isn't probed; {', '.join(there) or 'no component'} is")
        return found

    def along(self, component: str, axis: str) -> tuple[NDArray[np.int64], NDArray[np.float64]]:
        """The cells of a component's places along an axis, ascending, and the values there, of shape (steps, cells). The places
        have to lie on one line along it."""
        a, numbers = "xyz".index(axis), self.of(component)
        cells = [self.places[number].cell for number in numbers]
        if len({cell[:a] + cell[a + 1:] for cell in cells}) > 1 or len(set(cells)) < len(cells):
            raise ValueError(f"the places of {component} don't lie, each once, on one line along {axis}")
        order = sorted(range(len(numbers)), key=lambda n: cells[n][a])
        return (np.array([cells[n][a] for n in order]), np.stack([self.signal(numbers[n]) for n in order], axis=1))

    def is_whole(self, component: str, axis: str) -> bool:
        """Whether a component's places are all cells of a line along an axis."""
        try:
            return len(self.along(component, axis)[0]) == self.header.cells["xyz".index(axis)]
        except ValueError:
            return False

    def orbit(self, identity: int) -> tuple[NDArray[np.int64], NDArray[np.int64]]:
        """Of a particle the places, in sub-cells, and the velocities, in 1/4096 sub-cell a step: shapes (steps, 3)."""
        if identity not in self.ids:
            raise ValueError(f"the particle {identity} isn't traced; {', '.join(map(str, self.ids)) or 'none'} is")
        first = 1 + len(self.places) + 6 * self.ids.index(identity)
        table = np.array([row[first : first + 6] for row in self.rows], np.int64)
        return table[:, :3], table[:, 3:]

    def way(self, identity: int) -> NDArray[np.float64]:
        """The places of a particle in cells, through the box's sides: shape (steps, 3)."""
        return measure.through(self.orbit(identity)[0] / self.header.side, self.header.cells)

    def to_pandas(self, *identities: int, units: str = "steps") -> pandas.DataFrame:
        """The orbits of these particles, or of all that are traced, over step and identity, as `to_pandas` of a dump."""
        from pictools import tables
        return tables.orbits(self, identities, units)

    def to_xarray(self, *components: str, units: str = "dump") -> xarray.Dataset:
        """Each component over step and its places, as ey over ey_place with ey_x, ey_y and ey_z; all that are probed where none is
        named. `units` are "dump" or "steps"."""
        from pictools import tables
        return tables.signals(self, components, units)
