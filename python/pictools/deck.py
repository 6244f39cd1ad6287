"""Decks in whole numbers, as docs/FORMATS.md has them, and the E that meets Gauss's law for the particles of a deck."""

from __future__ import annotations

from collections.abc import Iterable, Sequence
from dataclasses import dataclass, field
from math import frexp, prod
from typing import NamedTuple

import numpy as np
from numpy.typing import NDArray

from pictools.dump import Multiplier
from pictools.header import Loop
from pictools.versions import SUB_1, Sided

MOST_BYTES = 1 << 20
MOST_SPREAD = 1 / 16        # of a `random` and a `pair`, in cells a step
MOST_DRIFT = 1 / 2
MOST_SEED = (1 << 63) - 1
MOST_MASS = 1 << 16
MOST_CHARGE = (1 << 15) - 1
MOST_FIELD = (1 << 63) - 1
ROW_BYTES = 15              # of the shortest row of a particle


class DeckError(ValueError):
    """What was chosen makes no deck that the program takes."""


def multiplier(value: float, name: str = "a multiplier") -> Multiplier:
    """The multiplier nearest to a value, its n below 2^24 and no longer than it needs to be."""
    if value == 0:
        return Multiplier(0, 0)
    k = min(max(24 - frexp(value)[1], 0), 62)
    n = round(value * 2.0**k)
    if not 0 < abs(n) < 2**31:
        raise DeckError(f"{name} {value:g} is outside its limits, 2^-63 to 2^31 in size")
    while k > 0 and n % 2 == 0:
        n, k = n // 2, k - 1
    return Multiplier(n, k)


@dataclass
class Species:
    """What all species have. Where its particles come from, its kind says: Points, Lattice, Random or Pair."""

    name: str
    charge: int
    mass: int
    kick: Multiplier
    turn: Multiplier

    @property
    def count(self) -> int:
        """How many particles it has."""
        raise NotImplementedError

    def source(self) -> str:
        """Where the particles come from, as a key of the deck."""
        raise NotImplementedError

    def text(self) -> str:
        return (f'\n[[species]]\nname = "{self.name}"\ncharge = {self.charge}\nmass = {self.mass}\n'
                f"kick = {list(self.kick)}\nturn = {list(self.turn)}\n") + self.source()


@dataclass
class Points(Species):
    """Each listed: `position` (particles, 3) in sub-cells, `velocity` (particles, 3) in 1/4096 sub-cell a step."""

    position: NDArray[np.int64]
    velocity: NDArray[np.int64]

    @property
    def count(self) -> int:
        return len(self.position)

    def source(self) -> str:
        return rows("points", np.hstack([self.position, self.velocity]))


@dataclass
class Lattice(Species):
    """One at first + (a, b, c) gap for a, b, c below `sites`, a fastest, all of the velocity `v`; each of the four is three
    whole numbers along x, y and z, in sub-cells and 1/4096 sub-cell a step."""

    first: Sequence[int]
    gap: Sequence[int]
    sites: Sequence[int]
    v: Sequence[int] = (0, 0, 0)

    @property
    def count(self) -> int:
        return prod(self.sites)

    @property
    def position(self) -> NDArray[np.int64]:
        """Where they stand, of shape (particles, 3)."""
        return np.array(self.first) + np.array(list(np.ndindex(*self.sites[::-1])))[:, ::-1] * self.gap

    def source(self) -> str:
        return (f"lattice = {{ first = {list(self.first)}, gap = {list(self.gap)}, count = {list(self.sites)}, "
                f"v = {list(self.v)} }}\n")


@dataclass
class Drawn(Species):
    """Velocities that the program draws: on each axis `drift` and nearly Gaussian about it, of the deviation `spread`, both
    in 1/4096 sub-cell a step."""

    seed: int
    stream: int
    drift: Sequence[int]
    spread: Sequence[int]

    def drawing(self) -> str:
        return f"seed = {self.seed}, stream = {self.stream}, drift = {list(self.drift)}, spread = {list(self.spread)} }}\n"


@dataclass
class Random(Drawn):
    """So many that the program draws anywhere in the box."""

    number: int

    @property
    def count(self) -> int:
        return self.number

    def source(self) -> str:
        return f"random = {{ count = {self.number}, " + self.drawing()


@dataclass
class Pair(Drawn):
    """One on each particle of an earlier species."""

    of: Species

    @property
    def count(self) -> int:
        return self.of.count

    def source(self) -> str:
        return f'pair = {{ of = "{self.of.name}", ' + self.drawing()


@dataclass
class Displaced(Species):
    """One where each particle of an earlier species of the opposite charge stands, moved by `by`, three whole numbers of
    sub-cells, each at most a cell, all of the velocity `v`. The program makes the E of that."""

    of: Species
    by: Sequence[int]
    v: Sequence[int] = (0, 0, 0)

    @property
    def count(self) -> int:
        return self.of.count

    def source(self) -> str:
        return f'displace = {{ of = "{self.of.name}", by = {list(self.by)}, v = {list(self.v)} }}\n'


class Place(NamedTuple):
    """A component of a field, as "ey", at a cell."""

    component: str
    cell: tuple[int, int, int]

    @property
    def row(self) -> list[int]:
        """As a row of a deck."""
        return ["eb".index(self.component[0]), "xyz".index(self.component[1]), *self.cell]

    def __str__(self) -> str:
        return f"{self.component} at {', '.join(map(str, self.cell))}"


@dataclass
class Deck(Sided):
    """A deck. `edges` and `faces` are what is added to E and B: arrays of shape (3, nz, ny, nx), or None for nothing. With a
    `sub` it is one of version 2, which may have a `filter` of the current, driven `loops`, and probes: `places`, and `ids` of
    particles."""

    cells: tuple[int, int, int]
    steps: int
    every: int
    e_to_b: Multiplier
    b_to_e: Multiplier
    e_force: Multiplier
    b_force: Multiplier
    comment: Sequence[str] = ()
    e: tuple[int, int, int] = (0, 0, 0)
    b: tuple[int, int, int] = (0, 0, 0)
    edges: NDArray[np.int64] | None = None
    faces: NDArray[np.int64] | None = None
    species: list[Species] = field(default_factory=list)
    sub: int | None = None
    filter: int = 0
    loops: Sequence[Loop] = ()
    places: Sequence[Place] = ()
    ids: Sequence[int] = ()

    @property
    def particles(self) -> int:
        return sum(s.count for s in self.species)

    def text(self) -> str:
        """The deck as the program reads it, or an error where it would be too long for it."""
        text = "".join(f"# {line}".rstrip() + "\n" for line in self.comment) + f"version = {self.version}\n"
        text += f"\n[grid]\ncells = {list(self.cells)}\ntiles = {tiles_of(self.cells)}\n"
        text += "" if self.sub is None else f"sub = {self.sub}\n"
        text += f"\n[run]\nsteps = {self.steps}\nevery = {self.every}\n"
        text += (f"filter = {self.filter}\n" if self.filter else "") + "\n[scale]\n"
        text += "".join(f"{name} = {list(getattr(self, name))}\n" for name in ("e_to_b", "b_to_e", "e_force", "b_force"))
        text += f"\n[field]\ne = {list(self.e)}\nb = {list(self.b)}\n"
        text += field_rows("edges", self.edges) + field_rows("faces", self.faces)
        text += "".join(species.text() for species in self.species) + "".join(map(loop_text, self.loops))
        if self.places or self.ids:
            text += "\n[probe]\n" + rows("places", [place.row for place in self.places]) + f"ids = {list(self.ids)}\n"
        if self.particles > self.allowance.particles:
            raise DeckError(f"{self.particles} particles; a deck of version {self.version} has at most "
                            f"{self.allowance.particles}")
        if len(text) > MOST_BYTES:
            raise DeckError(f"{len(text)} bytes with {self.particles} particles; a deck has at most {MOST_BYTES}, which some "
                            "30000 listed particles take: choose fewer particles a cell or cells, or a start that lists none")
        return text


def tiles_of(cells: Sequence[int]) -> list[int]:
    """Into how many tiles each axis is cut: at most 4, of two cells or more."""
    return [next(t for t in range(min(4, n // 2), 0, -1) if n % t == 0) for n in cells]


def rows(name: str, values: Iterable[Iterable[int]]) -> str:
    """An array of rows, a line each, without a blank that could be spared: a deck's bytes are its particles."""
    return f"{name} = [\n" + "".join(f"[{','.join(map(str, row))}],\n" for row in np.asarray(values).tolist()) + "]\n"


def loop_text(loop: Loop) -> str:
    return f"\n[[drive]]\naxis = {loop.axis}\ncell = {list(loop.cell)}\nwave = {list(loop.wave)}\n"


def field_rows(name: str, values: NDArray[np.int64] | None) -> str:
    """The places of a field that aren't 0, as rows [axis, i, j, k, value]."""
    if values is None or not values.any():
        return ""
    axis, k, j, i = np.nonzero(values)
    return rows(name, np.stack([axis, i, j, k, values[axis, k, j, i]], axis=1))


def smoothed(values: NDArray) -> NDArray:
    """The binomial filter of numbers at the places of a grid, of shape (.., nz, ny, nx), whose weights are 64 in all."""
    for axis in -1, -2, -3:
        values = np.roll(values, 1, axis) + 2 * values + np.roll(values, -1, axis)
    return values


def charges(cells: Sequence[int], species: Iterable[Points | Lattice], side: int = 1 << SUB_1, filter: int = 0) -> NDArray[np.int64]:
    """The charge of each node, of shape (nz, ny, nx), with hats: 12 side^3 in all for a charge of 1; filtered where a run is."""
    total = np.zeros(tuple(reversed(cells)), np.int64)
    for kind in species:
        node, beyond = np.divmod(kind.position, side)
        for corner in np.ndindex(2, 2, 2):
            weight = np.prod(np.where(corner, beyond, side - beyond), axis=1)
            i, j, k = ((node + corner) % cells).T
            np.add.at(total, (k, j, i), 12 * kind.charge * weight)
    return smoothed(total) if filter else total


def divergence(e: NDArray) -> NDArray:
    """div E at each node, of shape (nz, ny, nx)."""
    return sum(e[a] - np.roll(e[a], 1, axis=2 - a) for a in range(3))


def field_of(charge: NDArray[np.int64]) -> NDArray[np.int64]:
    """An E whose divergence is the charge at every node, exactly, and whose curl is 0 but for roundings.

    The potential is solved for by Fourier's series in floating point. What is left over after rounding, some units a node,
    is carried along x to the last plane, there along y to the last line, and along it to the last node, where it is 0.
    """
    if charge.sum() != 0:
        raise DeckError(f"the charges of the nodes are {charge.sum():g} in all; a periodic box has none")
    waves = np.meshgrid(*(2 * np.pi * np.fft.fftfreq(n) for n in charge.shape), indexing="ij")
    square = sum(4 * np.sin(w / 2)**2 for w in waves)
    square[0, 0, 0] = 1
    potential = np.fft.ifftn(np.fft.fftn(charge.astype(float)) / square).real
    e = np.stack([np.rint(potential - np.roll(potential, -1, axis=2 - a)) for a in range(3)]).astype(np.int64)
    left = charge - divergence(e)
    for a in range(3):
        carried = np.cumsum(left, axis=2 - a)
        end = tuple(slice(-1, None) if axis == 2 - a else slice(None) for axis in range(3))
        left = np.zeros_like(left)
        left[end] = carried[end]
        e[a] += carried - left
    return e
