"""The front of a dump: its types, its header, and the errors that name a byte."""

from __future__ import annotations

from collections.abc import Sequence
from dataclasses import dataclass
from functools import cached_property
from math import prod
from typing import BinaryIO, NamedTuple

import numpy as np

from pictools.versions import ALLOWANCES, MOST_LOOPS, MOST_NUMBER, MOST_WAVE, Sided

MAGIC = b"PICDUMP"          # and the digit of the version
WIDE = np.dtype([("high", ">i8"), ("low", ">u8")])
PARTICLE = np.dtype([("position", ">u4", 3), ("velocity", ">i4", 3)])
HEADER = {version: np.dtype([("magic", "S8"), ("cells", ">u4", 3), ("steps", ">u4"), ("every", ">u4"),
                             ("scales", [("n", ">i4"), ("k", ">u4")], 4), *form, ("species", ">u4")])
          for version, form in ((1, []), (2, [("sub", ">u4"), ("filter", ">u4"), ("loops", ">u4")]))}
SPECIES = np.dtype([("name", "S32"), ("charge", ">i4"), ("mass", ">u4"),
                    ("kick", [("n", ">i4"), ("k", ">u4")]), ("turn", [("n", ">i4"), ("k", ">u4")]), ("count", ">u4")])
LOOP = np.dtype([("axis", ">u4"), ("cell", ">u4", 3), ("length", ">u4")])
NUMBER = np.dtype(">i8")    # of a loop's wave


def frame_length(cells: Sequence[int], particles: int) -> int:
    """The bytes of a frame."""
    return 53 + 96 * prod(cells) + 24 * particles


def frames_due(steps: int, every: int) -> int:
    """How many frames are due in a run that comes to its end."""
    return steps // every + 1 + (steps % every > 0)


class DumpError(ValueError):
    """The bytes are no dump that this reader knows. `place` is the byte where they leave the format."""

    def __init__(self, place: int, reason: str):
        super().__init__(f"byte {place}: {reason}")
        self.place = place


class Loop(NamedTuple):
    """A driven current loop: around the face of a cell across an axis (0, 1, 2), with the numbers of its wave, one a step."""

    axis: int
    cell: tuple[int, int, int]
    wave: tuple[int, ...]


def header_length(version: int, species: int, loops: Sequence[Loop] = ()) -> int:
    """The bytes of a header with so many species, and these loops."""
    waves = sum(len(loop.wave) for loop in loops)
    return HEADER[version].itemsize + SPECIES.itemsize * species + LOOP.itemsize * len(loops) + NUMBER.itemsize * waves


class Multiplier(NamedTuple):
    """The factor n / 2^k."""

    n: int
    k: int

    @property
    def value(self) -> float:
        return self.n / 2**self.k


@dataclass(frozen=True)
class Species:
    """A species of the header. Its particles have the identities first, first + 1, .., first + count - 1."""

    name: str
    charge: int
    mass: int
    kick: Multiplier
    turn: Multiplier
    count: int
    first: int


@dataclass(frozen=True)
class Header(Sided):
    """What a dump says before its frames. `cells` is (nx, ny, nz)."""

    cells: tuple[int, int, int]
    steps: int
    every: int
    e_to_b: Multiplier
    b_to_e: Multiplier
    e_force: Multiplier
    b_force: Multiplier
    species: tuple[Species, ...]
    sub: int | None = None
    filter: int = 0
    loops: tuple[Loop, ...] = ()

    @property
    def particles(self) -> int:
        return sum(s.count for s in self.species)

    @property
    def length(self) -> int:
        """The header's bytes."""
        return header_length(self.version, len(self.species), self.loops)

    @cached_property
    def frame_type(self) -> np.dtype:
        """A frame's bytes. Fields have the shape (3, nz, ny, nx): axis, then z, y, x."""
        field = (3, *reversed(self.cells))
        return np.dtype([("tag", "S1"), ("step", ">u4"), ("e", WIDE, field), ("b", WIDE, field),
                         ("particles", PARTICLE, (self.particles,)), ("energies", WIDE, (3,))])

    def due(self, step: int) -> bool:
        """Whether a frame of this step is due."""
        return step <= self.steps and (step % self.every == 0 or step == self.steps)

    def next_due(self, step: int) -> int:
        """The step of the due frame after the one of `step`."""
        return min(step + self.every - step % self.every, self.steps)

    @property
    def frames(self) -> int:
        """How many frames are due in a run that comes to its end."""
        return frames_due(self.steps, self.every)

    def named(self, name: str) -> Species:
        for species in self.species:
            if species.name == name:
                return species
        raise KeyError(f"no species {name!r}; there are {', '.join(s.name for s in self.species) or 'none'}")


def limited(place: int, what: str, number: int, low: int, high: int) -> int:
    """A number that has to be from `low` to `high`."""
    if not low <= number <= high:
        raise DumpError(place, f"{what} is {number}, not from {low} to {high}")
    return number


def read_multiplier(place: int, what: str, pair: np.void) -> Multiplier:
    n = limited(place, f"n of {what}", int(pair["n"]), 1 - 2**31, 2**31 - 1)
    return Multiplier(n, limited(place + 4, f"k of {what}", int(pair["k"]), 0, 62))


def read_species(data: bytes, version: int, earlier: list[Species]) -> Species:
    """The species that `data` spells, after the earlier ones."""
    row, place = np.frombuffer(data, SPECIES)[0], header_length(version, len(earlier))
    name = data[:32].rstrip(b"\0")
    if not name or not all(chr(c).isalnum() and c < 128 or c == 95 for c in name):
        raise DumpError(place, f"{name!r} is no name of a species")
    if name.decode() in (s.name for s in earlier):
        raise DumpError(place, f"a second species is named {name.decode()}")
    first = sum(s.count for s in earlier)
    return Species(
        name=name.decode(), first=first,
        charge=limited(place + 32, "a charge", int(row["charge"]), -32768, 32767),
        mass=limited(place + 36, "a mass", int(row["mass"]), 1, 65536),
        kick=read_multiplier(place + 40, "kick", row["kick"]), turn=read_multiplier(place + 48, "turn", row["turn"]),
        count=limited(place + 56, "a number of particles", int(row["count"]), 0,
                      ALLOWANCES[version].particles - first))


def read_version(data: bytes) -> int:
    """The version of the dump that begins with these 8 bytes."""
    for place, (here, there) in enumerate(zip(data, MAGIC)):
        if here != there:
            raise DumpError(place, "no dump begins so: its first bytes are PICDUMP1 or PICDUMP2")
    if len(data) <= len(MAGIC):
        raise DumpError(len(data), "the dump ends in its header")
    version = data[len(MAGIC)] - ord("0")
    if version not in ALLOWANCES:
        raise DumpError(7, f"a dump of the kind {data.decode('ascii', 'replace')}; this reader knows PICDUMP1 and PICDUMP2")
    return version


def read_form(row: np.void) -> tuple[int, int, int]:
    """The sub, the filter and the number of loops of a header of version 2."""
    allowance = ALLOWANCES[2]
    sub = limited(60, "sub", int(row["sub"]), allowance.least_sub, allowance.greatest_sub)
    chosen = limited(64, "filter", int(row["filter"]), 0, allowance.greatest_filter)
    return sub, chosen, limited(68, "the number of loops", int(row["loops"]), 0, MOST_LOOPS)


def read_more(file: BinaryIO, data: bytes, number: int) -> bytes:
    """So many bytes more of a header that began with these: all together."""
    part = file.read(number)
    if len(part) < number:
        raise DumpError(len(data) + len(part), "the dump ends in its header")
    return data + part


def read_loop(file: BinaryIO, data: bytes, cells: Sequence[int]) -> tuple[Loop, bytes]:
    """The loop behind a header's bytes so far, and these with it."""
    place = len(data)
    data = read_more(file, data, LOOP.itemsize)
    row = np.frombuffer(data, LOOP, 1, place)[0]
    axis = limited(place, "the axis of a loop", int(row["axis"]), 0, 2)
    cell = tuple(limited(place + 4 + 4 * a, "the cell of a loop", int(n), 0, cells[a] - 1) for a, n in enumerate(row["cell"]))
    length, place = limited(place + 16, "the length of a wave", int(row["length"]), 1, MOST_WAVE), len(data)
    data = read_more(file, data, NUMBER.itemsize * length)
    wave = tuple(limited(place + 8 * i, "a number of a wave", n, -MOST_NUMBER, MOST_NUMBER)
                 for i, n in enumerate(np.frombuffer(data, NUMBER, length, place).tolist()))
    return Loop(axis, cell, wave), data


def read_header(file: BinaryIO) -> tuple[Header, bytes]:
    """The header at the front of a file or a pipe, and its bytes."""
    data = file.read(len(MAGIC) + 1)
    version = read_version(data)
    kind = HEADER[version]
    data = read_more(file, data, kind.itemsize - len(data))
    row = np.frombuffer(data, kind)[0]
    scales = [read_multiplier(28 + 8 * i, name, row["scales"][i])
              for i, name in enumerate(("e_to_b", "b_to_e", "e_force", "b_force"))]
    cells = tuple(limited(8 + 4 * a, "cells", int(n), 2, ALLOWANCES[version].cells) for a, n in enumerate(row["cells"]))
    steps = limited(20, "steps", int(row["steps"]), 0, 10**6)
    every = limited(24, "every", int(row["every"]), 1, 10**6)
    *form, number = read_form(row) if version == 2 else (None, 0, 0)
    species: list[Species] = []
    for _ in range(limited(kind.itemsize - 4, "the number of species", int(row["species"]), 0, 16)):
        data = read_more(file, data, SPECIES.itemsize)
        species.append(read_species(data[-SPECIES.itemsize:], version, species))
    loops: list[Loop] = []
    for _ in range(number):
        loop, data = read_loop(file, data, cells)
        loops.append(loop)
    return Header(cells, steps, every, *scales, tuple(species), *form, tuple(loops)), data
