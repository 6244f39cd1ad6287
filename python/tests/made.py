"""Small dumps made by hand: fields and particles that a test chooses, in a plasma of known numbers."""

import struct
from math import prod

import numpy as np

from pictools.deck import multiplier
from pictools.dump import Multiplier

# An e of 2^21 is then a force value of 1, and a kick of about 2^-8 makes a plasma frequency of 0.1 with 4 electrons a cell.
E_FORCE = Multiplier(1, 21)
UNIT = 2.0**30              # of the fields that are given as floats
SIDE, FAST = 2**12, 2**24   # of version 1


def kick_of(wp: float, a_cell: float) -> float:
    return wp**2 / (24 * SIDE * a_cell * E_FORCE.value)


def wide(values: np.ndarray) -> bytes:
    return b"".join(int(v).to_bytes(16, "big", signed=True) for v in np.rint(values).ravel())


def header(cells, steps: int, every: int, kinds, wp: float, c: float) -> bytes:
    """A header for species (name, charge, count): electrons of the plasma frequency wp in all, and ions that don't move."""
    data = b"PICDUMP1" + struct.pack(">5I", *cells, steps, every)
    for m in (Multiplier(1, 1), multiplier(c**2), E_FORCE, E_FORCE):
        data += struct.pack(">iI", *m)
    light = [count for _, charge, count in kinds if charge < 0]
    kick = -kick_of(wp, sum(light) / prod(cells)) if light and wp else 0
    data += struct.pack(">I", len(kinds))
    for name, charge, count in kinds:
        pair = (multiplier(kick), multiplier(kick / 16)) if charge < 0 else (Multiplier(0, 0), Multiplier(0, 0))
        data += struct.pack(">32siI", name.encode(), charge, 1) + b"".join(struct.pack(">iI", *m) for m in pair)
        data += struct.pack(">I", count)
    return data


def dump(cells=(8, 2, 2), e=None, b=None, every=1, particles=None, kinds=(), wp=0.1, c=0.5) -> bytes:
    """A dump of as many frames as `e` and `b` have: functions of the frame's number that give floats of shape (3, nz, ny, nx) in
    UNITs, or arrays of (frames, 3, nz, ny, nx). `particles` gives of a frame's number the places (particles, 3), in cells, and
    the velocities, in cells a step."""
    frames = len(e if e is not None else b)
    steps = (frames - 1) * every
    zero = np.zeros((3, *reversed(cells)))
    data = header(cells, steps, every, kinds, wp, c)
    for number in range(frames):
        data += b"F" + struct.pack(">I", number * every)
        for field in (e, b):
            data += wide(zero if field is None else np.asarray(field[number]) * UNIT)
        if particles is not None:
            places, speeds = particles(number)
            table = np.empty(len(places), [("x", ">u4", 3), ("v", ">i4", 3)])
            table["x"] = np.floor(places * SIDE) % (np.array(cells) * SIDE)
            table["v"] = np.rint(speeds * FAST)
            data += table.tobytes()
        data += bytes(48)
    return data + b"E\0" + struct.pack(">I", steps)


def waves(cells, steps, name: str, parts) -> np.ndarray:
    """A field (frames, 3, nz, ny, nx) in which one component is a sum of waves: (numbers (3,), complex heights (frames,))
    each."""
    z, y, x = np.meshgrid(*(np.arange(n) / n for n in reversed(cells)), indexing="ij")
    field = np.zeros((len(steps), 3, *reversed(cells)))
    for numbers, heights in parts:
        wave = np.exp(2j * np.pi * (numbers[0] * x + numbers[1] * y + numbers[2] * z))
        field[:, "xyz".index(name[1])] += (np.asarray(heights)[:, None, None, None] * wave).real
    return field
