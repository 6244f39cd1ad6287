"""Reading dumps: the header, the frames and the end record of a run, from a file or from a pipe.

    dump = Dump("two_stream.dump")          # a memory map: nothing is read before it is asked for
    dump.header.cells                       # (64, 2, 2)
    frame = dump[-1]                        # frames count as in a list; their steps are dump.steps
    frame = dump.at(240)                    # or by their step
    dump[20:40]                             # a part of the dump
    frame.e                                 # float64, of shape (3, nz, ny, nx)
    frame.species("electron")["velocity"]   # int32, of shape (particles, 3)
    frame.table()                           # a pandas.DataFrame of the particles
    dump.to_pandas(0, 7)                    # the tracks of two particles
    dump.to_xarray("ex", "bz")              # an xarray.Dataset of components, which reads a frame when it is looked into

The bytes are those of docs/FORMATS.md. What a reader can see of a damaged dump without computing the run anew is seen:
the header's numbers, each record's kind and step, the end record, and the length. The error names the byte. A dump that
ends early, of a run that was cut or that still writes, gives its whole frames to Dump(path, partial=True).
"""

from __future__ import annotations

import copy
import os
from collections.abc import Iterator
from dataclasses import dataclass, replace
from functools import cached_property
from typing import TYPE_CHECKING, Any, BinaryIO

import numpy as np
from numpy.typing import NDArray

from pictools.header import DumpError, Header, Multiplier, Species, limited, read_header

if TYPE_CHECKING:
    import pandas
    import xarray

__all__ = ["Dump", "DumpError", "DumpStream", "End", "Frame", "Header", "Multiplier", "Species", "exact", "rounded"]

END_LENGTH = {0: 6, 1: 37, 2: 28}
PHASES = {1: "half1", 3: "half2", 4: "electric"}
BOUNDS = {1: ("value", 2**90), 2: ("force", 2**44)}
FAULTS = {1: ("speed", 2**40), 2: ("turn", 2**24)}
FAR = 3


class CutError(DumpError):
    """The bytes end where the dump doesn't."""


@dataclass(frozen=True)
class End:
    """The end record: `text` is the report's last line, `done` whether the run reached the deck's last step."""

    done: bool
    step: int
    text: str


def exact(wide: NDArray) -> NDArray:
    """Numbers of 16 bytes as Python's own whole numbers, in an array of objects of the same shape."""
    return (wide["high"].astype(object) << 64) + wide["low"].astype(object)


def rounded(wide: NDArray) -> NDArray[np.float64]:
    """Numbers of 16 bytes as float64, each the nearest to its number (a half to the even one).

    The two halves can't be turned into floats and added: each would be rounded, and -1 would become 0. Here a number's
    size is cut to its upper 64 bits, with the lowest one set where anything was cut off, and these are rounded once.
    """
    high, low = wide["high"].astype(np.int64), wide["low"].astype(np.uint64)
    negative = high < 0
    low = np.where(negative, ~low + np.uint64(1), low)
    high = np.where(negative, ~high + (low == 0), high).astype(np.uint64)
    bits = np.frexp(high.astype(np.float64))[1].astype(np.uint64)
    short = np.maximum(bits, 1) - np.uint64(1)
    left = np.uint64(63) - short
    upper = high << left | low >> short >> np.uint64(1) | (low << left != 0)
    size = np.where(bits == 0, low, upper).astype(np.float64)
    return np.where(negative, -1.0, 1.0) * np.ldexp(size, bits.astype(np.int32))


class Frame:
    """One frame. Its numbers are turned into numpy's own when they are asked for."""

    def __init__(self, header: Header, record: np.void):
        self.header, self.record = header, record
        self.step = int(record["step"])

    @cached_property
    def e(self) -> NDArray[np.float64]:
        """E, of shape (3, nz, ny, nx), in the dump's own unit: a charge 1 is `header.unit_charge` of div E, 12 * 4096^3 in version 1,
        and with a filter so much of the 27 nodes around it."""
        return rounded(self.record["e"])

    @cached_property
    def b(self) -> NDArray[np.float64]:
        """B, of shape (3, nz, ny, nx); it is 2 e_to_b times the B of Faraday's law without a factor."""
        return rounded(self.record["b"])

    @cached_property
    def exact_e(self) -> NDArray[np.object_]:
        """E as whole numbers of Python."""
        return exact(self.record["e"])

    @cached_property
    def exact_b(self) -> NDArray[np.object_]:
        """B as whole numbers of Python."""
        return exact(self.record["b"])

    @cached_property
    def energies(self) -> tuple[int, int, int]:
        """Kinetic, electric and magnetic, as printed. They are in three units: see `units.energies`."""
        halves = self.record["energies"]
        return tuple((int(h) % 2**64 << 64) + int(l) for h, l in zip(halves["high"], halves["low"]))

    @cached_property
    def particles(self) -> NDArray:
        """All particles by identity: `species` (its number), `position` (3, in sub-cells), `velocity` (3, in 1/4096
        sub-cell a step, of half a step before the frame)."""
        table = np.empty(self.header.particles, [("species", "u1"), ("position", "u4", 3), ("velocity", "i4", 3)])
        table["species"] = np.repeat(np.arange(len(self.header.species)), [s.count for s in self.header.species])
        table["position"] = self.record["particles"]["position"]
        table["velocity"] = self.record["particles"]["velocity"]
        return table

    def species(self, name: str) -> NDArray:
        """The particles of one species, as in `particles`."""
        kind = self.header.named(name)
        return self.particles[kind.first : kind.first + kind.count]

    def table(self) -> pandas.DataFrame:
        """The particles by identity, for pandas: `species` (its name), x, y, z in cells, and vx, vy, vz in cells a step, of half
        a step before the frame. The numbers are exact."""
        from pictools import tables
        return tables.particles(self)

    def __repr__(self) -> str:
        return f"<Frame of step {self.step}: {box(self.header)}>"


def box(header: Header) -> str:
    """The size of a run in words."""
    return f"{' x '.join(map(str, header.cells))} cells, {header.particles} particles"


def listed(place: int, what: str, number: int, names: dict) -> Any:
    """What a number stands for, which has to be one of those listed."""
    if number not in names:
        raise DumpError(place, f"{what} is {number}, not one of {', '.join(map(str, names))}")
    return names[number]


def read_end(header: Header, data: bytes, place: int, last: int) -> End:
    """The end record that `data` is, all of it, at `place`, after the frame of the step `last`."""
    kind = data[1] if len(data) > 1 else 0
    if len(data) > 1 and (kind not in END_LENGTH or (kind == 0) != (last == header.steps)):
        raise DumpError(place + 1, f"an end record of the kind {kind} after the frame of step {last}")
    if len(data) < END_LENGTH[kind]:
        raise CutError(place + len(data), "the dump ends in its end record")
    if len(data) > END_LENGTH[kind]:
        raise DumpError(place + END_LENGTH[kind], "a byte after the end record")
    step = int.from_bytes(data[2:6], "big")
    if kind == 0:
        limited(place + 2, "the step of the end", step, header.steps, header.steps)
        return End(True, step, f"done {step}")
    limited(place + 2, "the step of the end", step, last + 1, header.next_due(last))
    what, bound = (field_stop if kind == 1 else particle_stop)(header, data, place)
    value = int.from_bytes(data[-16:], "big", signed=True)
    if abs(value) <= bound:
        raise DumpError(place + len(data) - 16, f"{value} doesn't pass the bound {bound}")
    return End(False, step, f"stopped {step} {what} {value}")


def field_stop(header: Header, data: bytes, place: int) -> tuple[str, int]:
    """What stopped, as the report has it, and the bound that it passed, of an end record of kind 1."""
    phase = listed(place + 6, "a phase", data[6], PHASES)
    name, bound = listed(place + 7, "a bound", data[7], BOUNDS)
    axis = limited(place + 8, "an axis", data[8], 0, 2)
    cell = [limited(place + at, "a cell", int.from_bytes(data[at : at + 4], "big"), 0, cells - 1)
            for at, cells in zip((9, 13, 17), header.cells)]
    return f"field {phase} {name} {axis} {' '.join(map(str, cell))}", bound


def particle_stop(header: Header, data: bytes, place: int) -> tuple[str, int]:
    """The same of an end record of kind 2."""
    identity = limited(place + 6, "an identity", int.from_bytes(data[6:10], "big"), 0, header.particles - 1)
    name, bound = listed(place + 10, "a fault", data[10], FAULTS | {FAR: ("far", header.side)})
    axis = limited(place + 11, "an axis", data[11], 0, 2)
    return f"particle {identity} {name} {axis}", bound


def test_step(header: Header, place: int, step: int, last: int | None) -> None:
    """The frame at `place` has to be the one that is due after that of the step `last`."""
    if last == header.steps:
        raise DumpError(place, "a frame after that of the last step")
    due = 0 if last is None else header.next_due(last)
    if step != due:
        raise DumpError(place + 1, f"a frame of step {step} where that of step {due} is due")


class DumpStream:
    """A dump that comes through a pipe: `header` at once, the frames by iteration, and `end` after the last of them.

    With `partial` a dump that ends early gives its whole frames; then `end` is None, and `cut` says what is missing.
    """

    def __init__(self, file: BinaryIO, partial: bool = False):
        self.file, self.partial = file, partial
        self.header, self.header_bytes = read_header(file)
        self.end: End | None = None
        self.end_bytes = b""
        self.cut = ""

    def __iter__(self) -> Iterator[Frame]:
        place, last, kind = self.header.length, None, self.header.frame_type
        while True:
            tag = self.file.read(1)
            if tag == b"E" and last is not None:
                self.take_end(tag, place, last)
                return
            if tag not in (b"", b"F"):
                raise DumpError(place, f"no record begins with {tag!r} here")
            data = tag + self.file.read(kind.itemsize - 1)
            if len(data) < kind.itemsize:
                reason = "the dump ends in a frame" if tag else "the dump has no end record"
                self.end_early(CutError(place + len(data), reason), last)
                return
            frame = Frame(self.header, np.frombuffer(data, kind)[0])
            test_step(self.header, place, frame.step, last)
            place, last = place + kind.itemsize, frame.step
            yield frame

    def take_end(self, tag: bytes, place: int, last: int) -> None:
        """The end record, at `place`, after the frame of the step `last`."""
        data = tag + self.file.read()
        try:
            self.end = read_end(self.header, data, place, last)
            self.end_bytes = data
        except CutError as error:
            self.end_early(error, last)

    def end_early(self, error: CutError, last: int | None) -> None:
        """What is missing, where whole frames are enough."""
        if not self.partial or last is None:
            raise error
        self.cut = str(error)


class Dump:
    """A dump in a file, as a list of its frames: `len(dump)`, `dump[i]`, iteration, and `dump[i:j]`, a dump of these frames.

    With `partial` a dump that ends early gives its whole frames; then `end` is None, and `cut` says what is missing.
    """

    def __init__(self, path: str | os.PathLike, partial: bool = False):
        self.path, self.cut = os.fspath(path), ""
        self.end: End | None = None
        with open(path, "rb") as file:
            self.header, _ = read_header(file)
        data = np.memmap(path, np.uint8, "r")
        kind, start = self.header.frame_type, self.header.length
        whole = (len(data) - start) // kind.itemsize
        tags = data[start :: kind.itemsize]
        count = int(np.argmin(np.append(tags == ord("F"), False)))
        self.records = data[start : start + min(count, whole) * kind.itemsize].view(kind)
        self.steps = self.records["step"].astype(np.int64)
        last = None
        for number, step in enumerate(self.steps):
            test_step(self.header, start + number * kind.itemsize, int(step), last)
            last = int(step)
        try:
            self.end = self.read_end(data, start + count * kind.itemsize, last)
        except CutError as error:
            if not partial or last is None:
                raise
            self.cut = str(error)

    def read_end(self, data: NDArray[np.uint8], place: int, last: int | None) -> End:
        """The end record at `place`, after the frame of the step `last`."""
        if place > len(data):
            raise CutError(len(data), "the dump ends in a frame")
        rest = data[place : place + 64].tobytes()
        if not rest:
            raise CutError(place, "the dump has no end record")
        if rest[:1] != b"E" or last is None:
            raise DumpError(place, f"no record begins with {rest[:1]!r} here")
        return read_end(self.header, rest, place, last)

    @staticmethod
    def stream(file: BinaryIO, partial: bool = False) -> DumpStream:
        """A dump from a pipe, as `Dump.stream(sys.stdin.buffer)`, frame by frame."""
        return DumpStream(file, partial)

    def __len__(self) -> int:
        return len(self.records)

    def __getitem__(self, index: int | slice) -> Any:
        """A frame, or a dump of some frames: where every nth is taken, the header's `every` is n times as large."""
        if not isinstance(index, slice):
            return Frame(self.header, self.records[index])
        if (index.step or 1) < 1:
            raise ValueError(f"frames {index.start}:{index.stop}:{index.step} can't be taken; they go forward")
        part = copy.copy(self)
        part.__dict__.pop("energies", None)
        part.records, part.steps = self.records[index], self.steps[index]
        part.header = replace(self.header, every=self.header.every * (index.step or 1))
        return part

    def __iter__(self) -> Iterator[Frame]:
        return (self[i] for i in range(len(self)))

    def at(self, step: int) -> Frame:
        """The frame of a step, which has to be there."""
        place = int(np.searchsorted(self.steps, step))
        if place == len(self) or self.steps[place] != step:
            near = [str(s) for s in self.steps[max(place - 1, 0) : place + 1]]
            raise ValueError(f"no frame of step {step}; near it are {' and '.join(near) or 'none'}")
        return self[place]

    def __repr__(self) -> str:
        steps = f"{len(self)} frames of steps {self.steps[0]} to {self.steps[-1]}" if len(self) else "no frames"
        return f"<Dump {self.path}: {box(self.header)}, {steps}, {self.end.text if self.end else 'without its end'}>"

    @cached_property
    def energies(self) -> NDArray[np.float64]:
        """Kinetic, electric and magnetic energies of all frames, as printed, of shape (frames, 3)."""
        return np.array([[float(value) for value in frame.energies] for frame in self])

    def field(self, name: str, axis: int) -> NDArray[np.float64]:
        """One component of a field in all frames, of shape (frames, nz, ny, nx); `name` is "e" or "b"."""
        values = np.empty((len(self), *reversed(self.header.cells)))
        for number in range(len(self)):
            values[number] = rounded(self.records[name][number, axis])
        return values

    def profile(self, name: str, axis: int, along: str = "x") -> NDArray[np.float64]:
        """The means of a component over the planes across `along`, in all frames, of shape (frames, cells along it)."""
        over = tuple(a for a, other in enumerate("zyx") if other != along)
        values = np.empty((len(self), self.header.cells["xyz".index(along)]))
        for number in range(len(self)):
            values[number] = rounded(self.records[name][number, axis]).mean(axis=over)
        return values

    def to_pandas(self, *identities: int, units: str = "steps") -> pandas.DataFrame:
        """The particles of these identities over step and identity, for pandas, as in `table` of a frame; all of them where none is
        named, which a large dump wants in parts, as `dump[-1:].to_pandas()`. `units` are "steps" or "plasma"."""
        from pictools import tables
        return tables.tracks(self, identities, units)

    def to_xarray(self, *components: str, units: str = "dump") -> xarray.Dataset:
        """Components over step, z, y and x, for xarray, as `dump.to_xarray("ex", "bz")`; all six where none is named. `units` are
        "dump" (fields in the dump's numbers), "steps" or "plasma". A frame is read when it is looked into: `.chunk(step=1)`, by
        dask, goes through a large dump frame by frame."""
        from pictools import tables
        return tables.fields(self, components, units)
