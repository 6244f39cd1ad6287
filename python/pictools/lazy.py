"""A component of a dump as an array of xarray's that isn't read before it is looked into, and then frame by frame."""

from __future__ import annotations

import numpy as np
from numpy.typing import NDArray
from xarray.backends import BackendArray
from xarray.core import indexing

from pictools import measure
from pictools.dump import Dump, rounded


def lazily(dump: Dump, name: str, factor: float) -> indexing.LazilyIndexedArray:
    """What xarray takes for such a component; parts of it aren't read either before they are looked into."""
    return indexing.LazilyIndexedArray(Component(dump, name, factor))


class Component(BackendArray):
    """A component in all frames of a dump, times a factor: shape (frames, nz, ny, nx)."""

    def __init__(self, dump: Dump, name: str, factor: float):
        self.records, (self.field, self.axis), self.factor = dump.records, measure.component(name), factor
        self.shape, self.dtype = (len(dump), *reversed(dump.header.cells)), np.dtype(np.float64)

    def __getitem__(self, key: indexing.ExplicitIndexer) -> NDArray[np.float64]:
        return indexing.explicit_indexing_adapter(key, self.shape, indexing.IndexingSupport.OUTER, self.taken)

    def taken(self, key: tuple) -> NDArray[np.float64]:
        """What a key of numbers, slices and rows of numbers takes, each along its own axis."""
        frames, *places = key
        numbers = np.arange(len(self.records))[frames]
        if not numbers.ndim:
            return self.part(int(numbers), places)
        found = [self.part(int(number), places) for number in numbers]
        return np.stack(found) if found else np.empty((0, *np.shape(self.part(0, places))))

    def part(self, number: int, places: list) -> NDArray[np.float64]:
        """A part of the component in one frame. From the last axis to the first, so that a number leaves the others in place."""
        values = rounded(self.records[self.field][number, self.axis]) * self.factor
        for axis in reversed(range(3)):
            values = values[(slice(None),) * axis + (places[axis],)]
        return values
