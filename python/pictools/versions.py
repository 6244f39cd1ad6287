"""The two versions of decks and dumps: what each allows, and what follows from how many sub-cells a cell has."""

from __future__ import annotations

from typing import NamedTuple

VELOCITY_UNIT = 4096        # a velocity of so much is a sub-cell a step
SUB_1 = 12                  # a cell of version 1 has 2^12 sub-cells along each axis


class Allowance(NamedTuple):
    """What a version allows: cells along an axis, particles, from what to what `sub` may be, and the filters up to one."""

    cells: int
    particles: int
    least_sub: int
    greatest_sub: int
    greatest_filter: int


ALLOWANCES = {1: Allowance(64, 1 << 20, SUB_1, SUB_1, 0), 2: Allowance(128, 1 << 22, 8, 14, 1)}
FILTER_WEIGHT = 64          # the weights of the binomial filter, in all
MOST_LOOPS = 16             # driven loops, in version 2
MOST_WAVE = 64              # the numbers of a loop's wave,
MOST_NUMBER = 1 << 60       # and how large each may be
MOST_PROBES = 64            # probed places, and as many particles


class Sided:
    """What has a `sub`: a cell has 2^sub sub-cells along each axis. None is version 1, where they are 2^12. And what has a `filter`
    of the current: 0 for none, 1 for the binomial one."""

    sub: int | None
    filter: int

    @property
    def version(self) -> int:
        return 1 if self.sub is None else 2

    @property
    def allowance(self) -> Allowance:
        return ALLOWANCES[self.version]

    @property
    def side(self) -> int:
        """Sub-cells a cell along each axis."""
        return 1 << (SUB_1 if self.sub is None else self.sub)

    @property
    def fast(self) -> int:
        """A velocity of one cell a step."""
        return VELOCITY_UNIT * self.side

    @property
    def filter_weight(self) -> int:
        """How many times as large the filter makes a uniform current, and so E."""
        return FILTER_WEIGHT if self.filter else 1

    @property
    def unit_charge(self) -> int:
        """What a particle of charge 1 adds to the charges of the nodes, filtered, in all."""
        return 12 * self.side**3 * self.filter_weight

    @property
    def unit_current(self) -> int:
        """By how much a step changes E where a particle a cell, of charge 1, moves with a velocity of 1."""
        return 12 * self.side**2 // VELOCITY_UNIT * self.filter_weight
