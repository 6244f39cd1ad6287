"""The antenna of a plasma: driven loops at all places of a plane, which launch light along its axis, both ways."""

from __future__ import annotations

from math import ceil, pi, sin
from typing import TYPE_CHECKING

import numpy as np

from pictools import theory
from pictools.header import Loop
from pictools.limits import AXES, refuse
from pictools.versions import MOST_LOOPS, MOST_NUMBER

if TYPE_CHECKING:
    from pictools.plasma import Plasma


class Antenna:
    """Of a plasma that has one. Its wave goes along an axis; E stands along the axis that follows it (x, y, z, x), and the loops lie
    across the third."""

    def __init__(self, plasma: Plasma):
        self.plasma, self.axis = plasma, AXES.index(plasma.antenna_axis)
        self.field, self.across = (self.axis + 1) % 3, (self.axis + 2) % 3

    def test(self) -> None:
        """An antenna has a long axis, a place on it, and a plane that its loops fill."""
        p, cells = self.plasma, self.plasma.cells
        if cells[self.axis] == 2:
            refuse("antenna_axis", p.antenna_axis, "its waves go along an axis of more than two cells")
        if p.antenna_place >= cells[self.axis]:
            refuse("antenna_place", p.antenna_place, f"along {p.antenna_axis} the box has the cells 0 to {cells[self.axis] - 1}")
        if len(self.cells) > MOST_LOOPS:
            refuse("antenna", p.antenna,
                   f"a plane across {p.antenna_axis} has {len(self.cells)} places, and a run at most {MOST_LOOPS} loops, one a place; "
                   "choose a box of at most 16 cells across, as 2 by 2 or 4 by 4")
        if self.height > MOST_NUMBER:
            refuse("antenna", p.antenna, f"the numbers of its wave would be up to {self.height:.1e}, at most 2^60; choose a smaller one")

    @property
    def cells(self) -> list[tuple[int, int, int]]:
        """Those of the plane, x fastest."""
        wide = [range(n) for n in self.plasma.cells]
        wide[self.axis] = [self.plasma.antenna_place]
        return [(x, y, z) for z in wide[2] for y in wide[1] for x in wide[0]]

    @property
    def frequency(self) -> float:
        return 2 * pi / self.plasma.antenna_period

    @property
    def number(self) -> complex:
        """The wave number that its light has in the plasma, in radians a cell; with an imaginary part where it is damped."""
        return theory.light_number(self.frequency, self.plasma.light_speed, self.plasma.plasma_frequency, self.plasma.filter)

    @property
    def height(self) -> float:
        """Of the wave's numbers. Loops of this height M, one a place of a plane, launch an E of M sin(w/2) / (c^2 cos(k/2)), and an E
        that swings makes an electron swing by kick e_force E / sin(w/2)."""
        p = self.plasma
        return p.antenna * p.fast * p.light_speed**2 * abs(np.cos(self.number / 2)) / abs(p.kick.value * p.e_force.value)

    @property
    def loops(self) -> list[Loop]:
        height, period = self.height, self.plasma.antenna_period
        wave = tuple(round(height * sin(2 * pi * n / period)) for n in range(period))
        return [Loop(self.across, cell, wave) for cell in self.cells]

    @property
    def round_the_box(self) -> int:
        """About how many steps its light takes from one side of the antenna to the other; 0 for light that is damped. It goes
        both ways, so after half of that the two meet."""
        k, w, p = self.number, self.frequency, self.plasma
        if k.imag:
            return 0
        speed = (theory.light(k.real + 1e-4, p.light_speed, p.frequency_of(k.real)) - w) / 1e-4
        return ceil(p.cells[self.axis] / speed)

    def said(self) -> str:
        """What it launches, in words."""
        p, k = self.plasma, self.number
        number = len(self.cells)
        text = (f"An antenna of {number} loops across {p.antenna_axis}, at its cell {p.antenna_place}, with a period of {p.antenna_period} "
                f"steps, {self.frequency:.4g} a step; its E stands along {AXES[self.field]}, and an electron swings by "
                f"{p.antenna:g} cells a step beside it. ")
        if k.imag:
            return text + f"Light of this frequency doesn't go through the plasma: it falls by e in {1 / abs(k.imag):.4g} cells."
        return text + (f"Its waves are {2 * pi / k.real:.4g} cells long, go both ways, meet after some {self.round_the_box // 2} steps and "
                       f"come round the box after {self.round_the_box}.")


def loops_of(plasma: Plasma) -> list[Loop]:
    """The antenna's, of a plasma that has one."""
    return Antenna(plasma).loops if plasma.antenna else []
