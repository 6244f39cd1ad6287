"""What a plasma's deck asks of `pic probe`: components at places along an axis, and the orbits of some electrons."""

from __future__ import annotations

from math import ceil
from typing import TYPE_CHECKING

from pictools.deck import Place
from pictools.limits import AXES, refuse
from pictools.versions import MOST_PROBES
from pictools.views import COMPONENTS

if TYPE_CHECKING:
    from pictools.plasma import Plasma


def components(plasma: Plasma) -> list[str]:
    return plasma.probe.split(",") if plasma.probe else []


def test(plasma: Plasma) -> None:
    """Whether what is asked for is there."""
    names = components(plasma)
    if len(set(names)) < len(names) or not set(names) <= set(COMPONENTS):
        refuse("probe", plasma.probe, f"it is one component or several, as ey or ey,bz, of {', '.join(COMPONENTS)}, each once")
    if plasma.trace > plasma.electrons:
        refuse("trace", plasma.trace, f"there are {plasma.electrons} electrons")


def places(plasma: Plasma) -> list[Place]:
    """For each component cells of the axis, evenly apart: all of them, where all components have room for that."""
    names, axis = components(plasma), AXES.index(plasma.probe_axis)
    apart = ceil(plasma.cells[axis] * len(names) / MOST_PROBES)
    while names and len(range(0, plasma.cells[axis], apart)) * len(names) > MOST_PROBES:
        apart += 1
    return [Place(name, tuple(n * (a == axis) for a in range(3))) for name in names for n in range(0, plasma.cells[axis], apart)]


def ids(plasma: Plasma) -> list[int]:
    """The identities of so many electrons, evenly apart among them."""
    electrons, first = [], 0
    for species in plasma.species if plasma.trace else ():
        electrons += range(first, first + species.count) if species.charge < 0 else ()
        first += species.count
    return [electrons[n * len(electrons) // plasma.trace] for n in range(plasma.trace)]


def said(plasma: Plasma) -> list[str]:
    """What `pic probe` puts, in words."""
    found, lines = places(plasma), []
    if found:
        names, number = components(plasma), len(found) // len(components(plasma))
        lines.append(f"`pic probe` puts {' and '.join(names)} at {number} cells along {plasma.probe_axis}, at every step.")
    if plasma.trace:
        lines.append(f"`pic probe` puts the orbits of {plasma.trace} electrons, a place and a velocity at every step.")
    return lines
