"""What theory expects of a dump: curves of its spectrum, growth and damping, from its multipliers and its first frame."""

from __future__ import annotations

from collections.abc import Sequence
from math import pi, sqrt
from typing import NamedTuple

import numpy as np
from numpy.typing import NDArray

from pictools import theory, units
from pictools.dump import Dump, Frame, Header
from pictools.measure import AXES, Wave, component

BRANCHES = 4                # of Bernstein's waves
WARM = 0.5                  # a circle's radius, in the shortest wave's inverse wave number, from which on they show
SLOW = 0.001                # a drift that counts, in cells a step


class Curve(NamedTuple):
    """Frequencies (waves,) that theory has for these wave numbers, and its name."""

    numbers: NDArray
    frequencies: NDArray
    label: str


class Rate(NamedTuple):
    """How fast a wave grows by theory, below 0 where it is damped, how fast it swings, and the theory's name."""

    rate: float
    frequency: float
    label: str


class Start(NamedTuple):
    """A dump's electrons at the start: plasma frequency, light's speed, the drifts (kinds, 3), the thermal speeds (3,), the angle by
    which the uniform B along each axis turns them in a step, and the filter of their current."""

    wp: float
    c: float
    drifts: NDArray
    thermal: NDArray
    turns: NDArray
    filter: int

    def of(self, k: float) -> float:
        """The plasma frequency of waves of k along an axis."""
        return theory.filtered(self.wp, k) if self.filter else self.wp


def thermal_speeds(frame: Frame, along: int) -> NDArray[np.float64]:
    """The standard deviations of the electrons' speeds along x, y and z, about the mean of their species in their cell of the
    axis `along`: so the speeds of a drift and of a wave don't count."""
    squares, degrees = np.zeros(3), 0
    for species in units.electrons(frame.header):
        table = frame.species(species.name)
        cell, speeds = table["position"][:, along] // frame.header.side, table["velocity"].astype(np.float64)
        count = np.maximum(np.bincount(cell), 1)
        for axis, speed in enumerate(speeds.T):
            squares[axis] += np.sum((speed - (np.bincount(cell, speed) / count)[cell])**2)
        degrees += len(cell) - np.count_nonzero(np.bincount(cell))
    return np.sqrt(squares / degrees) / frame.header.fast if degrees else squares


def start_of(dump: Dump, along: str) -> Start:
    header, frame = dump.header, dump[0]
    kinds = units.electrons(header)
    drifts = [frame.species(kind.name)["velocity"].mean(axis=0) / header.fast for kind in kinds]
    means = frame.b.mean(axis=(1, 2, 3))
    turns = [abs(units.gyration(header, kinds[0], float(mean))) if kinds else 0.0 for mean in means]
    return Start(units.plasma_frequency(header), units.light_speed(header), np.array(drifts).reshape(-1, 3),
                 thermal_speeds(frame, AXES.index(along)), np.array(turns), header.filter)


def start_of_deck(header: Header, b: Sequence[int]) -> Start:
    """The same of a deck with this uniform B, as far as it says it: its electrons are taken to be at rest."""
    kinds = units.electrons(header)
    turns = [abs(units.gyration(header, kinds[0], float(part))) if kinds else 0.0 for part in b]
    return Start(units.plasma_frequency(header), units.light_speed(header), np.zeros((len(kinds), 3)), np.zeros(3), np.array(turns),
                 header.filter)


def growth(dump: Dump, name: str, wave: Wave, along: str) -> Rate | None:
    """How fast a wave along an axis grows: of two equal streams, or of one warm kind of electrons; None where there is no
    theory here."""
    if not isinstance(wave, int):
        return None
    a, (field, axis), start = AXES.index(along), component(name), start_of(dump, along)
    k = 2 * pi * wave / dump.header.cells[a]
    if not start.wp or start.turns.any() or axis == a and field == "b":
        return None
    # E that goes with B stands across both, along the way of the particles that drive it.
    driven = axis if field == "e" else 3 - a - axis
    try:
        if len(start.drifts) == 2:
            return streams(dump, k, a, driven, start)
        if len(start.drifts) == 1 and driven != a and start.thermal[driven]:
            rate = theory.weibel(k, start.of(k), float(start.thermal[driven]), float(start.thermal[a]), start.c)
            return Rate(rate, 0.0, "Weibel")
    except ArithmeticError:
        pass
    return None


def streams(dump: Dump, k: float, a: int, driven: int, start: Start) -> Rate | None:
    """The growth of two equal and opposite streams, where the dump has such: along the wave, or across it."""
    first, second = start.drifts
    counts = {kind.count for kind in units.electrons(dump.header)}
    if len(counts) > 1 or np.abs(first + second).max() > SLOW:
        return None
    if driven == a and abs(first[a]) > SLOW:
        w = theory.two_stream(k, start.of(k), abs(float(first[a])), float(start.thermal[a]))
        return Rate(float(w.imag), float(w.real), "theory of two streams")
    if driven != a and abs(first[driven]) > SLOW:
        return Rate(theory.filamentation(k, start.of(k), abs(float(first[driven])), start.c), 0.0, "cold theory")
    return None


def damping(dump: Dump, name: str, wave: Wave, along: str) -> Rate | None:
    """Landau's damping of a Langmuir wave of one kind of electrons, without a B across it; None where that isn't it."""
    a, start = AXES.index(along), start_of(dump, along)
    across = [turn for axis, turn in enumerate(start.turns) if axis != a]
    if not isinstance(wave, int) or component(name) != ("e", a) or len(start.drifts) != 1 or not start.wp or any(across):
        return None
    k = 2 * pi * wave / dump.header.cells[a]
    try:
        w = theory.langmuir(k, start.of(k), float(start.thermal[a]))
    except ArithmeticError:
        return None
    return Rate(float(w.imag), float(w.real), "Landau")


def curves(dump: Dump, name: str, along: str, numbers: NDArray) -> list[Curve]:
    """The theory's frequencies at these wave numbers, where it has any: of light; for E along the axis of Langmuir waves or, in
    a uniform B across it, of upper hybrid and Bernstein's waves."""
    return curves_of(start_of(dump, along), name, along, numbers)


def curves_of(start: Start, name: str, along: str, numbers: NDArray) -> list[Curve]:
    """The same of such electrons."""
    a, (field, axis) = AXES.index(along), component(name)
    # A filter leaves nothing of waves of two cells.
    inner = numbers[(numbers > 0) & (np.cos(numbers / 2) > 0.01 if start.filter else True)]
    turns = [(turn, b) for b, turn in enumerate(start.turns) if turn]
    if axis == a and field == "b" or len(turns) > 1:
        return []
    if field == "e" and axis == a:
        if not start.wp or len(start.drifts) != 1:
            return []
        return across_b(inner, start, turns[0][0], a) if turns and turns[0][1] != a else langmuir(inner, start, a)
    if not turns or not start.wp:
        label = "light on this grid" if not start.wp else "light in a cold plasma"
        inner = numbers if start.wp else inner
        return [Curve(inner, np.array([theory.light(k, start.c, start.of(k)) for k in inner]), label)]
    turn, b = turns[0]
    if b == a:
        return []
    if (axis == b) == (field == "e"):
        return [Curve(inner, np.array([theory.light(k, start.c, start.of(k)) for k in inner]), "cold ordinary light")]
    return [Curve(inner, np.array([theory.upper_hybrid(k, start.of(k), turn, start.c, fast) for k in inner]),
                  f"cold extraordinary wave, {'fast' if fast else 'slow'}") for fast in (False, True)]


def langmuir(numbers: NDArray, start: Start, a: int) -> list[Curve]:
    """Langmuir waves up to half an inverse Debye length, from where on they are damped at once."""
    thermal = float(start.thermal[a])
    inner = numbers[numbers * thermal < 0.5 * np.array([start.of(k) for k in numbers])]
    label = "Langmuir waves on this grid" if thermal else "cold Langmuir waves"
    return [Curve(inner, np.array([theory.langmuir(k, start.of(k), thermal).real for k in inner]), label)] if len(inner) else []


def across_b(numbers: NDArray, start: Start, turn: float, a: int) -> list[Curve]:
    """Waves of E along an axis that a uniform B crosses: the cold slow extraordinary one, and Bernstein's of warm electrons."""
    cold = [theory.upper_hybrid(k, start.of(k), turn, start.c) for k in numbers]
    found = [Curve(numbers, np.array(cold), "cold upper hybrid wave")]
    thermal = float(start.thermal[a])
    # Of waves for which light is well above the plasma's frequencies; the others go over into the cold ones.
    inner = numbers[numbers * start.c > 2 * sqrt(start.wp**2 + turn**2)]
    for branch in range(1, BRANCHES + 1):
        if pi * thermal > WARM * turn and len(inner) and branch * turn < pi:
            waves = [theory.bernstein(k, start.of(k), turn, thermal, branch) for k in inner]
            found.append(Curve(inner, np.array(waves), f"Bernstein's wave {branch}"))
    return found

