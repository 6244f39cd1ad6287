"""From what a plasma physicist chooses to a deck: multipliers, neutral particles, E that meets Gauss's law, a wave to begin with.

    plasma = Plasma(plasma_frequency=0.1, drift=0.3, thermal_speed=0.05, wave=2, wave_speed=0.005, steps=300)
    print("\n".join(plasma.report()))
    open("two_stream.toml", "w").write(plasma.deck().text())

A time is a step and a length is a cell, so a frequency is in radians a step and a speed in cells a step.
"""

from __future__ import annotations

from dataclasses import dataclass, replace
from functools import cached_property
from math import floor, log2, pi, prod, tan
from typing import NamedTuple

import numpy as np
from numpy.typing import NDArray

from pictools import advice, antenna, loading, probing, theory
from pictools.deck import (MOST_DRIFT, MOST_FIELD, MOST_MASS, MOST_SEED, MOST_SPREAD, Deck, Species, charges, field_of,
                           multiplier)
from pictools.dump import Multiplier
from pictools.limits import AXES, Limits, choice, command, refuse, test_cells, test_choices, test_companions, test_particles
from pictools.versions import ALLOWANCES, MOST_PROBES, MOST_WAVE, SUB_1, Sided
from pictools.wave import Wave

SPEED = Limits(0, 1, why="a particle moves at most a cell a step")
NEWEST = ALLOWANCES[2]

# What does nothing without another choice.
COMPANIONS = {"drift_axis": ("drift", "streams"), "beam_share": ("drift", "streams"), "gyration_axis": ("gyration", "a uniform B"),
              "cross_drift": ("gyration", "a uniform B"), "displace_axis": ("displace", "a way"),
              "antenna_axis": ("antenna", "a speed"), "antenna_place": ("antenna", "a speed"), "antenna_period": ("antenna", "a speed"),
              "probe_axis": ("probe", "a component")}


class Beam(NamedTuple):
    """Electrons of one drift, in cells a step: their number, twins counted as one, and the sense of their thermal speeds."""

    name: str
    number: int
    drift: float
    sense: int


@dataclass
class Plasma(Sided):
    """Electrons and ions in a uniform box, and the wave that they start with.

    An axis of two cells is short: nothing varies along it. A particle that doesn't move along it stands in the middle between
    the two nodes and gives each a half, always; one that moves has a twin, a cell away, and the two give each node one.
    So a run of 64 by 2 by 2 cells is a run in one dimension, exactly.
    """

    plasma_frequency: float = choice("of the electrons, in radians a step",
                                     limits=Limits(0, 2, above=True, below=True, why="from 2 on leapfrog is unstable"))
    light_speed: float = choice("in cells a step", 0.5, Limits(0, 1, above=True, why="above 1 light grows in any box"))
    thermal_speed: float = choice("of the electrons, the standard deviation along each axis that they move along, in cells a "
                                  "step", 0, SPEED)
    thermal_speed_x: float | None = choice("that along x, where it is another; one that is above 0 makes them move along a "
                                           "short axis too", None, SPEED)
    thermal_speed_y: float | None = choice("that along y", None, SPEED)
    thermal_speed_z: float | None = choice("that along z", None, SPEED)
    drift: float = choice("half of the electrons drift with it and half against it, in cells a step; 0 for one kind of "
                          "electrons", 0, SPEED)
    drift_axis: str = choice("the axis of this drift: x, y or z", "x", tuple(AXES))
    beam_share: float = choice("the share of the electrons that drift with it, in place of half. The others drift against it, "
                               "so fast that there is no current; with 1 there are none, and the ions drift too", 0.5,
                               Limits(0, 1, above=True))
    gyration: float = choice("the angle by which a uniform B turns an electron in a step, in radians", 0,
                             Limits(-3, 3, above=True, below=True, why="a step turns by less than half a turn"))
    gyration_axis: str = choice("the axis of this B: x, y or z", "z", tuple(AXES))
    cross_drift: float = choice("the speed by which a uniform E across this B makes all particles drift, in cells a step, along "
                                "the axis that follows that of B: x, y, z, x", 0, SPEED)
    particles_a_cell: int = choice("electrons a cell", 64, Limits(1, NEWEST.particles))
    mass_ratio: int = choice("the mass of an ion over that of an electron; 0 for ions that stand still", 0,
                             Limits(0, MOST_MASS))
    wave: int = choice("how often the wave at the start goes into the box; 0 for none. It is a wave of the theory: one that "
                       "grows where one grows, else one that goes along its axis", 0, Limits(0, 32))
    wave_axis: str = choice("the axis that this wave goes along: x, y or z", "x", tuple(AXES))
    wave_speed: float = choice("the greatest speed along its axis that this wave adds, in cells a step", 0, SPEED)
    displace: float = choice("how far the electrons stand from their ions at the start, all of them the same way, in cells; they swing "
                             "together at the plasma frequency. A deck of version 2, as with a filter", 0, Limits(-1, 1))
    displace_axis: str = choice("the axis of this way: x, y or z", "x", tuple(AXES))
    antenna: float = choice("the greatest speed, in cells a step, that an electron swings with in the light of an antenna, which driven "
                            "loops at all places of a plane launch, both ways; 0 for none. A deck of version 2", 0, SPEED)
    antenna_axis: str = choice("the axis that this light goes along: x, y or z; its E stands along the one that follows", "x", tuple(AXES))
    antenna_place: int = choice("the antenna's cell along this axis", 0, Limits(0, NEWEST.cells - 1))
    antenna_period: int = choice("of this light, in steps", 32, Limits(3, MOST_WAVE))
    probe: str = choice("components, as ey or ey,bz, whose values `pic probe` puts at every step, at up to 64 cells of an axis in all; none "
                        "where it isn't given. A deck of version 2", "")
    probe_axis: str = choice("the axis of these cells: x, y or z", "x", tuple(AXES))
    trace: int = choice("so many electrons, evenly chosen, whose orbits `pic probe` puts. A deck of version 2", 0, Limits(0, MOST_PROBES))
    cells: tuple[int, int, int] = choice("along x, y and z, each 2 to 64, with --sub to 128; an axis of 2 is short: nothing "
                                         "varies along it", (64, 2, 2))
    sub: int | None = choice("a cell has 2^sub sub-cells along each axis, which a place is rounded to; with it the deck is of "
                             "version 2. The other version has 2^12", None, Limits(NEWEST.least_sub, NEWEST.greatest_sub))
    filter: int = choice("1 smooths the current, so that few particles a cell make less noise of short waves; a deck of version 2, "
                         "with --sub 12 where it isn't given", 0, Limits(0, NEWEST.greatest_filter))
    steps: int = choice("of the run", 400, Limits(0, 10**6))
    every: int = choice("how many steps apart frames are", 4, Limits(1, 10**6))
    start: str = choice("quiet: places and speeds are spread evenly, and listed; lattice: places are, and the program draws "
                        "speeds; random: both are drawn, by the program where no axis is short and no wave begins", "quiet",
                        ("quiet", "lattice", "random"))
    seed: int = choice("of what is drawn", 1, Limits(0, MOST_SEED))

    def __post_init__(self) -> None:
        if self.sub is None and (self.filter or self.displace or self.antenna or self.probe or self.trace):
            self.sub = SUB_1
        test_cells(self.cells, self.allowance.cells)
        test_choices(self)
        test_companions(self, COMPANIONS)
        evenly = self.mass_ratio == 0 and self.listed and not self.displace
        rows = self.listed * (2 if self.mass_ratio and not self.displace else 1)
        test_particles(self.particles_a_cell, 1 if evenly else 2, prod(self.cells), rows, self.allowance.particles)
        if abs(self.field_b) > MOST_FIELD:
            refuse("gyration", self.gyration,
                   f"with this plasma frequency the deck's B would be {self.field_b:.1e}, at most 2^63; choose a greater "
                   "--plasma-frequency or a lower gyration")
        if self.start == "lattice":
            loading.test_lattice(self)
        if not self.listed:
            self.test_drawn()
        self.test_thermal()
        if self.seed != 1 and not self.draws:
            refuse("seed", self.seed, "a quiet start draws nothing; it wants --start random or lattice" if self.start == "quiet" else
                   f"here --start {self.start} draws nothing; it wants a thermal speed" + ", or a long axis" * (self.start == "random"))
        if self.wave or self.wave_speed:
            self.test_wave()
        if self.displace:
            loading.test_displaced(self)
        if self.antenna:
            antenna.Antenna(self).test()
        if self.probe or self.trace:
            probing.test(self)

    def test_wave(self) -> None:
        """A wave has a speed, room in the box and a theory."""
        if not self.wave:
            refuse("wave_speed", self.wave_speed, "it wants --wave, how often the wave goes into the box")
        if not self.wave_speed:
            refuse("wave", self.wave, "it wants --wave-speed above 0, the greatest speed that the wave adds")
        if not (self.along > 2 and self.wave <= self.along // 2):
            refuse("wave", self.wave, f"{self.along} cells along {self.wave_axis} hold "
                   + (f"waves 1 to {self.along // 2}" if self.along > 2 else "none; an axis has more than two"))
        if self.filter and 2 * self.wave == self.along:
            refuse("wave", self.wave, "it is two cells long, and the filter leaves no current of such a wave; choose a longer one")
        if self.start == "lattice":
            refuse("start", self.start, "it begins no wave; choose quiet or random, or no --wave")
        if self.cross_drift:
            refuse("wave", self.wave, "the theory has no wave in an E across B; choose no wave at the start")
        if self.drift and self.gyration and (self.crosses or self.gyration_axis != self.wave_axis):
            refuse("wave", self.wave, "the theory has no wave of streams in a magnetic field; choose no wave at the start")
        if self.crosses and (len(self.beams) == 1 or self.beams[0].number != self.beams[1].number):
            refuse("wave", self.wave,
                   "the theory has no filament of unequal streams; choose no wave at the start, or --beam-share 0.5")

    def test_thermal(self) -> None:
        """A thermal speed of all axes is that of one of them at least."""
        own = self.thermal_speed_x, self.thermal_speed_y, self.thermal_speed_z
        if self.thermal_speed and not any(moves and one is None for moves, one in zip(self.moves, own)):
            refuse("thermal_speed", self.thermal_speed, "each axis that electrons move along has a speed of its own" if any(self.moves) else
                   "electrons move along no axis of this box; give one more than two cells, or a speed of its own, as --thermal-speed-x")

    def test_drawn(self) -> None:
        """What the program can draw."""
        for axis, speed in zip(AXES, self.thermal_speeds):
            if round(speed * self.fast) > MOST_SPREAD * self.fast:
                refuse("thermal_speed", speed,
                       f"along {axis} the program draws at most 1/16 = 0.0625 cells a step; choose a lower speed and "
                       "--plasma-frequency (the Debye length stays), or --start quiet, which lists some 30000 particles")
        for beam in self.beams:
            for name, speed in ("drift", abs(beam.drift)), ("cross_drift", self.cross_drift):
                if max(map(abs, self.velocity(beam.drift))) > MOST_DRIFT and speed:
                    refuse(name, getattr(self, name),
                           f"a stream drifts by {speed:g}; the program draws about a drift of at most 1/2 cell a step; choose a "
                           "lower one, or --start quiet")

    @property
    def electrons(self) -> int:
        return self.particles_a_cell * prod(self.cells)

    @property
    def along(self) -> int:
        """Cells along the wave's axis."""
        return self.cells[AXES.index(self.wave_axis)]

    @property
    def crosses(self) -> bool:
        """Whether the electrons drift across the wave's axis. Then the wave at the start is a filament."""
        return bool(self.drift) and self.drift_axis != self.wave_axis

    @property
    def listed(self) -> bool:
        """Whether the deck lists its electrons: those of a quiet start, and those drawn along a short axis or for a wave."""
        return self.start == "quiet" or self.start == "random" and (min(self.cells) == 2 or bool(self.wave))

    @property
    def draws(self) -> bool:
        """Whether places or speeds are drawn: of a random start places along the long axes, and speeds, also on a lattice."""
        return self.start != "quiet" and any(self.thermal_speeds) or self.start == "random" and max(self.cells) > 2

    @property
    def moves(self) -> list[bool]:
        """The axes that electrons move along: the long ones, that of the drift, those of a thermal speed of their own, those across
        B, that of the way that they are displaced by, and that of an antenna's E."""
        own = self.thermal_speed_x, self.thermal_speed_y, self.thermal_speed_z
        driven = (AXES.index(self.antenna_axis) + 1) % 3 if self.antenna else None
        return [self.cells[a] > 2 or bool(self.drift) and AXES[a] == self.drift_axis or bool(own[a]) or
                bool(self.gyration) and AXES[a] != self.gyration_axis or bool(self.displace) and AXES[a] == self.displace_axis or
                a == driven for a in range(3)]

    @property
    def thermal_speeds(self) -> tuple[float, float, float]:
        """Along x, y and z; 0 where electrons don't move along."""
        own = self.thermal_speed_x, self.thermal_speed_y, self.thermal_speed_z
        return tuple((self.thermal_speed if one is None else one) * moves for one, moves in zip(own, self.moves))

    @property
    def thermal_along(self) -> float:
        """The thermal speed along the wave's axis."""
        return self.thermal_speeds[AXES.index(self.wave_axis)]

    @property
    def copies(self) -> list[int]:
        """Twins along each axis: 2 along a short one that electrons move along."""
        return [2 if n == 2 and moves else 1 for n, moves in zip(self.cells, self.moves)]

    def velocity(self, drift: float) -> list[float]:
        """Along x, y and z that of particles that drift so along the streams' axis, in cells a step; E across B adds its own."""
        across = (AXES.index(self.gyration_axis) + 1) % 3
        return [drift * (axis == self.drift_axis) + self.cross_drift * (a == across) for a, axis in enumerate(AXES)]

    @property
    def beams(self) -> list[Beam]:
        """The electrons by their drifts: one kind, or two of which the second makes the current of the first 0."""
        number = self.electrons // prod(self.copies)
        if not self.drift:
            return [Beam("electron", number, 0.0, 1)]
        first = round(number * self.beam_share)
        if first == number:
            return [Beam("electron", number, self.drift, 1)]
        if first == 0:
            refuse("beam_share", self.beam_share, f"of {number} electrons it is none; choose more particles a cell")
        against = -self.drift * first / (number - first)
        return [Beam("forward", first, self.drift, 1), Beam("backward", number - first, against, -1)]

    @property
    def strength(self) -> float:
        """The size of kick times e_force: wp^2 = 24 (S^2 / 4096) kick q e_force n, S the sub-cells of a cell, and 64 times that with
        a filter."""
        return self.plasma_frequency**2 / (2 * self.unit_current * self.particles_a_cell)

    @property
    def e_force(self) -> Multiplier:
        """2^-K, so that `kick` is about 2^-8 S / 4096: then e is the same for all sides S and with a filter, and in version 1 a
        number some 2^8 times as large as what it adds to a speed."""
        return Multiplier(1, min(max(floor(log2(self.side) - SUB_1 - 8 - log2(self.strength)), 0), 62))

    @property
    def kick(self) -> Multiplier:
        return multiplier(-self.strength / self.e_force.value, "kick")

    @property
    def turn(self) -> Multiplier:
        """256 kick / S, which is kick / 16 in version 1: with e_to_b = 1/2 and b_force = e_force, E and B act with one charge to
        mass ratio."""
        return multiplier(256 * self.kick.value / self.side, "turn")

    @property
    def field_b(self) -> int:
        """The uniform B along its axis: a step turns an electron by 2 atan(turn b_force B / 2^20)."""
        return round(tan(self.gyration / 2) * 2**20 / abs(self.turn.value * self.e_force.value))

    @property
    def wave_number(self) -> float:
        """Of the wave at the start, in radians a cell."""
        return 2 * pi * self.wave / self.along

    def frequency_of(self, k: float) -> float:
        """The plasma frequency of waves of k along an axis in the theory: the filter takes some of the short ones'."""
        return theory.filtered(self.plasma_frequency, k) if self.filter else self.plasma_frequency

    @cached_property
    def wave_frequency(self) -> complex:
        """Of the wave at the start, by the theory of the scheme; it grows by the imaginary part."""
        return self.turned.start_wave.frequency

    @cached_property
    def turned(self) -> Plasma:
        """The same plasma with its axes turned in a ring until the wave's is x: the scheme is the same along each."""
        by = AXES.index(self.wave_axis)
        if by == 0:
            return self
        own = self.thermal_speed_x, self.thermal_speed_y, self.thermal_speed_z
        turning = ["wave_axis"] + [name for name in ("drift_axis", "gyration_axis", "displace_axis", "antenna_axis", "probe_axis")
                                   if getattr(self, name.removesuffix("_axis"))]
        names = {name: AXES[AXES.index(getattr(self, name)) - by] for name in turning}
        speeds = {f"thermal_speed_{axis}": own[(a + by) % 3] for a, axis in enumerate(AXES)}
        return replace(self, cells=tuple(self.cells[(a + by) % 3] for a in range(3)), **names, **speeds)

    @cached_property
    def start_wave(self) -> Wave:
        """The wave at the start, along x."""
        return Wave(self)

    @cached_property
    def species(self) -> list[Species]:
        """The electrons, one species a stream, and the ions."""
        return loading.species(self)

    def fields(self) -> tuple[NDArray[np.int64], NDArray[np.int64]]:
        """What is added to the uniform E and B, of shapes (3, nz, ny, nx): the E of the charges, and the E and B of a filament at
        the start."""
        e = np.zeros((3, *reversed(self.cells)), np.int64)
        if self.listed and not self.displace:
            e = field_of(charges(self.cells, self.species, self.side, self.filter))
        b = np.zeros_like(e)
        if self.crosses and self.wave:
            by = AXES.index(self.wave_axis)
            order = (0, *(1 + np.roll(range(3), -by)))
            for field, added in zip((e, b), self.turned.start_wave.filament_fields()):
                field += np.roll(added, by, axis=0).transpose(order)
        return e, b

    def report(self) -> list[str]:
        """What was chosen and why, what to expect, and warnings, a line each."""
        return advice.report(self)

    def deck(self) -> Deck:
        """The deck, whose first lines are the report and the command that makes it."""
        edges, faces = self.fields()
        b = tuple(self.field_b * (axis == self.gyration_axis) for axis in AXES)
        # E / B is the drift, as E and B act with one charge to mass ratio, and 2^20 turn / kick is a cell a step.
        e = tuple(np.roll([0, 0, round(self.cross_drift * self.field_b)], AXES.index(self.gyration_axis)).tolist())
        return Deck(tuple(self.cells), self.steps, self.every, Multiplier(1, 1), multiplier(self.light_speed**2, "b_to_e = c^2"),
                    self.e_force, self.e_force, comment=[*self.report(), command(self)], e=e, b=b, edges=edges, faces=faces,
                    species=self.species, sub=self.sub, filter=self.filter, loops=antenna.loops_of(self),
                    places=probing.places(self), ids=probing.ids(self))
