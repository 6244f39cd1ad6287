"""What the multipliers of a dump say in physical terms, after docs/UNITS.md. Frequencies are in radians a step, speeds in
cells a step."""

from __future__ import annotations

from math import atan, cos, prod, sqrt

import numpy as np

from pictools.dump import Dump, Frame, Header, Species


def light_speed(header: Header) -> float:
    """c^2 = 2 e_to_b b_to_e; 0 where the two don't make a wave."""
    return sqrt(max(0, 2 * header.e_to_b.value * header.b_to_e.value))


def plasma_frequency(header: Header, k: float = 0) -> float:
    """wp^2 = 24 (S^2 / 4096) kick q e_force n, summed over the species; S is the sub-cells of a cell, and n their particles a
    cell. With a filter it is 64 times that, and for a wave of k along an axis (1 + cos k) / 2 of it."""
    cells = prod(header.cells)
    square = sum(2 * header.unit_current * s.kick.value * s.charge * header.e_force.value * s.count / cells
                 for s in header.species)
    return sqrt(max(0, square)) * (cos(k / 2) if header.filter else 1)


def gyration(header: Header, species: Species, b: float) -> float:
    """The angle by which a field value b turns a particle in a step: 2 atan(turn b_force b / 2^20)."""
    return 2 * atan(species.turn.value * header.b_force.value * b / 2**20)


def electrons(header: Header) -> list[Species]:
    """The species that carry the waves: all that feel E, with a charge below 0."""
    return [s for s in header.species if s.charge < 0 and s.kick.n and s.count]


def thermal_speed(frame: Frame, axis: str = "x", along: str = "x") -> float:
    """The standard deviation of the electrons' speeds along an axis, in cells a step, about the mean of their species in their
    cell of `along`: so the speeds of a drift and of a wave along it don't count."""
    squares = degrees = 0.0
    for species in electrons(frame.header):
        table = frame.species(species.name)
        cell = table["position"][:, "xyz".index(along)] // frame.header.side
        speed = table["velocity"][:, "xyz".index(axis)].astype(np.float64)
        count = np.maximum(np.bincount(cell), 1)
        squares += np.sum((speed - (np.bincount(cell, speed) / count)[cell])**2)
        degrees += len(speed) - np.count_nonzero(np.bincount(cell))
    return sqrt(squares / degrees) / frame.header.fast if degrees else 0.0


def magnetic_weight(header: Header) -> float:
    """How many times the magnetic energy counts in the unit of the electric one."""
    below = 2 * header.e_to_b.value * header.b_force.value**2
    return header.b_to_e.value * header.e_force.value**2 / below if below else 0.0


def kinetic_weight(header: Header, species: Species) -> float:
    """How many times m v^2 of a species counts in the unit of the electric energy; 0 for one that feels no E."""
    below = 2 * species.kick.value * species.mass
    return header.unit_current * species.charge * header.e_force.value / below if below else 0.0


def kinetic_energy(frame: Frame) -> float:
    """The kinetic energy of a frame in the unit of the electric one. Its speeds are half a step older than the fields."""
    total = 0.0
    for species in frame.header.species:
        velocity = frame.species(species.name)["velocity"].astype(np.float64)
        total += kinetic_weight(frame.header, species) * species.mass * float(np.sum(velocity**2))
    return total


def energies(dump: Dump) -> np.ndarray:
    """Kinetic, electric and magnetic energies of all frames in one unit, that of the electric one: shape (frames, 3)."""
    table = dump.energies.copy()
    table[:, 0] = [kinetic_energy(frame) for frame in dump]
    table[:, 2] *= magnetic_weight(dump.header)
    return table
