"""The particles of a plasma: listed one by one, or as lattices, random species and pairs that the program draws."""

from __future__ import annotations

from collections.abc import Sequence
from math import ceil, log, prod
from statistics import NormalDist
from typing import TYPE_CHECKING

import numpy as np
from numpy.typing import NDArray

from pictools.deck import MOST_CHARGE, MOST_MASS, DeckError, Displaced, Lattice, Pair, Points, Random, Species, multiplier
from pictools.dump import Multiplier
from pictools.limits import AXES, refuse

if TYPE_CHECKING:
    from pictools.plasma import Beam, Plasma

STILL = Multiplier(0, 0)


def radical_inverse(number: int, base: int) -> NDArray[np.float64]:
    """The numbers 0, 1, .., number - 1 with their digits mirrored at the point, and half a last digit: evenly in 0..1."""
    digits = ceil(log(number + 1) / log(base)) + 1
    powers = base ** np.arange(digits)
    return (np.arange(number)[:, None] // powers % base / (powers * base)).sum(axis=1) + 0.5 / base**digits


def spread(plasma: Plasma, number: int) -> NDArray[np.float64]:
    """For each of so many electrons 6 numbers in 0..1, evenly spread or drawn, of which none follows from another: 3 for its
    place and 3 for its speed."""
    if plasma.start == "random":
        return np.random.default_rng(plasma.seed).random((number, 6))
    bases, middle = iter((2, 3, 5, 7, 11)), np.full(number, 0.5)
    columns = [(np.arange(number) + 0.5) / number]
    columns += [radical_inverse(number, next(bases)) if n > 2 else middle for n in plasma.cells[1:]]
    columns += [radical_inverse(number, next(bases)) if moves else middle for moves in plasma.moves]
    return np.stack(columns, axis=1)


def load(plasma: Plasma, beam: Beam) -> tuple[NDArray[np.int64], NDArray[np.int64], NDArray[np.int64]]:
    """Of the electrons of a beam: places without the wave, places with it, and velocities. The wave goes along x."""
    table, cells, side = spread(plasma, beam.number), np.array(plasma.cells), plasma.side
    rest = np.where(cells > 2, np.floor(table[:, :3] * cells * side), side // 2).astype(np.int64)
    velocity = np.zeros((len(table), 3))
    if any(plasma.thermal_speeds):
        normal = np.vectorize(NormalDist().inv_cdf, otypes=[float])
        velocity = beam.sense * np.array(plasma.thermal_speeds) * normal(table[:, 3:])
    velocity += plasma.velocity(beam.drift)
    shift, more = plasma.start_wave.perturbation(beam, rest[:, 0] / side, velocity[:, 0])
    place = rest.copy()
    place[:, 0] = np.rint(rest[:, 0] + shift * side).astype(np.int64) % (plasma.cells[0] * side)
    whole = np.rint((velocity + more) * plasma.fast).astype(np.int64)
    if np.abs(whole).max() > plasma.fast:
        raise DeckError(f"an electron would begin with {np.abs(whole).max() / plasma.fast:.3f} cells a step; a particle moves at "
                        "most one: choose a lower --drift, --thermal-speed or --wave-speed")
    twins = np.array(list(np.ndindex(*plasma.copies))) * side
    rest, place = ((part[:, None] + twins).reshape(-1, 3) for part in (rest, place))
    return rest, place, np.repeat(whole, len(twins), axis=0)


def ion_multipliers(plasma: Plasma) -> tuple[Multiplier, Multiplier]:
    """Kick and turn of an ion."""
    if not plasma.mass_ratio:
        return STILL, STILL
    return tuple(multiplier(-m.value / plasma.mass_ratio, name)
                 for m, name in ((plasma.kick, "an ion's kick"), (plasma.turn, "an ion's turn")))


def whole_speeds(plasma: Plasma, speeds: Sequence[float]) -> list[int]:
    """Speeds in cells a step as whole numbers of the deck."""
    return [round(speed * plasma.fast) for speed in speeds]


def ion_drift(plasma: Plasma) -> list[int]:
    """The velocity of the ions: that of the electrons where they all drift one way, else that of E across B alone."""
    return whole_speeds(plasma, plasma.velocity(plasma.drift if len(plasma.beams) == 1 else 0))


def species(plasma: Plasma) -> list[Species]:
    """The electrons, one species a stream, and the ions."""
    if plasma.listed:
        return listed(plasma)
    return on_lattice(plasma) if plasma.start == "lattice" else anywhere(plasma)


def listed(plasma: Plasma) -> list[Species]:
    """Each electron by itself, and ions where the electrons stand without the wave, or a still lattice of them."""
    by = AXES.index(plasma.wave_axis)
    loads = [[np.roll(part, by, axis=1) for part in load(plasma.turned, beam)] for beam in plasma.beams]
    electrons = [Points(beam.name, -1, 1, plasma.kick, plasma.turn, place, velocity)
                 for beam, (_, place, velocity) in zip(plasma.beams, loads)]
    kick, turn = ion_multipliers(plasma)
    if plasma.displace:
        return electrons + ions_beside(plasma, electrons)
    if plasma.mass_ratio:
        rest = np.concatenate([rest for rest, _, _ in loads])
        return electrons + [Points("ion", 1, plasma.mass_ratio, kick, turn, rest, np.tile(ion_drift(plasma), (len(rest), 1)))]
    sites = [n if n > 2 else 1 for n in plasma.cells]
    charge = plasma.electrons // prod(sites)
    if charge > MOST_CHARGE:
        refuse("particles_a_cell", plasma.particles_a_cell, f"a still ion would have the charge {charge}, at most {MOST_CHARGE}")
    return electrons + [Lattice("ion", charge, 1, kick, turn, [plasma.side // 2] * 3,
                                [plasma.side * (n > 1) for n in sites], sites,
                                ion_drift(plasma))]


def drawing(plasma: Plasma, beam: Beam, stream: int) -> dict:
    """How the velocities of a beam are drawn."""
    return {"seed": plasma.seed, "stream": stream, "spread": whole_speeds(plasma, plasma.thermal_speeds),
            "drift": whole_speeds(plasma, plasma.velocity(beam.drift))}


def anywhere(plasma: Plasma) -> list[Species]:
    """Random electrons, and an ion on each of them, where E = 0 meets Gauss's law; or displaced from each."""
    kick, turn = ion_multipliers(plasma)
    electrons = [Random(beam.name, -1, 1, plasma.kick, plasma.turn, number=beam.number, **drawing(plasma, beam, stream))
                 for stream, beam in enumerate(plasma.beams, 1)]
    if plasma.displace:
        return electrons + ions_beside(plasma, electrons)
    return electrons + [Pair(name, 1, plasma.mass_ratio or 1, kick, turn, of=of, seed=plasma.seed, stream=0,
                             drift=ion_drift(plasma), spread=[0, 0, 0]) for name, of in zip(ion_names(plasma), electrons)]


def ion_names(plasma: Plasma) -> list[str]:
    """Of the ions that stand by the electrons of each beam."""
    return ["ion"] if len(plasma.beams) == 1 else [f"ion_{beam.name}" for beam in plasma.beams]


def way(plasma: Plasma, sense: int) -> list[int]:
    """The way between electrons and ions at the start, in sub-cells."""
    return [sense * round(plasma.displace * plasma.side) * (axis == plasma.displace_axis) for axis in AXES]


def ions_beside(plasma: Plasma, electrons: Sequence[Species]) -> list[Species]:
    """An ion for each electron, displaced from it against the electrons' way; the program makes the E of that."""
    kick, turn = ion_multipliers(plasma)
    return [Displaced(name, 1, plasma.mass_ratio or 1, kick, turn, of=of, by=way(plasma, -1), v=ion_drift(plasma))
            for name, of in zip(ion_names(plasma), electrons)]


def test_displaced(plasma: Plasma) -> None:
    """Whether electrons can stand beside their ions."""
    if not any(way(plasma, 1)):
        refuse("displace", plasma.displace, f"it is less than half a sub-cell, of which a cell has {plasma.side}")
    if plasma.wave:
        refuse("displace", plasma.displace, "all electrons stand one way from their ions, which is no wave; choose --displace or --wave")
    if plasma.start == "lattice" and (len(plasma.beams) > 1 or any(plasma.thermal_speeds)):
        refuse("displace", plasma.displace, "electrons that are displaced from a lattice of ions have one speed; choose one kind of "
               "cold electrons, or --start quiet or random")


def lattice_sites(plasma: Plasma) -> list[int]:
    """How many ions stand along each axis: one along a short one, and the cells times a power of 2 along the others."""
    sites = [n if n > 2 else 1 for n in plasma.cells]
    left = plasma.beams[0].number // prod(sites)
    long = [a for a in range(3) if plasma.cells[a] > 2]
    while left > 1:
        axis = min(long, key=lambda a: sites[a] / plasma.cells[a])
        sites[axis], left = 2 * sites[axis], left // 2
    return sites


def test_lattice(plasma: Plasma) -> None:
    """Whether there is a lattice that an electron of each stream can start on."""
    for axis, cells, moves in zip(AXES, plasma.cells, plasma.moves):
        if cells == 2 and moves:
            refuse("start", plasma.start,
                   f"its electrons move along {axis}, which has 2 cells; give it more, or choose quiet or random")
    if len({beam.number for beam in plasma.beams}) > 1:
        refuse("beam_share", plasma.beam_share, "on a lattice streams are equal; choose 0.5 or 1, or --start quiet or random")
    if plasma.mass_ratio * len(plasma.beams) > MOST_MASS:
        refuse("mass_ratio", plasma.mass_ratio, f"on a lattice an ion has the mass of {len(plasma.beams)}, at most {MOST_MASS}")
    long = prod(n for n in plasma.cells if n > 2)
    if long == 1:
        refuse("start", plasma.start, "a lattice stands along axes of more than two cells, and the box has none; choose quiet or random")
    shares = plasma.electrons / (len(plasma.beams) * long)
    if shares != 2 ** (int(shares).bit_length() - 1):
        refuse("particles_a_cell", plasma.particles_a_cell,
               f"a lattice has a power of 2 on each long cell for each stream, not {shares:g}")
    if any(n > 1 and cells * plasma.side % n for n, cells in zip(lattice_sites(plasma), plasma.cells)):
        refuse("particles_a_cell", plasma.particles_a_cell, f"a lattice has at most {plasma.side} on a cell along each axis")


def on_lattice(plasma: Plasma) -> list[Species]:
    """Ions on a lattice, and an electron of each stream on each of them, with drawn speeds: there is no charge."""
    sites, number = lattice_sites(plasma), len(plasma.beams)
    gap = [n * plasma.side // m if n > 2 else 0 for n, m in zip(plasma.cells, sites)]
    first = [g // 2 if g else plasma.side // 2 for g in gap]
    kick, turn = ion_multipliers(plasma)
    ion = Lattice("ion", number, number * (plasma.mass_ratio or 1), kick, turn, first, gap, sites, ion_drift(plasma))
    if plasma.displace:
        beam = plasma.beams[0]
        return [ion, Displaced(beam.name, -1, 1, plasma.kick, plasma.turn, of=ion, by=way(plasma, 1),
                               v=whole_speeds(plasma, plasma.velocity(beam.drift)))]
    return [ion] + [Pair(beam.name, -1, 1, plasma.kick, plasma.turn, of=ion, **drawing(plasma, beam, stream))
                    for stream, beam in enumerate(plasma.beams, 1)]
