"""What a deck was made of and why, what its theory expects, and where docs/UNITS.md would warn."""

from __future__ import annotations

from math import asin, hypot, log2, pi, prod, sqrt
from typing import TYPE_CHECKING

import numpy as np

from pictools import antenna, probing, theory
from pictools.deck import tiles_of
from pictools.versions import SUB_1

if TYPE_CHECKING:
    from pictools.plasma import Plasma

FORCE_BOUND = 2.0**44
COURANT = 1 / sqrt(3)
SLOW = 0.2                  # of light's speed: from here on a drift makes light that shows, and gamma^3 is 1.06
FEW = 8                     # electrons a cell: with fewer in a box of three long axes a filter is worth its weight
HEATED = 2e-4               # along one axis, all energy rises by this times wp t / (electrons a cell, Debye lengths squared)


def report(plasma: Plasma) -> list[str]:
    """All lines, in order."""
    return chosen(plasma) + expected(plasma) + [f"Warning: {line}" for line in warnings(plasma)]


def chosen(plasma: Plasma) -> list[str]:
    """The plasma in words, and each multiplier with its reason."""
    p, long = plasma, [f"{n} cells along {axis}" for axis, n in zip("xyz", plasma.cells) if n > 2]
    box = f"{' x '.join(map(str, p.cells))} cells" if len(long) == 3 else " and ".join(long) or "one cell"
    lines = [f"A plasma of {p.electrons} electrons, {p.particles_a_cell} a cell, in {box}; "
             f"a {p.start} start.",
             f"Plasma frequency {p.plasma_frequency:g} a step: kick e_force = wp^2 / ({2 * p.unit_current} q n), "
             f"e_force so small that kick is about 2^{p.side.bit_length() - 1 - SUB_1 - 8}.",
             f"Light goes {p.light_speed:g} cells a step: e_to_b = 1/2, so b_to_e = c^2.",
             thermal(plasma)]
    if p.drift:
        lines.append(streams(plasma))
    if p.gyration:
        lines.append(f"B along {p.gyration_axis} turns an electron by {p.gyration:g} a step, once in "
                     f"{2 * pi / p.gyration:.4g} steps.")
    if p.wave:
        along = "" if p.wave_axis == "x" else f" along {p.wave_axis}"
        lines.append(f"They start with wave {p.wave} of the box{along}, k = {p.wave_number:.4f} a cell, of "
                     f"{p.wave_speed:g} cells a step.")
    if p.displace:
        lines.append(f"They start {p.displace:g} cells along {p.displace_axis} from their ions, all of them.")
    if p.filter:
        lines.append("The current is filtered: short waves make less noise, and E and B are 64 times as large; e_force and b_force are "
                     "64 times as small for that.")
    if p.antenna:
        lines.append(antenna.Antenna(p).said())
    tiles = prod(tiles_of(p.cells))
    return lines + [ions(plasma), *probing.said(p), f"The grid has {tiles} tile{'s' * (tiles > 1)}: more workers than that only cost time."]


def thermal(plasma: Plasma) -> str:
    """The thermal speeds, and the Debye length of that along the wave's axis."""
    speed, speeds = plasma.thermal_along, plasma.thermal_speeds
    if {part for part in speeds if part} <= {speed}:
        return f"Thermal speed {speed:g} cells a step, so the Debye length is {speed / plasma.plasma_frequency:.3g} cells."
    return (f"Thermal speeds {speeds[0]:g}, {speeds[1]:g} and {speeds[2]:g} cells a step along x, y and z, so the Debye length "
            f"along {plasma.wave_axis} is {speed / plasma.plasma_frequency:.3g} cells.")


def streams(plasma: Plasma) -> str:
    """The streams of the electrons."""
    p, beams = plasma, plasma.beams
    if len(beams) == 1:
        return f"All electrons, and the ions, drift by {p.drift:g} cells a step along {p.drift_axis}."
    if beams[0].number == beams[1].number:
        return f"Two equal streams of electrons, {p.drift:g} cells a step along {p.drift_axis} and against it."
    share = beams[0].number / (beams[0].number + beams[1].number)
    return (f"Two streams of electrons: {share:.3g} of them go {p.drift:g} cells a step along {p.drift_axis}, and the others "
            f"{-beams[1].drift:.3g} against it, so that there is no current.")


def ions(plasma: Plasma) -> str:
    """The ions, their mass and where they begin."""
    if plasma.displace:
        rest = f"{plasma.mass_ratio} times as heavy" if plasma.mass_ratio else "still for good"
        return f"Ions: {rest}, one beside each electron."
    if plasma.mass_ratio:
        return f"Ions: {plasma.mass_ratio} times as heavy, one on each electron."
    rest = "going along" if len(plasma.beams) == 1 and plasma.drift else "still"
    if plasma.listed:
        return f"Ions: {rest} for good, evenly spread."
    return f"Ions: {rest} for good, " + ("on a lattice, where the electrons begin." if plasma.start == "lattice" else
                                         "one on each electron.")


def fastest(plasma: Plasma) -> tuple[int, float]:
    """The fastest growing wave along its axis that the box has, with two equal cold streams: how often it goes into the box, and
    its rate."""
    p, rates = plasma, {}
    for wave in range(1, p.along // 2 + 1):
        k = 2 * pi * wave / p.along
        if p.crosses:
            rates[wave] = theory.filamentation(k, p.frequency_of(k), p.drift, p.light_speed)
        elif wave == 1 or k * p.drift < p.frequency_of(k):
            rates[wave] = along_streams(p, k)
    wave = max(rates, key=rates.__getitem__)
    return wave, rates[wave]


def along_streams(plasma: Plasma, k: float) -> float:
    """How fast a wave of cold streams along it grows; 0 for one at the end of those that do, of which no zero is found."""
    try:
        return theory.two_stream(k, plasma.frequency_of(k), plasma.drift).imag
    except ArithmeticError:
        return 0.0


def expected(plasma: Plasma) -> list[str]:
    """The growth rate or the frequency to expect, by the theory of the scheme with its grid."""
    p, lines = plasma, []
    name = ("Filamentation" if p.crosses else "Two-stream instability") if p.drift else (
        "Upper hybrid wave" if p.gyration and p.gyration_axis != p.wave_axis else "Langmuir wave")
    if p.drift and not p.gyration and len(p.beams) == 2 and p.beams[0].number == p.beams[1].number:
        wave, rate = fastest(p)
        lines.append(f"{name}, of cold streams: " + (f"wave {wave} of the box grows fastest, by {rate:.5f} a step."
                                                     if rate > 1e-6 else "no wave of the box grows."))
    if p.wave:
        w = p.wave_frequency
        name += " (of cold electrons)" if name in ("Filamentation", "Upper hybrid wave") else ""
        lines.append(f"{name} at the start: it grows by {w.imag:.5f} a step." if w.imag > 1e-6 else
                     f"{name} at the start: its frequency is {w.real:.5f} a step"
                     + (f", and it is damped by {-w.imag:.5f} a step." if w.imag < -5e-6 else "."))
    if w := swing(p):
        lines.append(f"The electrons swing together with {w:.5f} a step, sin(w/2) = wp/2, once in {2 * pi / w:.4g} steps.")
    return lines


def swing(plasma: Plasma) -> float | None:
    """The frequency with which displaced electrons swing together, by sin(w/2) = wp/2, with the part of ions that move; None where
    none are displaced, or where B turns them."""
    p = plasma
    wp = p.plasma_frequency * sqrt(1 + (1 / p.mass_ratio if p.mass_ratio else 0))
    if not p.displace or p.gyration and p.gyration_axis != p.displace_axis or wp >= 2:
        return None
    return 2 * asin(wp / 2)


def warnings(plasma: Plasma) -> list[str]:
    """What docs/UNITS.md advises against."""
    return [line for part in (heating, leapfrog, light, drifts, roundings, frames, noise, few, forces) for line in part(plasma)]


def long_axes(plasma: Plasma) -> list[int]:
    """The axes of more than two cells, along which something can vary."""
    return [a for a in range(3) if plasma.cells[a] > 2]


def makes_light(plasma: Plasma) -> bool:
    """Whether electrons move across a long axis. Else all E stays along the one that there is, and there is no light."""
    long = long_axes(plasma)
    return len(long) > 1 or any(moves and a not in long for a, moves in enumerate(plasma.moves)) and bool(long)


def debye_length(plasma: Plasma) -> float:
    """The least along a long axis, in cells."""
    speeds = [plasma.thermal_speeds[a] for a in long_axes(plasma)]
    return min(speeds, default=plasma.thermal_along) / plasma.plasma_frequency


def heating(plasma: Plasma) -> list[str]:
    """The grid heats the plasma, without a threshold: how much along one axis, docs/UNITS.md has measured."""
    p, debye = plasma, debye_length(plasma)
    if not debye:
        return ["the thermal speed is 0, and with it the Debye length: the grid heats cold electrons at once; a Debye length of "
                "half a cell or more keeps it slow."]
    share = HEATED * p.plasma_frequency * p.steps / (p.particles_a_cell * debye**2)
    counted = share if len(long_axes(p)) == 1 else 0
    size = f", by about {share:.1%} of its energy in these steps" if counted else ""
    if debye < 0.5 or counted > 0.05:
        low = ", below half a cell" if debye < 0.5 else ""
        return [f"the Debye length is {debye:.3g} cells{low}: the grid heats the plasma{size}; more particles a cell make it "
                "slower."]
    return []


def leapfrog(plasma: Plasma) -> list[str]:
    """Steps that are long against the plasma's swing."""
    wp = plasma.plasma_frequency
    return [f"the plasma frequency is {wp:g} a step, above 0.2: leapfrog makes it {wp**2 / 24:.1%} faster"
            + ("." if wp < 2 else ", and from 2 on it is unstable.")] if wp > 0.2 else []


def light(plasma: Plasma) -> list[str]:
    """Light past its bound, and particles that are faster."""
    p, lines = plasma, []
    if p.light_speed > COURANT:
        lines.append(f"light goes {p.light_speed:g} cells a step, past the Courant bound {COURANT:.4f}: the shortest waves grow.")
    fast = max(greatest_drift(p), p.wave_speed, 4 * max(p.thermal_speeds))
    if fast > p.light_speed:
        lines.append(f"particles go {fast:g} cells a step, and light {p.light_speed:g}: the scheme isn't relativistic.")
    return lines


def greatest_drift(plasma: Plasma) -> float:
    """Of the streams, with what E across B adds, in cells a step."""
    return max(hypot(*plasma.velocity(beam.drift)) for beam in plasma.beams)


def drifts(plasma: Plasma) -> list[str]:
    """Streams that are fast against light, against the grid's light, and against a cell a step."""
    p, lines, drift = plasma, [], greatest_drift(plasma)
    if SLOW * p.light_speed < drift < p.light_speed:
        gamma = 1 / sqrt(1 - (drift / p.light_speed)**2)
        lines.append(f"the drift is {drift / p.light_speed:.2g} of light's speed, and the scheme isn't relativistic: in nature "
                     f"gamma would be {gamma:.3g}, and gamma^3, by which speeding up along the drift is harder, {gamma**3:.3g}.")
    slow = theory.slowest_light(p.light_speed)
    along = any(p.velocity(beam.drift)[a] for beam in p.beams for a in long_axes(p))
    if drift > SLOW * p.light_speed and along and makes_light(p):
        how = (f"is faster than the grid's shortest light, 2 asin(c) / pi = {slow:.3g}" if drift > slow else
               f"is above {SLOW} c = {SLOW * p.light_speed:.3g}, and the grid's short light isn't much faster ({slow:.3g})")
        lines.append(f"the drift, {drift:g} cells a step, {how}: it makes light out of nothing and heats (numerical Cherenkov "
                     "radiation, with a table in docs/UNITS.md).")
    reach = 2 * max(abs(beam.drift) for beam in p.beams) + 4 * p.thermal_speeds["xyz".index(p.drift_axis)]
    if len(p.beams) > 1 and along and reach > 0.95:
        lines.append(f"streams that stop each other throw electrons to twice the drift, some {reach:.2g} cells a step; one that "
                     "is to go more than a cell stops the run (far): halve all speeds and the plasma frequency, and double "
                     "the steps.")
    return lines


def roundings(plasma: Plasma) -> list[str]:
    """Speeds that are few sub-cells a step."""
    p = plasma
    speeds = [("thermal speed", min((v for v in p.thermal_speeds if v), default=0)), ("drift", p.drift),
              ("drift across B", p.cross_drift), ("wave", p.wave_speed), ("antenna", p.antenna),
              ("swing of what is displaced", abs(p.displace) * p.plasma_frequency)]
    return [f"the {name} moves a particle by {speed * p.side:.2g} sub-cells a step; below 20 rounded moves show."
            for name, speed in speeds if 0 < speed * p.side < 20]


def frames(plasma: Plasma) -> list[str]:
    """Frequencies that are to be expected and that frames so far apart don't show."""
    p, lines, shown = plasma, [], pi / plasma.every
    warm = sqrt(1.75) if debye_length(p) else 1
    swing = sqrt((warm * p.plasma_frequency)**2 + p.gyration**2)
    waves = 2 * asin(min(1, p.light_speed * sqrt(len(long_axes(p))))) if makes_light(p) and not p.antenna else 0
    swing = max(swing, 2 * pi / p.antenna_period if p.antenna else 0)
    if swing > shown:
        lines.append(f"frames every {p.every} steps show frequencies up to pi / every = {shown:.3g}, and electrons swing with "
                     f"up to {swing:.3g}: they are seen folded, as slower ones; take --every {max(int(pi / swing), 1)} or less.")
    elif waves > shown:
        lines.append(f"frames every {p.every} steps show frequencies up to pi / every = {shown:.3g}, and light has up to "
                     f"{waves:.3g}: in a spectrum of E across the waves, or of B, it is seen folded; take --every "
                     f"{max(int(pi / waves), 1)} to see it.")
    return lines


def start_noise(plasma: Plasma) -> float:
    """The energy of E at a start whose electrons are drawn without an ion on each, over the electrons' kinetic energy: the sum
    over the box's waves of what particles that stand anywhere make, half a temperature times `shot` of
    `theory.thermal_shares`."""
    p = plasma
    waves = (2 * pi * np.fft.fftfreq(n if n > 2 else 1) for n in p.cells)
    k = np.stack(np.meshgrid(*waves, indexing="ij"), axis=-1).reshape(-1, 3)[1:]
    square = np.sum((2 * np.sin(k / 2))**2, axis=-1)
    left = theory.left_by_filter(k) if p.filter else 1
    shot = np.sum(np.prod((2 + np.cos(k)) / 3, axis=-1) * left**2 / square)
    kinetic = p.electrons / prod(p.copies) * (sum(v**2 for v in p.thermal_speeds) + greatest_drift(p)**2)
    return float(p.plasma_frequency**2 * shot / kinetic) if kinetic else np.inf


def noise(plasma: Plasma) -> list[str]:
    """A start whose electrons stand anywhere, which holds more energy in E than in their speeds."""
    p = plasma
    if p.start != "random" or p.mass_ratio or not p.listed:
        return []
    share = start_noise(p)
    return [f"electrons that are drawn between still ions begin with an E of {share:.2g} times their kinetic energy, which heats "
            "them; --mass-ratio puts an ion on each."] if share > 0.1 else []


def few(plasma: Plasma) -> list[str]:
    """Warm electrons that are drawn, so few that most of E is the noise of waves of some cells, without a filter."""
    p = plasma
    if p.filter or p.start == "quiet" or not any(p.thermal_speeds) or len(long_axes(p)) < 3 or p.particles_a_cell >= FEW:
        return []
    return [f"{p.particles_a_cell} electron{'s' * (p.particles_a_cell > 1)} a cell make much noise of waves of a few cells: --filter 1 "
            "smooths the current, and takes most of it away (\"The filter\" in docs/UNITS.md)."]


def forces(plasma: Plasma) -> list[str]:
    """Force values near their bound. A speed that swings makes E as large as 12 (S^2 / 4096) q n v / wp, and all that
    the streams have is the most that can swing."""
    p = plasma
    swing = max(greatest_drift(p), p.wave_speed, abs(p.displace) * p.plasma_frequency, *p.thermal_speeds) * p.fast
    force_e = p.unit_current * p.particles_a_cell * swing / p.plasma_frequency * p.e_force.value
    force_b = abs(p.field_b) * p.e_force.value
    return [f"force values of {name} come to about 2^{log2(force):.0f}, near their bound 2^44."
            for name, force in (("E", force_e), ("B", force_b)) if force > FORCE_BOUND / 1024]
