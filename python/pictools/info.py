"""What a dump is of, in some lines."""

from __future__ import annotations

from itertools import combinations
from math import pi, prod

import numpy as np

from pictools import note, units
from pictools.dump import Dump, Frame, Header, Multiplier, Species
from pictools.header import Loop, frame_length
from pictools.measure import AXES
from pictools.versions import FILTER_WEIGHT

FILTERED = f"1: the current is smoothed by weights of {FILTER_WEIGHT}, so E and B are {FILTER_WEIGHT} times as large"


def info(dump: Dump) -> list[str]:
    """The facts of a dump as lines."""
    lines = facts(dump)
    wide = max(len(name) for name, _ in lines)
    return [f"{name:{wide}}  {text}" for name, text in lines]


def facts(dump: Dump) -> list[tuple[str, str]]:
    """The run's size, its frames and end, its species, and what its multipliers mean, each with its name."""
    header, last = dump.header, int(dump.steps[-1])
    frames = f"{len(dump)} of {header.frames}, of steps {int(dump.steps[0])} to {last}, every {header.every}"
    lines = [("dump", dump.path),
             ("cells", f"{' x '.join(map(str, header.cells))}, {prod(header.cells)} in all"),
             ("side", f"{header.side} sub-cells a cell along each axis, by version {header.version}"),
             ("steps", f"{header.steps}, a frame every {header.every}"),
             ("frames", f"{frames}; {size(frame_length(header.cells, header.particles))} each"),
             ("end", dump.end.text if dump.end else f"none: {dump.cut}"),
             ("particles", str(header.particles))]
    lines += [("its run", said)] if (said := note.said(dump)) else []
    lines += [(f"species {s.name}", kind(s)) for s in header.species]
    lines += [("filter", FILTERED)] if header.filter else []
    lines += displaced(dump[0]) + loops(header)
    lines += [(name, factor(getattr(header, name))) for name in ("e_to_b", "b_to_e", "e_force", "b_force")]
    return lines + physics(dump)


def factor(multiplier: Multiplier) -> str:
    """A multiplier as it stands in a deck, and its value."""
    return f"{list(multiplier)}, {multiplier.value:g}"


def kind(species: Species) -> str:
    """A species in a line."""
    still = "" if species.kick.n or species.turn.n else ", feels no field"
    return (f"{species.count} of charge {species.charge}, mass {species.mass}, kick {species.kick.value:g}, "
            f"turn {species.turn.value:g}{still}")


def displaced(frame: Frame) -> list[tuple[str, str]]:
    """The species whose particles each stand one way, of at most a cell along each axis, from those of an earlier one of the opposite
    charge when the run starts: as the program displaces them."""
    box, side = np.array(frame.header.cells) * frame.header.side, frame.header.side
    places, lines = frame.record["particles"]["position"], {}
    for of, kind in combinations(frame.header.species if frame.step == 0 else (), 2):
        if kind.name in lines or not 0 < kind.count == of.count or kind.charge != -of.charge:
            continue
        here, there = (places[s.first : s.first + s.count].astype(np.int64) for s in (kind, of))
        ways = (here - there + box // 2) % box - box // 2
        if np.ptp(ways, axis=0).max() == 0 and 0 < np.abs(ways[0]).max() <= side:
            way = ", ".join(f"{part / side:g}" for part in ways[0])
            lines[kind.name] = f"each {kind.name} starts {way} cells along x, y and z from its {of.name}"
    return [(f"displaced {name}", said) for name, said in lines.items()]


def loops(header: Header) -> list[tuple[str, str]]:
    """The driven loops, of which those that follow each other across one axis with one wave are told together."""
    groups: list[list[int]] = []
    for number, loop in enumerate(header.loops):
        alike = groups and header.loops[groups[-1][0]]._replace(cell=loop.cell) == loop
        groups[-1:] = [groups[-1] + [number]] if alike else [*groups[-1:], [number]]
    lines = [(f"loop {group[0]}" if len(group) == 1 else f"loops {group[0]} to {group[-1]}",
              driven(header.loops[group[0]], [header.loops[number].cell for number in group])) for group in groups]
    return lines + [("driven", "by these loops from outside, so the energy doesn't stay; their waves come round the box")] * bool(lines)


def driven(loop: Loop, cells: list[tuple[int, int, int]]) -> str:
    """Driven loops with one wave in a line."""
    most, steps = max(map(abs, loop.wave)), len(loop.wave)
    where = f"the face of the cell {cells[0]}" if len(cells) == 1 else f"the faces of the cells {', '.join(map(str, cells))}"
    return f"around {where} across {AXES[loop.axis]}, by a wave of {steps} step{'s' * (steps > 1)}, up to {most:.4g} in size"


def size(number: float) -> str:
    """Bytes as a person says them."""
    for unit in ("bytes", "kB", "MB", "GB", "TB"):
        if number < 1000 or unit == "TB":
            return f"{number:.3g} {unit}" if unit != "bytes" else f"{number:.0f} {unit}"
        number /= 1000


def physics(dump: Dump) -> list[tuple[str, str]]:
    """The speed of light, and of a plasma its frequency, thermal speed, Debye length and gyration, as at the first frame."""
    header, lines = dump.header, []
    light, plasma = units.light_speed(header), units.plasma_frequency(header)
    lines.append(("light", f"{light:.6g} cells a step" if light else "no wave: e_to_b b_to_e is not above 0"))
    if plasma and dump[0].step == 0:
        thermal = [units.thermal_speed(dump[0], axis) for axis in "xyz"]
        speeds = ", ".join(f"{speed:.4g}" for speed in thermal)
        lines += [("plasma frequency", f"{plasma:.6g} a step, wp{', of long waves' if header.filter else ''}; a period is "
                   f"{2 * pi / plasma:.4g} steps"),
                  ("thermal speed", f"{speeds} cells a step, of the electrons along x, y, z at the start"),
                  ("Debye length", f"{thermal[0] / plasma:.4g} cells, of that along x")]
    return lines + turning(header, dump)


def turning(header: Header, dump: Dump) -> list[tuple[str, str]]:
    """How far the mean B of the first frame turns a particle of each species, where there is one."""
    means = [float(part.mean()) for part in dump[0].b]
    size_b = sum(b * b for b in means)**0.5
    return [(f"gyration {s.name}", f"{abs(units.gyration(header, s, size_b)):.4g} radians a step, in the mean B at the start")
            for s in header.species if s.turn.n and s.count and size_b]
