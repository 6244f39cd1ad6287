"""Measures what the lines of `pic probe` are about, from them and their deck alone, and prints what theory says beside it.

    python3 examples/measure_probes.py antenna DECK LINES     the light that an antenna launches along an axis: its wave number, or how
                                                              it falls off where it can't go
    python3 examples/measure_probes.py light DECK LINES       the frequencies of standing waves of light, probed at all cells of an axis

The decks are antenna.toml and plasma_light.toml, after docs/EXAMPLES.md, and those of docs/GALLERY.md. Electrons are taken to be cold
and at rest. It needs numpy.
"""

import sys
from math import ceil, pi

import numpy as np
from measure import show

from pictools import theory, units
from pictools.probe import Probes

NEAR = 2                    # cells beside an antenna that are left out
FAR = 17                    # up to where its waves are looked at,
DAMPED = 8                  # and where they can't go
PERIODS = 4                 # at the end, over which they are
CLEAR = 1e-6                # waves so much lower than the highest, at the start, aren't there


def component_of(probes: Probes) -> str:
    """The one that is probed."""
    names = {place.component for place in probes.places}
    if len(names) != 1:
        raise ValueError(f"its deck probes {', '.join(sorted(names)) or 'no component'}, not one")
    return names.pop()


def line_of(probes: Probes) -> str:
    """The axis along which the places lie."""
    axes = [axis for a, axis in enumerate("xyz") if len({place.cell[a] for place in probes.places}) > 1]
    if len(axes) != 1:
        raise ValueError("its places don't lie along one axis")
    return axes[0]


def swing(probes: Probes, values: np.ndarray, period: int) -> np.ndarray:
    """How a signal of this period swings at each place, over its last periods, complex; the ends are faded out (Hann)."""
    if len(values) <= PERIODS * period:
        raise ValueError(f"{len(values)} steps have no {PERIODS} periods of {period}")
    last, fade = values[-PERIODS * period:], np.hanning(PERIODS * period + 1)[:-1]
    turn = np.exp(2j * pi / period * np.arange(len(values))[-PERIODS * period:])
    return (last * (fade * turn)[:, None]).sum(axis=0) * 2 / fade.sum()


def antenna(probes: Probes) -> None:
    header, axis = probes.header, line_of(probes)
    periods = {len(loop.wave) for loop in header.loops}
    places = {loop.cell["xyz".index(axis)] for loop in header.loops}
    if len(periods) != 1 or len(places) != 1:
        raise ValueError(f"its loops have the periods {sorted(periods)} and stand at {sorted(places)} along {axis}; one of each is wanted")
    period, place, c = periods.pop(), places.pop(), units.light_speed(header)
    cells, values = probes.along(component_of(probes), axis)
    expected = theory.light_number(2 * pi / period, c, units.plasma_frequency(header), header.filter)
    apart = (cells - place) % header.cells["xyz".index(axis)]
    chosen = (apart >= 1) & (apart <= DAMPED) if expected.imag else (apart >= NEAR) & (apart < FAR)
    if chosen.sum() < 3:
        raise ValueError(f"fewer than three of its places are within {FAR} cells behind the antenna")
    # What went the other way comes to the last of these places after so many steps.
    there = header.cells["xyz".index(axis)] - int(apart[chosen].max())
    if c * probes.steps[-1] > there:
        raise ValueError(f"after {ceil(there / c)} steps the light comes round the box, and there are {probes.steps[-1]}")
    heights = swing(probes, values, period)[chosen]
    where = f"of {component_of(probes)} at {chosen.sum()} cells, {apart[chosen].min()} to {apart[chosen].max()} behind the antenna"
    if expected.imag:
        depth = -1 / np.polyfit(apart[chosen], np.log(abs(heights)), 1)[0]
        show("skin depth, cells", depth, 1 / abs(expected.imag))
    else:
        number = np.polyfit(apart[chosen], np.unwrap(np.angle(heights)), 1)[0]
        show("wavelength, cells", 2 * pi / number, 2 * pi / expected.real)
    print(f"{'':28} {where}, in the last {PERIODS} periods")


def light(probes: Probes) -> None:
    header, axis = probes.header, line_of(probes)
    cells, values = probes.along(component_of(probes), axis)
    number = header.cells["xyz".index(axis)]
    if len(cells) != number:
        raise ValueError(f"{len(cells)} of {number} cells along {axis} are probed; all are wanted")
    heights = np.fft.rfft(values, axis=1) / number
    for wave in range(1, number // 2):
        height = heights[:, wave]
        if abs(height[0]) > abs(heights[0]).max() * CLEAR:
            # A swing of the frequency w has h(n + 1) + h(n - 1) = 2 cos(w) h(n).
            cosine = np.vdot(height[1:-1], height[2:] + height[:-2]).real / np.vdot(height[1:-1], height[1:-1]).real / 2
            k = 2 * pi * wave / number
            wp = units.plasma_frequency(header, k)
            show(f"wave {wave}: frequency", float(np.arccos(cosine)), theory.light(k, units.light_speed(header), wp))


MEASURES = {f.__name__: f for f in (antenna, light)}


def main(words: list[str]) -> None:
    if len(words) != 3 or words[0] not in MEASURES:
        print(__doc__, file=sys.stderr)
        sys.exit(2)
    name, deck, path = words
    try:
        MEASURES[name](Probes(path, deck))
    except (ValueError, LookupError, ArithmeticError, OSError) as error:
        sys.exit(f"{name}: {path} can't be measured as lines of this deck: {error}")


if __name__ == "__main__":
    main(sys.argv[1:])
