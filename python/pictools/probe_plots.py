"""Pictures of probe lines: signals over the steps, their spectra in time, and orbits.

    picture, lines = probe_plots.drawn({"antenna": Probes("antenna.lines", "decks/antenna.toml")}, ["signal", "spectrum"], View())
"""

from __future__ import annotations

from collections.abc import Iterable
from math import pi

import matplotlib
import numpy as np
from matplotlib.axes import Axes
from matplotlib.figure import Figure
from numpy.typing import NDArray

from pictools import expect, measure, panels, plots
from pictools.probe import Probes
from pictools.views import PROBE_PANELS, STEPS, View, strength

MOST_LINES = 6              # of places; more are drawn as colours
# The options of a picture that probe lines don't have.
OF_DUMPS = ("steps", "place", "speed", "at", "dots", "linear")


def test(view: View, chosen: list[str]) -> None:
    """An error for what probe lines can't be drawn by."""
    unset = View()
    for name in OF_DUMPS:
        if getattr(view, name) != getattr(unset, name):
            raise ValueError(f"--{name}: it is an option of a dump's picture, which probe lines don't have")
    if view.units != "steps":
        raise ValueError(f"--units {view.units}: probe lines are drawn in steps; their deck doesn't say the Debye length")
    for panel in chosen:
        if panel not in PROBE_PANELS:
            raise ValueError(f"probe lines have no panel {panel!r}; they have {', '.join(PROBE_PANELS)}")


def window(probes: Probes, view: View) -> slice:
    """The steps that are drawn: --from and --to, or all."""
    chosen = measure.between(probes.steps, view.first, view.last)
    return slice(*chosen) if chosen else slice(None)


def drawn_component(probes: Probes, view: View) -> str:
    """The component that was chosen, else the first that is probed."""
    if not probes.places:
        raise ValueError(f"{probes.path}: its deck probes no place")
    return view.component or probes.places[0].component


def values_of(probes: Probes, view: View) -> tuple[str, list[int], NDArray, str]:
    """A component, the numbers of its places, its values (steps, places) in a picture's unit, and the unit's name."""
    name = drawn_component(probes, view)
    numbers = probes.of(name)
    table = np.stack([probes.signal(number) for number in numbers], axis=1)[window(probes, view)]
    return name, numbers, *strength(probes.header, name, STEPS, table)


def draw_signal(axes: Axes, probes: Probes, view: View) -> list[str]:
    """The values at some places over the steps, or in colours at many."""
    (name, numbers, values, what), steps = values_of(probes, view), probes.steps[window(probes, view)]
    if len(numbers) <= MOST_LINES:
        for number, signal in zip(numbers, values.T):
            axes.plot(steps, signal, linewidth=1, label=str(probes.places[number]))
        axes.set(title=f"{panels.title_of(name)} at its places", xlabel=STEPS.step, ylabel=what)
        axes.legend(loc="best", fontsize="small")
        return []
    extent = np.array([-0.5, len(numbers) - 0.5, steps[0], steps[-1]])
    panels.image(axes, values, extent, what, panels.top_of(values))
    first, last = probes.places[numbers[0]].cell, probes.places[numbers[-1]].cell
    axes.set(title=f"{panels.title_of(name)} over time", ylabel=STEPS.step, xlabel=f"place, of {len(numbers)}, from {first} to {last}")
    return []


def draw_spectrum(axes: Axes, probes: Probes, view: View) -> list[str]:
    """The spectrum in time of each place; where a component is probed at all cells of an axis, that over its wave numbers too, with
    theory's curves."""
    name, along = drawn_component(probes, view), view.axis(probes.header)
    if probes.is_whole(name, along):
        table = measure.spectrum_of(probes.along(name, along)[1][window(probes, view)], 1)
        theirs = expect.curves_of(expect.start_of_deck(probes.header, probes.uniform_b), name, along, table[0])
        lines = panels.show_spectrum(axes, probes.header, table, theirs, STEPS)
        axes.set(title=f"Spectrum of {panels.title_of(name)} along {along}")
        return lines + panels.peaks(probes.header, view, theirs, table)
    _, numbers, values, _ = values_of(probes, view)
    steps, lines = probes.steps[window(probes, view)], []
    faded = (values - values.mean(axis=0)) * np.hanning(len(values) + 2)[1:-1, None]
    power, frequencies = abs(np.fft.rfft(faded, axis=0))**2, 2 * pi * np.fft.rfftfreq(len(faded))
    many = len(numbers) > MOST_LINES
    if many:
        numbers, values, power = numbers[:1], values[:, :1], power.mean(axis=1)[:, None]
    for number, signal, part in zip(numbers, values.T, power.T):
        place = f"mean of {len(probes.of(name))} places" if many else str(probes.places[number])
        if not part.any():
            lines.append(f"{place}: it stays as it is")
            continue
        axes.plot(frequencies, np.maximum(part, part.max() * 1e-12), linewidth=1, label=place)
        peak = f"{measure.peak(steps, signal):.6f}" if not many else f"{frequencies[np.argmax(part)]:.4f}"
        lines.append(f"{place}: the highest peak is at {peak} radians a step")
    axes.set(title=f"Spectrum of {panels.title_of(name)} in time", xlabel=STEPS.frequency, ylabel="power", yscale="log", xlim=(0, pi))
    axes.legend(loc="best", fontsize="small")
    return lines


def draw_orbit(axes: Axes, probes: Probes, view: View) -> list[str]:
    """The ways of the first traced particles over a plane, through the box's sides."""
    if not probes.ids:
        raise ValueError(f"{probes.path}: its deck traces no particle")
    plane = view.plane if view.plane and len(view.plane) == 2 else "xy"
    axis = ["xyz".index(a) for a in plane]
    ways = {identity: probes.way(identity)[window(probes, view)][:, axis] for identity in probes.ids[:panels.MOST_ORBITS]}
    panels.draw_ways(axes, ways, plane, STEPS, 1)
    return []


DRAWS = {"signal": draw_signal, "spectrum": draw_spectrum, "orbit": draw_orbit}


def usual(probes: Probes) -> list[str]:
    """The panels of a picture that nobody chose."""
    return (["signal", "spectrum"] if probes.places else []) + (["orbit"] if probes.ids else [])


def drawn(runs: dict[str, Probes], chosen: Iterable[str], view: View) -> tuple[Figure, list[str]]:
    """A picture of the probe lines of one deck or of several, by their names, and the lines that its panels have to say."""
    chosen, lines = list(chosen), []
    test(view, chosen)
    parts = [(run, panel) for run, probes in runs.items() for panel in chosen or usual(probes)]
    if not parts:
        raise ValueError("there is nothing to draw: the deck probes no place and no particle")
    with matplotlib.rc_context(plots.STYLE):
        picture, places = plots.sheet(len(parts), view, ())
        for number, (axes, (run, panel)) in enumerate(zip(places, parts)):
            said = DRAWS[panel](axes, runs[run], view)
            if len(runs) > 1:
                axes.set_title(f"{run}: {axes.get_title()}")
                said = [f"{run}: {line}" for line in said]
            lines += said
            plots.letter(axes, number, view)
    return picture, lines
