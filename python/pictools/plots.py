"""Pictures of a dump: energies, phase space, fields, a field over time, waves that grow or are damped beside their theory, the
spectrum with its theory, and heating. Nothing of matplotlib's own state is changed: a figure is made without pyplot.

    picture = plots.figure(dump, ["growth", "phase"], wave=2, steps=[120, 160])
    plots.save(picture, "two_stream.png")
"""

from __future__ import annotations

import os
import re
from collections.abc import Iterable, Sequence
from io import BytesIO
from math import ceil
from typing import Any, NamedTuple

import matplotlib
import numpy as np
from cycler import cycler
from matplotlib.axes import Axes
from matplotlib.figure import Figure
from numpy.typing import NDArray

from pictools import measure, note, panels, views
from pictools.dump import Dump, rounded
from pictools.panels import PhaseEnds
from pictools.views import View

STYLE = {"font.size": 9, "axes.titlesize": 10, "axes.spines.top": False, "axes.spines.right": False,
         "axes.prop_cycle": cycler(color=panels.COLOURS), "legend.frameon": False}
MOST_DOTS_ACROSS = 20000
MOVING = ("phase", "field")     # the panels of one frame


class Picture(Figure):
    """A figure that a notebook shows as it is, without pyplot."""

    def _repr_png_(self) -> bytes:
        return bytes_of(self, "png")


class Part(NamedTuple):
    """What a panel shows: its name, the run's, the frame, and a scale that it shares with others: where a field's colours end, or
    the ends of phase space."""

    panel: str
    run: str
    frame: int = 0
    scale: float | PhaseEnds | None = None


def draw(axes: Axes, runs: dict[str, Dump], name: str, part: Part, view: View) -> list[str]:
    """Draws one panel. The lines that it has to say."""
    panel, run, frame, scale = part
    dump = runs[run]
    match panel:
        case "energies":
            return panels.draw_energies(axes, dump, view)
        case "heating":
            return panels.draw_heating(axes, runs, view)
        case "orbits":
            return panels.draw_orbits(axes, dump, view)
        case "phase":
            return panels.draw_phase(axes, dump[frame], dump, view, scale)
        case "field":
            return panels.draw_field(axes, dump[frame], dump, view, name, scale)
        case "history":
            return panels.draw_history(axes, dump, view, name)
        case "growth" | "damping":
            return panels.draw_rates(axes, dump, view, name, panel == "growth")
        case "spectrum":
            return panels.draw_spectrum(axes, dump, view, name)
    raise ValueError(f"a dump has no panel {panel!r}; it has {', '.join(views.PANELS)}")


def strongest(dump: Dump) -> str:
    """The component that varies most in the last frame, of E where it varies at all."""
    frame = dump[-1]
    for field, values in ("e", frame.e), ("b", frame.b):
        spread = np.ptp(values, axis=(1, 2, 3))
        if spread.any():
            return field + "xyz"[int(np.argmax(spread))]
    return "ex"


def usual(dump: Dump, name: str) -> list[str]:
    """The panels of a picture that nobody chose: those that have something to show."""
    field, axis = measure.component(name)
    varies = any(np.ptp(rounded(frame.record[field][axis])) for frame in dump)
    moves = any(s.count and (s.kick.n or s.turn.n) for s in dump.header.species)
    shown = {"energies": True, "phase": moves, "field": varies, "spectrum": varies and len(dump) > 8}
    return [panel for panel, something in shown.items() if something]


def nearest(dump: Dump, step: int) -> int:
    """The frame whose step is nearest to this one, which has to be within the run."""
    if not dump.steps[0] <= step <= dump.steps[-1]:
        raise ValueError(f"--steps {step}: the dump has the steps {dump.steps[0]} to {dump.steps[-1]}, a frame every "
                         f"{dump.header.every}")
    return int(np.argmin(np.abs(dump.steps - step)))


def shown(dump: Dump, frame: int, view: View, name: str) -> NDArray:
    """The values of a field's panel, in its unit."""
    return views.strength(dump.header, name, views.scale_of(dump, view.units), panels.slice_of(dump[frame], view, name)[0])[0]


def parts_of(run: str, dump: Dump, chosen: Sequence[str], view: View) -> list[Part]:
    """The panels of one run: those of one frame (phase, field) once for each of the view's steps, fields with one end of the
    colours for all."""
    name, frames = view.component or strongest(dump), [nearest(dump, step) for step in view.steps] or [len(dump) - 1]
    found = []
    for panel in chosen or usual(dump, name):
        scale = panels.top_of(np.stack([shown(dump, frame, view, name) for frame in frames])) if panel == "field" else None
        found += [Part(panel, run, frame, scale) for frame in (frames if panel in MOVING else [0])]
    return found


def write_source(picture: Figure, text: str) -> None:
    """What a picture is of, small at its foot."""
    if text:
        picture.supxlabel(text, fontsize=6, color="#777777", x=0.01, ha="left")


def sheet(number: int, view: View, dumps: Iterable[Dump]) -> tuple[Figure, list[Axes]]:
    """An empty picture of these dumps, with places for so many panels, two across."""
    across = min(number, 2)
    down = ceil(number / across)
    size = view.size or ((4.6 * across, 3.4 * down) if number > 1 else (6.4, 4.2))
    if max(size) * view.dpi > MOST_DOTS_ACROSS or view.dpi < 1:
        raise ValueError(f"--dpi {view.dpi} with {size[0]:g} by {size[1]:g} inches: a picture has 1 to {MOST_DOTS_ACROSS} dots "
                         "a side")
    picture = Picture(figsize=size, dpi=view.dpi, layout="constrained")
    places = list(picture.subplots(down, across, squeeze=False).flat)
    for axes in places[number:]:
        axes.axis("off")
    picture.suptitle(view.title)
    write_source(picture, "\n".join(filter(None, map(note.said, dumps))))
    return picture, places[:number]


def letter(axes: Axes, number: int, view: View) -> None:
    """A panel's letter, where letters are wanted."""
    if view.letters:
        axes.text(-0.03, 1.03, f"({chr(ord('a') + number)})", transform=axes.transAxes, ha="right", va="bottom",
                  fontweight="bold")


def drawn(runs: dict[str, Dump], chosen: Iterable[str], view: View) -> tuple[Figure, list[str]]:
    """A picture of one run or of several, by their names, and the lines that its panels have to say."""
    chosen, lines = list(chosen), []
    parts = [Part("heating", next(iter(runs)))] if "heating" in chosen else []
    for run, dump in runs.items():
        own = [panel for panel in chosen if panel != "heating"]
        parts += parts_of(run, dump, own, view) if own or not chosen else []
    with matplotlib.rc_context(STYLE):
        picture, places = sheet(len(parts), view, runs.values())
        for number, (axes, part) in enumerate(zip(places, parts)):
            said = draw(axes, runs, view.component or strongest(runs[part.run]), part, view)
            if len(runs) > 1 and part.panel != "heating":
                axes.set_title(f"{part.run}: {axes.get_title()}")
                said = [f"{part.run}: {line}" for line in said]
            lines += said
            letter(axes, number, view)
    return picture, lines


def figure(dump: Dump | dict[str, Dump], panels: Iterable[str] = (), **options: Any) -> Figure:
    """A picture of these panels, or of the usual ones, of one dump or of several by their names. The options are View's fields,
    as in `wave=2`, and `name` is another word for `component`; those panels that are of one frame (phase, field) are drawn once
    for each of `steps`."""
    if "name" in options:
        options["component"] = options.pop("name")
    return drawn(dump if isinstance(dump, dict) else {"": dump}, panels, views.view_of(**options))[0]


def report_figure(text: str) -> Figure:
    """The energies of a report, each in its own unit: without the deck's multipliers they can't be compared."""
    lines = [re.fullmatch(r"frame (\d+) kinetic (\d+) electric (\d+) magnetic (\d+)", line) for line in text.splitlines()]
    table = np.array([[float(number) for number in line.groups()] for line in lines if line])
    if not len(table):
        raise ValueError("the report has no line of a frame, as `frame 0 kinetic 0 electric 0 magnetic 0`")
    with matplotlib.rc_context(STYLE):
        whole = Picture(figsize=(6.4, 6), dpi=100, layout="constrained")
        places = whole.subplots(3, 1, sharex=True)
        for axes, values, name, colour in zip(places, table.T[1:], ("kinetic", "electric", "magnetic"), panels.COLOURS):
            axes.plot(table[:, 0], values, color=colour)
            axes.set(ylabel=name, **({} if values.any() else {"ylim": (0, 1)}))
        places[0].set(title="Energies of the report, each in its own unit")
        places[2].set(xlabel="step")
    return whole


def bytes_of(picture: Figure, kind: str) -> bytes:
    """The bytes of a picture of a kind, such as "png"."""
    whole = BytesIO()
    with matplotlib.rc_context(STYLE):
        picture.savefig(whole, format=kind, dpi=picture.dpi, **({"pil_kwargs": {"optimize": True}} if kind == "png" else {}))
    return whole.getvalue()


def save(picture: Figure, path: str) -> None:
    """Writes a picture; what kind it is, the path's ending says. A picture that can't be made, or written whole, leaves no
    file."""
    kind = os.path.splitext(path)[1][1:]
    known = sorted(picture.canvas.get_supported_filetypes())
    if kind not in known:
        raise ValueError(f"--out: a picture's name ends in one of .{', .'.join(known)}, not in {'.' + kind if kind else 'none'}")
    data = bytes_of(picture, kind)
    try:
        with open(path, "wb") as file:
            file.write(data)
    except OSError:
        if os.path.isfile(path):
            os.remove(path)
        raise
