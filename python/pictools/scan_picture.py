"""The picture of a scan: what was measured over a scanned choice, with its errors, and theory's curve."""

from __future__ import annotations

from collections.abc import Iterator
from pathlib import Path
from typing import Any

import matplotlib
import numpy as np
from matplotlib.axes import Axes
from matplotlib.figure import Figure
from numpy.typing import NDArray

from pictools import panels, plots
from pictools.deck import DeckError
from pictools.limits import spoken
from pictools.note import SHORT
from pictools.plasma import Plasma
from pictools.scan import Row, Scan

WAVES = ("wave", "cells")   # whose axis is the wave number
POINTS = 200                # of theory's curve
LEAST = 1e-6                # a rate, or a frequency, that is one
UNITS = {"growth": "growth rate, a step", "damping": "damping, a step", "frequency": "frequency, radians a step",
         "heating": "all energy at the end over its first"}


def across(scan: Scan) -> str:
    """The choice that the picture's axis is of: of the numbers the one with the most values, and of two such the wave."""
    numbers = [name for name, values in scan.over.items() if not isinstance(values[0], str)]
    return max(numbers or [""], key=lambda name: (len(scan.over.get(name, ())), name in WAVES))


def place(name: str, choices: dict[str, Any]) -> float:
    """Where a run stands along the axis: that of waves, or of the cells of a wave, is the wave number."""
    if name in WAVES:
        fields = {"wave_axis": "x", "cells": (64, 2, 2), "wave": 1} | choices
        return 2 * np.pi * fields["wave"] / fields["cells"]["xyz".index(fields["wave_axis"])]
    return float(choices[name])


def groups(scan: Scan, rows: list[Row], name: str) -> Iterator[tuple[str, list[dict[str, Any]], list[Row]]]:
    """The runs by their scanned choices other than the axis's: their names, choices and rows."""
    found: dict[str, tuple[list, list]] = {}
    for choices, row in zip(scan.choices(), rows):
        label = ", ".join(f"{other.replace('_', ' ')} {spoken(choices[other])}" for other in scan.over if other != name)
        kept = found.setdefault(label, ([], []))
        kept[0].append(choices)
        kept[1].append(row)
    for label, (chosen, those) in found.items():
        yield label, chosen, those


def numbers(rows: list[Row], column: str) -> NDArray[np.float64]:
    """A column; what isn't there is no number."""
    return np.array([float(row.get(column) or "nan") for row in rows])


def curve(scan: Scan, name: str, chosen: list[dict[str, Any]]) -> tuple[NDArray, NDArray]:
    """Theory where a scanned choice may be any number, to one step beyond its ends; empty where it may not. What has no
    rate is left out."""
    ends = [one[name] for one in chosen]
    if not (name == "wave" or isinstance(ends[0], float)):
        return np.zeros(0), np.zeros(0)
    found, beyond = [], (max(ends) - min(ends)) / max(len(ends) - 1, 1)
    for value in np.linspace(min(ends) - beyond, max(ends) + beyond, POINTS):
        choices = chosen[0] | {name: float(value)}
        try:
            theory = scan.asked.theory(Plasma(**choices))
        except (DeckError, ArithmeticError):
            theory = None
        found.append((place(name, choices), theory if theory is not None and theory > LEAST else np.nan))
    return tuple(np.array(found).T)


def draw(axes: Axes, scan: Scan, rows: list[Row]) -> None:
    """The points, and dashes for theory."""
    name, named = across(scan), False
    for (label, chosen, those), colour in zip(groups(scan, rows, name), panels.COLOURS * 99):
        x = np.array([place(name, choices) if name else number for number, choices in enumerate(chosen)])
        order = np.argsort(x, kind="stable")
        errors = numbers(those, "error")[order]
        axes.errorbar(x[order], numbers(those, "measured")[order], errors if np.isfinite(errors).any() else None, fmt="o", markersize=4,
                      color=colour, capsize=2, label=label or "measured")
        line = curve(scan, name, chosen) if name else (np.zeros(0), np.zeros(0))
        if not np.isfinite(line[1]).any():
            line = x[order], numbers(those, "theory")[order]
        if np.isfinite(line[1]).any():
            axes.plot(*line, color="black", linewidth=0.9, linestyle="--", label=None if named else "theory", zorder=1)
            named = True
    if scan.asked.kind in ("growth", "damping") and axes.get_ylim()[0] > 0:
        axes.set_ylim(bottom=0)
    axes.legend(loc="best")
    axes.set(xlabel="wave number, radians a cell" if name in WAVES else name.replace("_", " "),
             ylabel=UNITS[scan.asked.kind])


def figure(scan: Scan, rows: list[Row], title: str = "") -> Figure:
    """The picture of a scan's rows, with the table that it is of."""
    with matplotlib.rc_context(plots.STYLE):
        picture = plots.Picture(figsize=(6.4, 4.2), dpi=100, layout="constrained")
        draw(picture.subplots(), scan, rows)
        picture.suptitle(title)
        known = np.isfinite(numbers(rows, "measured")).sum()
        plots.write_source(picture, f"{Path(scan.out).name}: {known} of {len(rows)} runs measured, "
                                    f"pic {rows[0]['program_sha256'][:SHORT]}")
    return picture
