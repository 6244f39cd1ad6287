"""What a picture shows and how: the options of `plot`, and the units of its axes. It needs no matplotlib."""

from __future__ import annotations

import argparse
from dataclasses import dataclass
from typing import Any, NamedTuple

import numpy as np
from numpy.typing import NDArray

from pictools import units
from pictools.dump import Dump, Header
from pictools.measure import AXES, Wave, component

PANELS = ("energies", "phase", "orbits", "field", "history", "growth", "damping", "spectrum", "heating")
PROBE_PANELS = ("signal", "spectrum", "orbit")      # of probe lines
COMPONENTS = ("ex", "ey", "ez", "bx", "by", "bz")
PLANES = ("x", "y", "z", "xy", "xz", "yz")


@dataclass(frozen=True)
class View:
    """How a dump is drawn. None is for what the dump itself decides: see `add_options`."""

    component: str | None = None
    steps: tuple[int, ...] = ()
    wave: tuple[Wave, ...] = (1,)
    along: str | None = None
    place: str | None = None
    speed: str | None = None
    plane: str | None = None
    at: int = 0
    dots: bool = False
    first: int | None = None
    last: int | None = None
    units: str = "steps"
    linear: bool = False
    letters: bool = False
    size: tuple[float, float] | None = None
    dpi: int = 100
    title: str = ""

    def axis(self, header: Header) -> str:
        """The axis along which waves are looked at: the one that was chosen, else the first long one."""
        return self.along or next((a for a, n in zip(AXES, header.cells) if n > 2), "x")

    def drawn_plane(self, header: Header) -> str:
        """The plane, or the line, of a field: the one that was chosen, else that of the first long axes."""
        return self.plane or "".join(a for a, n in zip(AXES, header.cells) if n > 2)[:2] or "xy"


def view_of(**options: Any) -> View:
    """A view from its fields; lists count as tuples, and one wave as a tuple of one."""
    if isinstance(options.get("wave"), int):
        options["wave"] = (options["wave"],)
    return View(**{name: tuple(value) if isinstance(value, list) else value for name, value in options.items()})


def wave_of(text: str) -> Wave:
    """A wave as it is typed: "3" along an axis, "2,0,1" in any direction."""
    try:
        numbers = tuple(int(part) for part in text.split(","))
    except ValueError:
        numbers = ()
    if len(numbers) not in (1, 3):
        raise argparse.ArgumentTypeError(f"{text!r} is no wave: one number along an axis, or three, as 2,0,1, along x, y, z")
    return numbers[0] if len(numbers) == 1 else numbers


def above_0(text: str) -> float:
    value = float(text)
    if not 0 < value < 1e4:
        raise argparse.ArgumentTypeError(f"{text} isn't above 0 and below 10000")
    return value


def add_window(part: argparse.ArgumentParser) -> None:
    """The steps of a fit."""
    for word, name in ("--from", "first"), ("--to", "last"):
        part.add_argument(word, dest=name, type=int, metavar="STEP",
                          help=f"of growth and damping: the fit's {name} step (default: it finds it)")


def add_options(part: argparse.ArgumentParser, steps: str = "of phase and field: the frames nearest to them (default: the last)",
                panels: str = "energies, and phase, field and spectrum where there are some") -> None:
    """The options of a picture; their names are the fields of View, and `panels`. What is said of two may be another thing."""
    add = part.add_argument
    add("--panels", nargs="+", default=[], choices=dict.fromkeys(PANELS + PROBE_PANELS), metavar="PANEL",
        help=f"what to draw, of {', '.join(PANELS)} (default: {panels}); of probe lines, of {', '.join(PROBE_PANELS)}")
    add("--component", choices=COMPONENTS,
        help="of field, history, growth, damping and spectrum (default: the one that varies most)")
    add("--steps", nargs="+", type=int, default=[], help=steps)
    add("--wave", nargs="+", type=wave_of, default=[1],
        help="of growth and damping: how often it goes into the box along the axis; 2,0,1 in any direction; several are drawn "
             "together. Of spectrum: the waves whose peaks are said beside theory (default: 1)")
    add("--along", choices=tuple(AXES),
        help="the axis of history, growth, damping and spectrum; they are means over the other two (default: the first of more "
             "than two cells)")
    add("--place", choices=tuple(AXES), help="the axis of phase's place (default: that of --along)")
    add("--speed", choices=tuple(AXES), help="the axis of phase's speed (default: that of --along)")
    add("--plane", choices=PLANES, metavar="PLANE",
        help="of field: xy, xz or yz, or x, y or z for a line (default: of the first axes of more than two cells)")
    add("--at", type=int, default=0, help="of field: the cell of the plane or line along the other axes (default: 0)")
    add("--dots", action="store_true", help="of phase: dots of some particles, drawn by chance, in place of a density of many")
    add_window(part)
    add("--units", choices=("steps", "plasma"), default="steps",
        help="of the axes: steps and cells, or the plasma frequency and the Debye length at the start (default: steps)")
    add("--linear", action="store_true", help="of energies: a linear axis, and the change of them all in parts of a thousand")
    add("--letters", action="store_true", help="a letter on each panel")
    add("--size", nargs=2, type=above_0, metavar=("WIDTH", "HEIGHT"), help="of the picture, in inches")
    add("--dpi", type=int, default=100, help="dots an inch (default: 100)")
    add("--title", default="")


def view_from(words: argparse.Namespace) -> View:
    """The view that was typed."""
    return view_of(**{name: getattr(words, name) for name in View.__dataclass_fields__})


class Scale(NamedTuple):
    """The units of a picture's axes: a `length` in cells, a `time` in steps, and the axes' names."""

    length: float
    time: float
    place: str
    step: str
    number: str
    frequency: str
    speed: str
    electric: str
    magnetic: str


STEPS = Scale(1, 1, "{}, cells", "step", "wave number, radians a cell", "frequency, radians a step", "$v_{}$, cells a step",
              "acceleration of an electron, cells / step²", "angle that an electron turns in a step")
PLASMA = Scale(0, 0, r"${} / \lambda_D$", r"$\omega_p t$", r"$k \lambda_D$", r"$\omega / \omega_p$", "$v_{} / v_{{th}}$",
               r"$e E / (m \omega_p v_{th})$", r"$\Omega / \omega_p$")


def scale_of(dump: Dump, name: str) -> Scale:
    """Steps and cells, or the plasma frequency and the Debye length (along x) of a dump's first frame."""
    if name == "steps":
        return STEPS
    wp, thermal = units.plasma_frequency(dump.header), units.thermal_speed(dump[0])
    if not wp or not thermal:
        raise ValueError(f"--units plasma: the plasma frequency is {wp:g} and the thermal speed along x {thermal:g} at the "
                         "start; both have to be above 0")
    return PLASMA._replace(length=thermal / wp, time=1 / wp)


def strength(header: Header, name: str, scale: Scale, values: NDArray) -> tuple[NDArray, str]:
    """The values of a component in a picture's unit, and that unit's name. A B is the whole angle by which a step turns an
    electron, 2 atan(turn b_force b / 2^20), not in proportion to it."""
    kinds = units.electrons(header)
    if component(name)[0] == "e" and kinds:
        acceleration = 2 * abs(kinds[0].kick.value) * header.e_force.value / header.fast
        return values * (acceleration * scale.time**2 / scale.length), scale.electric
    if component(name)[0] == "b" and kinds and kinds[0].turn.n:
        half = abs(kinds[0].turn.value) * header.b_force.value / 2**20
        return 2 * np.arctan(half * values) * scale.time, scale.magnetic
    return values, "the dump's unit"


def slope(header: Header, name: str, scale: Scale) -> tuple[float, str]:
    """What the height of a wave is multiplied by for a picture, and its unit: of B, whose angle isn't in proportion, the angle
    of a small one."""
    tiny = np.float64(1e-6)
    value, label = strength(header, name, scale, tiny)
    return float(value / tiny), "2 tan(half of an electron's turn in a step)" if label == STEPS.magnetic else label


def number_of(value: float, error: float | None = None) -> str:
    """A rate in five digits behind the point, with its error."""
    return f"{value:.5f}" + ("" if error is None else f" ± {error:.5f}")


def against(measured: float, theory: float, name: str = "theory") -> str:
    return f"{name} {number_of(theory)}" + (f", off by {measured / theory - 1:+.1%}" if theory else "")
