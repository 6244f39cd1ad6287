"""The panels of a picture: each draws on its axes what a view asks of a dump, and returns the lines that say what it found. What
a picture leaves out, averages over or folds is written on it."""

from __future__ import annotations

from collections.abc import Iterable
from math import pi
from typing import NamedTuple

import numpy as np
from matplotlib.axes import Axes
from matplotlib.colors import LogNorm
from matplotlib.ticker import LogFormatter, LogLocator, NullFormatter
from matplotlib.transforms import ScaledTranslation
from numpy.typing import NDArray

from pictools import expect, measure, units
from pictools.dump import Dump, Frame, Header, rounded
from pictools.measure import AXES, Wave
from pictools.views import Scale, View, against, number_of, scale_of, slope, strength

COLOURS = ("#0b5fa5", "#d1495b", "#3a7d44", "#8a5a9e", "#c98a1b", "#555555")
MOST_DOTS = 20000
DRAWN_WITH = 1              # the seed of a drawn sample
BINS = 128
MOST_ORBITS = 12
LONG = 4                    # orbits so much longer than wide have two scales
FAR_OUT = 0.999             # the share of a field's values whose greatest ends the colours, where some lie twice as far out


def title_of(name: str) -> str:
    return f"${name[0].upper()}_{name[1]}$"


def others(along: str) -> str:
    return " and ".join(a for a in AXES if a != along)


def wave_name(wave: Wave) -> str:
    return f"wave {wave}" if isinstance(wave, int) else f"wave ({', '.join(map(str, wave))})"


def beside(axes: Axes) -> Axes:
    """A place for the colours, as high as the axes whatever their shape."""
    return axes.inset_axes((1.03, 0, 0.04, 1))


def log_ticks(axes: Axes, low: float, high: float) -> None:
    """An axis of powers of ten, with numbers between them where it has few."""
    axes.set_yscale("log")
    if 0 < low < high < 1000 * low:
        axes.yaxis.set_major_locator(LogLocator(subs=(1, 2, 5)))
        axes.yaxis.set_major_formatter(LogFormatter(labelOnlyBase=False, minor_thresholds=(np.inf, np.inf)))
        axes.yaxis.set_minor_formatter(NullFormatter())


def uniform_energy(dump: Dump) -> NDArray[np.float64]:
    """The energy of the uniform B, which no curl changes, as `units.energies` has it: shape (3,), of which it is the last."""
    header = dump.header
    squares = np.rint(dump[0].b.mean(axis=(1, 2, 3)) * header.b_force.value)**2
    return np.array([0, 0, np.prod(header.cells) * np.sum(squares) * units.magnetic_weight(header)])


def whole_energy(total: NDArray) -> tuple[float, str]:
    """What energies are shown as shares of: all energy at the start or, where a run starts with none, at its greatest."""
    return (float(total[0]), "at the start") if total[0] > 0 else (float(total.max()) or 1.0, "at its greatest")


def draw_energies(axes: Axes, dump: Dump, view: View) -> list[str]:
    """The three energies in one unit, from what they were at the start, over the steps: without that of the uniform B,
    which hides the others."""
    scale = scale_of(dump, view.units)
    table, uniform = units.energies(dump), uniform_energy(dump)
    shown = table - uniform
    total = shown.sum(axis=1)
    (whole, when), time = whole_energy(total), dump.steps / scale.time
    for values, name in zip(shown.T, ("kinetic", "electric", "magnetic")):
        if values.any():
            axes.plot(time, np.where(values > 0, values, np.nan if not view.linear else values) / whole, label=name)
    axes.plot(time, total / whole, color="#999999", linestyle="--", label="all")
    axes.set(title="Energies, in one unit" + (", without the uniform B's" if uniform.any() else ""), xlabel=scale.step,
             ylabel=f"share of all energy {when}")
    if view.linear:
        draw_change(axes, time, total / whole)
    elif total.any():
        axes.set_yscale("log")
    axes.legend(loc="best")
    return [f"energies: at the end all are {total[-1] / whole:.4f} of those at the start"] if total[0] > 0 else []


def draw_change(axes: Axes, time: NDArray, share: NDArray) -> None:
    """The change of all energy in parts of a thousand, on an axis of its own to the right."""
    right = axes.twinx()
    right.plot(time, 1000 * (share / (share[0] or 1) - 1), color=COLOURS[5], linewidth=0.8, linestyle=":")
    right.spines["right"].set_visible(True)
    right.set(ylabel="change of all (dotted), parts of a thousand")


def draw_heating(axes: Axes, dumps: dict[str, Dump], view: View) -> list[str]:
    """The energy of several runs over time, over that of each at its start, with the Debye lengths along x at both ends."""
    lines = []
    for number, (name, dump) in enumerate(dumps.items()):
        wp, scale = units.plasma_frequency(dump.header), scale_of(dump, view.units)
        ends = [units.thermal_speed(frame) for frame in (dump[0], dump[-1])]
        if not wp or not ends[0]:
            raise ValueError(f"heating: {name or 'the dump'} has the plasma frequency {wp:g} and the thermal speed {ends[0]:g} "
                             "along x; both have to be above 0")
        table = units.energies(dump)
        share, debye = table.sum(axis=1) / table[0].sum(), [speed / wp for speed in ends]
        magnetic = (table[-1, 2] - uniform_energy(dump)[2]) / thermal_energy(dump[0])
        axes.plot(dump.steps / scale.time, share, linestyle=("-", "--", ":")[number // len(COLOURS) % 3],
                  label=f"{name} {debye[0]:.3g} to {debye[1]:.3g} cells".strip())
        lines.append(f"heating{': ' + name if name else ''}: the Debye length goes from {debye[0]:.3f} to {debye[1]:.3f} cells, "
                     f"the temperature along x to {(ends[1] / ends[0])**2:.3f} and all energy to {share[-1]:.3f} of its first, "
                     f"and B's to {magnetic:.4f} of the thermal one at the start, in {dump.steps[-1] * wp:.0f} / wp")
        axes.set_xlabel(scale.step)
    if axes.get_ylim()[1] > 10:
        log_ticks(axes, *axes.get_ylim())
    axes.set(title="Heating, and the Debye length", ylabel="all energy over its first")
    axes.legend(loc="best", fontsize="small")
    return lines


def thermal_energy(frame: Frame) -> float:
    """The kinetic energy of the electrons about their drifts, in the unit of `units.energies`."""
    square = float(np.sum((expect.thermal_speeds(frame, 0) * frame.header.fast)**2))
    return sum(units.kinetic_weight(frame.header, s) * s.mass * s.count * square for s in units.electrons(frame.header))


def draw_orbits(axes: Axes, dump: Dump, view: View) -> list[str]:
    """The ways of the first particles over x and y, through the box's sides."""
    if not dump.header.particles:
        raise ValueError("orbits: the dump has no particles")
    first = dump.records["particles"]["position"][:, :MOST_ORBITS, :2] / dump.header.side
    ways = measure.through(first, dump.header.cells[:2])
    draw_ways(axes, dict(enumerate(ways.swapaxes(0, 1))), "xy", scale_of(dump, view.units), dump.header.every)
    return []


def draw_ways(axes: Axes, ways: dict[int, NDArray], plane: str, scale: Scale, every: int) -> None:
    """The ways of particles, by their identities, over a plane: (times, 2) each, in cells, every so many steps."""
    for number, way in ways.items():
        axes.plot(*way.T / scale.length, marker="." if every > 1 else "", markersize=3, linewidth=0.6, label=f"particle {number}")
    wide, high = np.ptp(np.concatenate(list(ways.values())), axis=0)
    equal = max(wide, high) < LONG * min(wide, high)
    dots = f": a dot every {every} steps, straight lines between" if every > 1 else ""
    axes.set(title=f"Orbits{dots}" + ("" if equal else f"; {plane[0]} and {plane[1]} differ in scale"),
             xlabel=scale.place.format(plane[0]), ylabel=scale.place.format(plane[1]), aspect="equal" if equal else "auto")
    axes.legend(loc="center left", bbox_to_anchor=(1, 0.5))


class PhaseEnds(NamedTuple):
    """The scales of phase spaces that are to be compared: their least and greatest speed, and the most particles in a bin."""

    low: float
    high: float
    most: float


def phase_points(frame: Frame, dump: Dump, view: View) -> tuple[list[str], list[NDArray]]:
    """The names of what moves, and of each the places and the speeds (2, particles), in a picture's units."""
    scale, header = scale_of(dump, view.units), frame.header
    moving = [s for s in header.species if s.count and (s.kick.n or s.turn.n)]
    if not moving:
        raise ValueError(f"phase: none of the {header.particles} particles of the dump moves")
    place, speed = (AXES.index(axis or view.axis(header)) for axis in (view.place, view.speed))
    tables = [frame.species(s.name) for s in moving]
    return [s.name for s in moving], [np.stack([table["position"][:, place] / (header.side * scale.length),
                                                table["velocity"][:, speed] * (scale.time / scale.length / header.fast)])
                                      for table in tables]


def phase_ends(frame: Frame, dump: Dump, view: View) -> PhaseEnds:
    """The scales of one phase space by itself."""
    points = np.hstack(phase_points(frame, dump, view)[1])
    low, high = points[1].min(), points[1].max()
    room = 0.02 * (high - low) or 1e-6
    ends = PhaseEnds(low - room, high + room, 2)
    return ends if is_dotted(view, points.shape[1]) else ends._replace(most=max(2, density(points, dump, view, ends)[0].max()))


def common(ends: Iterable[PhaseEnds]) -> PhaseEnds:
    """The scales of several phase spaces."""
    low, high, most = zip(*ends)
    return PhaseEnds(min(low), max(high), max(most))


def is_dotted(view: View, number: int) -> bool:
    return number <= MOST_DOTS or view.dots


def draw_phase(axes: Axes, frame: Frame, dump: Dump, view: View, ends: PhaseEnds | None = None) -> list[str]:
    """Phase space of all that moves: a dot for each of some particles; of many their density, or dots of a drawn sample. With
    `ends` it has the scales of others."""
    scale, (names, points) = scale_of(dump, view.units), phase_points(frame, dump, view)
    place, speed = (axis or view.axis(frame.header) for axis in (view.place, view.speed))
    number, note = sum(part.shape[1] for part in points), ""
    if is_dotted(view, number):
        keep = np.ones(number, bool)
        if number > MOST_DOTS:
            keep[:] = False
            keep[np.random.default_rng(DRAWN_WITH).choice(number, MOST_DOTS, replace=False)] = True
            note = f"\n{MOST_DOTS} of {number} particles, drawn with the seed {DRAWN_WITH}"
        draw_dots(axes, names, points, keep)
    else:
        note = f"\ndensity of {number} particles"
        draw_density(axes, np.hstack(points), dump, view, ends or phase_ends(frame, dump, view))
    axes.set(title=f"Phase space, step {frame.step}{note}", xlabel=scale.place.format(place), ylabel=scale.speed.format(speed),
             xlim=(0, frame.header.cells[AXES.index(place)] / scale.length), **({"ylim": ends[:2]} if ends else {}))
    return []


def draw_dots(axes: Axes, names: list[str], points: list[NDArray], keep: NDArray) -> None:
    """The particles of some species that are kept, a colour each."""
    first = 0
    for name, (x, v), colour in zip(names, points, COLOURS * 3):
        kept = keep[first : first + len(x)]
        first += len(x)
        axes.plot(x[kept], v[kept], "," if len(keep) > 500 else "o", markersize=3, color=colour)
        axes.plot([], [], "o", markersize=4, color=colour, label=name)
    if len(names) > 1:
        axes.legend(loc="upper right", frameon=True, framealpha=0.8, handletextpad=0.1)


def density(points: NDArray, dump: Dump, view: View, ends: PhaseEnds) -> tuple[NDArray, NDArray, NDArray]:
    """How many particles there are in each of some bins of place and speed, and the bins' ends."""
    axis = view.place or view.axis(dump.header)
    wide = dump.header.cells[AXES.index(axis)] / scale_of(dump, view.units).length
    return np.histogram2d(*points, bins=BINS, range=((0, wide), ends[:2]))


def draw_density(axes: Axes, points: NDArray, dump: Dump, view: View, ends: PhaseEnds) -> None:
    """The density of particles by place and speed; white is none."""
    counts, x, v = density(points, dump, view, ends)
    drawn = axes.pcolormesh(x, v, np.ma.masked_equal(counts.T, 0), cmap="viridis", norm=LogNorm(1, ends.most), rasterized=True)
    axes.figure.colorbar(drawn, cax=beside(axes), label=f"particles in each of {BINS} by {BINS} bins")


def slice_of(frame: Frame, view: View, name: str) -> tuple[NDArray, str]:
    """The values of a component on a view's plane or line, at its cell of the other axes, and where that is in words. Of a
    plane ab the rows go along b."""
    field, axis = measure.component(name)
    plane, cells = view.drawn_plane(frame.header), frame.header.cells
    rest = [a for a in AXES if a not in plane]
    if any(not 0 <= view.at < cells[AXES.index(a)] for a in rest):
        raise ValueError(f"--at {view.at}: the box has the cells "
                         + " and ".join(f"0 to {cells[AXES.index(a)] - 1} along {a}" for a in rest))
    values = rounded(frame.record[field][axis])[tuple(slice(None) if a in plane else view.at for a in reversed(AXES))]
    return values, ", ".join(f"{a} = {view.at + measure.offsets(name)[AXES.index(a)]:g}" for a in rest)


def draw_field(axes: Axes, frame: Frame, dump: Dump, view: View, name: str, top: float) -> list[str]:
    """A component on a plane or along a line; `top` ends the colours, or the axis, of all panels of it."""
    scale, plane = scale_of(dump, view.units), view.drawn_plane(frame.header)
    values, where = slice_of(frame, view, name)
    values, what = strength(frame.header, name, scale, values)
    ends = [(np.array([0, n]) + offset) / scale.length
            for a, n, offset in zip(AXES, frame.header.cells, measure.offsets(name)) if a in plane]
    if len(plane) == 1:
        axes.plot(ends[0][0] + np.arange(len(values)) / scale.length, values)
        axes.set(ylabel=what, xlim=(0, len(values) / scale.length), ylim=(-1.05 * top, 1.05 * top))
    else:
        extent = np.concatenate([end - 0.5 / scale.length for end in ends])
        image(axes, values, extent, what, top)
        axes.set(ylabel=scale.place.format(plane[1]), aspect="equal")
    axes.set(title=f"{title_of(name)} at {where} cells, step {frame.step}", xlabel=scale.place.format(plane[0]))
    return []


def top_of(values: NDArray) -> float:
    """The value that ends the colours: the greatest, or where some lie twice as far out as all the others that of the others."""
    sizes = np.abs(values)
    most = float(np.quantile(sizes, FAR_OUT))
    return most if 0 < 2 * most < sizes.max() else float(sizes.max()) or 1.0


def image(axes: Axes, values: NDArray, extent: NDArray, what: str, top: float) -> None:
    """Values of both signs in two colours, white at 0. What lies beyond `top` is told by the colours' arrows and their label."""
    beyond = int(np.count_nonzero(np.abs(values) > top * (1 + 1e-9)))
    drawn = axes.imshow(values, extent=tuple(extent), origin="lower", aspect="auto", cmap="RdBu_r", vmin=-top, vmax=top,
                        interpolation="nearest")
    axes.figure.colorbar(drawn, cax=beside(axes), label=what + (f"; {beyond} place{'s' * (beyond > 1)} beyond" if beyond else ""),
                         extend="both" if beyond else "neither")


def draw_history(axes: Axes, dump: Dump, view: View, name: str) -> list[str]:
    """A component along an axis, averaged over the other two, over the steps."""
    if len(dump) < 2:
        raise ValueError("history: the dump has one frame alone")
    scale, along = scale_of(dump, view.units), view.axis(dump.header)
    values, what = strength(dump.header, name, scale, measure.profile(dump, name, along))
    ends = np.array([0, values.shape[1]]) + measure.offsets(name)[AXES.index(along)] - 0.5
    image(axes, values, np.concatenate([ends / scale.length, dump.steps[[0, -1]] / scale.time]), what, top_of(values))
    axes.set(title=f"{title_of(name)} over time, mean over {others(along)}", xlabel=scale.place.format(along), ylabel=scale.step)
    return []


def legend_below(axes: Axes) -> None:
    """What the lines are, below the axes, where they hide nothing."""
    below = axes.transAxes + ScaledTranslation(0, -0.45, axes.figure.dpi_scale_trans)
    axes.legend(loc="upper center", bbox_to_anchor=(0.5, 0), bbox_transform=below, fontsize="small", borderaxespad=0,
                labelspacing=0.3)


def draw_rates(axes: Axes, dump: Dump, view: View, name: str, grows: bool) -> list[str]:
    """The heights of waves over the steps, the line of each one's growth or damping with what the fit rests on, and theory's."""
    scale, along = scale_of(dump, view.units), view.axis(dump.header)
    factor, what = slope(dump.header, name, scale)
    frames, lines = measure.between(dump.steps, view.first, view.last), []
    for wave, height, colour in zip(view.wave, measure.heights(dump, name, view.wave, along), COLOURS * 99):
        signal = height * (2 * factor)
        axes.plot(dump.steps / scale.time, abs(signal), color=colour, linewidth=1)
        draw = draw_growth if grows else draw_damping
        try:
            label, said = draw(axes, dump, scale, signal, frames, colour, (name, wave, along))
        except ValueError as reason:
            label, said = "no fit", f"no fit: {reason}"
        axes.plot([], [], color=colour, label=f"{wave_name(wave)}: {label}")
        lines.append(f"{wave_name(wave)} of {name}: {said}")
    where = f" along {along}, mean over {others(along)}" if all(isinstance(wave, int) for wave in view.wave) else ""
    log_ticks(axes, *(np.array(axes.dataLim.intervaly)))
    axes.set(title=f"{title_of(name)}: {'growth' if grows else 'damping'}{where}", xlabel=scale.step, ylabel=what)
    axes.plot([], [], color="black", linewidth=0.9, linestyle="--", label="theory")
    legend_below(axes)
    return lines


def window_words(fit: measure.Fit | measure.Swing) -> str:
    return f"{fit.points} points, steps {fit.first} to {fit.last}"


def draw_growth(axes: Axes, dump: Dump, scale: Scale, signal: NDArray, frames: tuple[int, int] | None, colour: str,
                wave: tuple[str, Wave, str]) -> tuple[str, str]:
    """The line of one wave's growth and that of theory through its middle. What the legend says of it, and what the line does."""
    fit = measure.growth(dump.steps, abs(signal), frames)
    ends = np.array([fit.first, fit.last])
    axes.plot(ends / scale.time, np.exp(fit.rate * ends + fit.start), color=colour, linewidth=4, alpha=0.4)
    theirs = expect.growth(dump, *wave)
    label = f"{number_of(fit.rate * scale.time, fit.error * scale.time)} ({window_words(fit)})"
    said = f"grows by {number_of(fit.rate, fit.error)} a step, {window_words(fit)}"
    if theirs is None:
        return label, said + "; there is no theory here"
    middle, reach = ends.mean(), 0.75 * (fit.last - fit.first)
    around = np.clip(middle + np.array([-reach, reach]), dump.steps[0], dump.steps[-1])
    axes.plot(around / scale.time, np.exp(theirs.rate * (around - middle) + fit.rate * middle + fit.start), color="black",
              linewidth=0.9, linestyle="--")
    return (f"{label}, {theirs.label} {number_of(theirs.rate * scale.time)}",
            f"{said}; {against(fit.rate, theirs.rate, theirs.label)}")


def draw_damping(axes: Axes, dump: Dump, scale: Scale, signal: NDArray, frames: tuple[int, int] | None, colour: str,
                 wave: tuple[str, Wave, str]) -> tuple[str, str]:
    """The same of one wave's damping: the fit is of a wave that swings, with a part that goes either way."""
    theirs = expect.damping(dump, *wave)
    fit = measure.damping(dump.steps, signal, frames, theirs and theirs.frequency)
    measure.resolved(dump.header, fit.frequency)
    inside = dump.steps[(fit.first <= dump.steps) & (dump.steps <= fit.last)]
    heights, most = fit.height(inside)
    axes.plot(inside / scale.time, heights, color=colour, linewidth=4, alpha=0.4)
    label = f"{number_of(fit.rate * scale.time, fit.error * scale.time)} ({window_words(fit)})"
    said = f"damped by {number_of(-fit.rate, fit.error)} a step at the frequency {number_of(fit.frequency)}, {window_words(fit)}"
    if theirs is None:
        return label, said + "; there is no theory here"
    axes.plot(inside / scale.time, most[0] * np.exp(theirs.rate * (inside - fit.first)), color="black", linewidth=0.9,
              linestyle="--")
    return (f"{label}, {theirs.label} {number_of(theirs.rate * scale.time)}",
            f"{said}; {against(-fit.rate, -theirs.rate, theirs.label)}, and "
            + against(fit.frequency, theirs.frequency, "its frequency"))


def draw_spectrum(axes: Axes, dump: Dump, view: View, name: str) -> list[str]:
    """The power of a component over wave number and frequency, and the theory's curves, folded where the frames are too far
    apart for them."""
    along = view.axis(dump.header)
    table = measure.spectrum(dump, name, along)
    theirs = expect.curves(dump, name, along, table[0])
    lines = show_spectrum(axes, dump.header, table, theirs, scale_of(dump, view.units))
    axes.set(title=f"Spectrum of {title_of(name)} along {along}, mean over {others(along)}")
    return lines + peaks(dump.header, view, theirs, table)


def show_spectrum(axes: Axes, header: Header, table: tuple[NDArray, NDArray, NDArray], theirs: list[expect.Curve],
                  scale: Scale) -> list[str]:
    """A table of `measure.spectrum` in colours, and these curves."""
    numbers, frequencies, power = table
    highest, lines = measure.nyquist(header), []
    for curve, colour in zip(theirs, COLOURS[1:] * 3):
        lines += draw_curve(axes, curve, highest, scale, colour)
    top = min([frequencies[-1], 1.6 * max([c.frequencies.max() for c in theirs], default=np.inf)])
    floor = max(np.percentile(power, 25), power.max() * 1e-10)
    shown = np.log10(np.maximum(power, floor) / power.max()) if power.any() else power
    wide, high = numbers[1] / 2, frequencies[1] / 2
    extent = np.array([-wide, numbers[-1] + wide]) * scale.length, np.array([-high, frequencies[-1] + high]) * scale.time
    drawn = axes.imshow(shown, extent=(*extent[0], *extent[1]), origin="lower", aspect="auto", cmap="Blues",
                        interpolation="nearest")
    axes.figure.colorbar(drawn, cax=beside(axes), label="power, as a power of ten")
    axes.set(xlabel=scale.number, ylabel=scale.frequency, xlim=(0, pi * scale.length), ylim=(0, top * scale.time))
    if theirs:
        axes.legend(loc="upper left", facecolor="white", framealpha=0.8, frameon=True, fontsize="small")
    return lines


def draw_curve(axes: Axes, curve: expect.Curve, highest: float, scale: Scale, colour: str) -> list[str]:
    """A curve of theory: dashes below the frames' highest frequency, and dots where what lies above is seen folded."""
    seen = curve.frequencies <= highest
    x, y = curve.numbers * scale.length, measure.folded(curve.frequencies, highest) * scale.time
    axes.plot(x, np.where(seen, y, np.nan), color=colour, linewidth=1, linestyle="--", label=curve.label if seen.any() else None)
    if seen.all():
        return []
    axes.plot(x, np.where(seen, np.nan, y), color=colour, linewidth=1.2, linestyle=":",
              label=f"{curve.label}, folded at {highest * scale.time:.3g}")
    return [f"Warning: {curve.label}: frequencies up to {curve.frequencies.max():.3g} are expected, and the frames show those up "
            f"to pi / every = {highest:.3g}; higher ones are seen folded, and drawn so (dots)"]


def peaks(header: Header, view: View, theirs: list[expect.Curve], table: tuple[NDArray, NDArray, NDArray]) -> list[str]:
    """Beside theory's frequencies of the view's waves the highest peaks of the spectrum that are nearer to each than to another
    curve, within three frequencies of it."""
    numbers, frequencies, power = table
    lines, apart = [], frequencies[1]
    for wave in view.wave if view.wave != (1,) else ():
        measure.tested(header, wave, view.axis(header))
        here = [(curve.label, float(w)) for curve in theirs if isinstance(wave, int)
                for w in curve.frequencies[np.isclose(curve.numbers, numbers[wave])]]
        for label, expected in here:
            room = min([3 * apart] + [abs(w - expected) / 2 for other, w in here if other != label])
            try:
                measure.resolved(header, expected)
                found = measure.ridge(frequencies, power[:, wave], expected, room)
                said = (f"a peak at {number_of(found)}, {against(found, expected)}, {(found - expected) / apart:+.2f} of the "
                        f"spectrum's frequencies")
            except ValueError as reason:
                said = str(reason)
            lines.append(f"{wave_name(wave)}, {label}: {said}")
    return lines
