"""Measuring frequencies, growth and damping in a dump: waves along an axis or in any direction, their heights and phases over
the steps. A fit says how many points it has, its window and its error, and noise has none."""

from __future__ import annotations

from collections.abc import Sequence
from math import pi, sqrt
from typing import NamedTuple

import numpy as np
from numpy.typing import NDArray

from pictools.deck import divergence
from pictools.dump import Dump, Header, rounded

AXES = "xyz"
FEWEST = 4                  # points of a fit
LOOSEST = 0.2               # a rate's standard error, over the rate, past which there is none
Wave = int | tuple[int, int, int]


class Fit(NamedTuple):
    """A straight line through the logarithms of a wave's heights: exp(rate t + start) from the step `first` to `last`, by
    `points` frames. `error` is the rate's standard error, as the points' scatter about the line has it."""

    rate: float
    start: float
    first: int
    last: int
    points: int
    error: float


class Swing(NamedTuple):
    """A wave that swings and is damped: exp(rate t) (there exp(-i frequency t) + back exp(i frequency t)), t from the step
    `first` on. A wave that goes one way alone has no `back`."""

    rate: float
    frequency: float
    there: complex
    back: complex
    first: int
    last: int
    points: int
    error: float

    def height(self, steps: NDArray) -> NDArray[np.float64]:
        """What it is at these steps, and the most that it can be, with both parts in step."""
        time = np.asarray(steps) - self.first
        turn = np.exp(-1j * self.frequency * time)
        return np.exp(self.rate * time) * np.stack([abs(self.there * turn + self.back / turn),
                                                    np.full(len(time), abs(self.there) + abs(self.back))])


def component(name: str) -> tuple[str, int]:
    """The field and the axis of a component's name: "ex" is ("e", 0)."""
    if len(name) != 2 or name[0] not in "eb" or name[1] not in AXES:
        raise ValueError(f"{name!r} is no component; there are ex, ey, ez, bx, by and bz")
    return name[0], AXES.index(name[1])


def offsets(name: str) -> NDArray[np.float64]:
    """Where on a cell a component stands, along x, y and z: an E in the middle of an edge, a B in the middle of a face."""
    field, axis = component(name)
    return np.array([0.5 * ((a == axis) == (field == "e")) for a in range(3)])


def profile(dump: Dump, name: str, along: str = "x") -> NDArray[np.float64]:
    """A component along an axis, averaged over the other two: shape (frames, cells of the axis). One frame at a time is read."""
    return dump.profile(*component(name), along)


def waves(dump: Dump, name: str, along: str = "x") -> NDArray[np.complex128]:
    """The waves along an axis of a component, averaged over the other two: shape (frames, cells of the axis). Entry m is the
    height of the wave that goes m times into the box, exp(i 2 pi m x / nx)."""
    field = profile(dump, name, along)
    return np.fft.fft(field, axis=1) / field.shape[1]


def mode(dump: Dump, name: str, numbers: tuple[int, int, int]) -> NDArray[np.complex128]:
    """The height of one wave in any direction, which goes so often into the box along x, y and z: shape (frames,)."""
    field, axis = component(name)
    across = [np.exp(-2j * pi * m / n * np.arange(n)) / n for m, n in zip(numbers, dump.header.cells)]
    return np.array([np.einsum("zyx,x,y,z", rounded(frame.record[field][axis]), *across) for frame in dump])


def tested(header: Header, wave: Wave, along: str = "x") -> Wave:
    """A wave that the box has: a number along the axis, or three along x, y and z."""
    if isinstance(wave, int):
        cells = header.cells[AXES.index(along)]
        if not 1 <= wave <= cells // 2:
            raise ValueError(f"--wave {wave}: along {along} the box has the waves 1 to {cells // 2}, of {cells} cells")
    elif not any(wave) or any(abs(m) > n // 2 for m, n in zip(wave, header.cells)):
        most = ", ".join(str(n // 2) for n in header.cells)
        raise ValueError(f"--wave {','.join(map(str, wave))}: a wave goes at most {most} times into the box along x, y, z, "
                         f"and once at least along one of them")
    return wave


def heights(dump: Dump, name: str, chosen: Sequence[Wave], along: str = "x") -> list[NDArray[np.complex128]]:
    """The heights of some waves over the frames: along an axis, averaged over the other two, or in any direction."""
    for wave in chosen:
        tested(dump.header, wave, along)
    table = waves(dump, name, along) if any(isinstance(wave, int) for wave in chosen) else None
    found = [table[:, wave] if isinstance(wave, int) else mode(dump, name, wave) for wave in chosen]
    for wave, height in zip(chosen, found):
        if not np.any(height):
            raise ValueError(f"{name} has no wave {wave}: it is 0 in all {len(height)} frames")
    return found


def between(steps: NDArray, first: int | None, last: int | None) -> tuple[int, int] | None:
    """The frames of a window that was chosen, from the step `first` to `last`, as (first, after last); None where neither is."""
    if first is None and last is None:
        return None
    low, high = steps[0] if first is None else first, steps[-1] if last is None else last
    inside = np.nonzero((low <= steps) & (steps <= high))[0]
    if len(inside) < FEWEST:
        raise ValueError(f"--from {low} --to {high}: {len(inside)} frames; a fit needs {FEWEST}, and there are "
                         f"{len(steps)} from step {steps[0]} to {steps[-1]}")
    return int(inside[0]), int(inside[-1]) + 1


def window(steps: NDArray, height: NDArray) -> tuple[int, int]:
    """Where a height grows without yet slowing down: from 1/30 to 1/6 of the greatest, as frames (first, after last).

    What was as high before, or comes down again before it is at half of its greatest, is noise, or swings.
    """
    top = int(np.argmax(height))
    grown = np.nonzero(height[: top + 1] < height[top] / 30)[0]
    first = int(grown[-1]) + 1 if len(grown) else 0
    last = first + int(np.argmax(height[first : top + 1] > height[top] / 6))
    if last - first < FEWEST:
        raise ValueError(f"the wave doesn't grow, or too fast to be seen: {max(last - first, 0)} frames, {first} to {last} of "
                         f"{len(steps)}, from 1/30 to 1/6 of its greatest height; a fit needs {FEWEST}")
    here = f"{steps[first]} to {steps[last - 1]}"
    if height[:first].max(initial=0) > height[top] / 6:
        raise ValueError(f"the wave doesn't grow: before the steps {here} it was as high, as noise is")
    # When it has come to half of that once, the wave may turn what made it grow, and swing.
    risen = last + int(np.argmax(height[last : top + 1] > height[top] / 2))
    if height[last : risen + 1].min() < height[top] / 12:
        raise ValueError(f"the wave doesn't grow: after the steps {here} it comes down again, as what swings does")
    return first, last


def line(steps: NDArray, height: NDArray, first: int, last: int) -> Fit:
    """The straight line through the logarithms of heights, by least squares over the frames first..last (without last)."""
    time, logs = steps[first:last].astype(np.float64), np.log(height[first:last])
    rate, start = np.polyfit(time, logs, 1)
    scatter = np.sum((logs - rate * time - start)**2) / max(len(time) - 2, 1)
    error = sqrt(scatter / np.sum((time - time.mean())**2))
    return Fit(float(rate), float(start), int(steps[first]), int(steps[last - 1]), last - first, error)


def growth(steps: NDArray, height: NDArray, frames: tuple[int, int] | None = None) -> Fit:
    """The growth rate, a step, of heights at these steps, by least squares over the frames first..last (without last)."""
    fit = line(steps, height, *(frames or window(steps, height)))
    if not fit.rate > fit.error / LOOSEST:
        raise ValueError(f"the wave doesn't grow: from step {fit.first} to {fit.last} the line through {fit.points} points "
                         f"has the rate {fit.rate:.2g}, with an error of {fit.error:.2g}")
    return fit


def crossings(steps: NDArray, signal: NDArray) -> NDArray[np.float64]:
    """The steps at which a signal goes through 0, between frames by a straight line. One that is just 0 lies on such a line."""
    steps, signal = steps[signal != 0], signal[signal != 0]
    here, there = signal[:-1], signal[1:]
    at = np.nonzero(here * there < 0)[0]
    return steps[at] + (steps[at + 1] - steps[at]) * here[at] / (here[at] - there[at])


def frequency(steps: NDArray, signal: NDArray) -> float:
    """The frequency, in radians a step, of a standing wave: from the first and the last time that it goes through 0."""
    zeros = crossings(steps, signal)
    if len(zeros) < 3:
        raise ValueError(f"the wave goes through 0 {len(zeros)} times only")
    return float(np.pi * (len(zeros) - 1) / (zeros[-1] - zeros[0]))


def turned(angles: NDArray) -> float:
    """The whole angle turned through, from angles known up to whole turns and less than half a turn apart."""
    return float(np.sum((np.diff(angles) + np.pi) % (2 * np.pi) - np.pi))


def peak(steps: NDArray, signal: NDArray) -> float:
    """The frequency, in radians a step, at which a signal that swings about its mean has the most power, waves of both senses
    counted. The steps are evenly apart. The ends are faded out (Hann); between two frequencies of the spectrum it goes by a
    parabola."""
    swing = signal - np.mean(signal)
    if not np.any(swing):
        raise ValueError("the wave stays as it is")
    size = 16 * len(swing)
    power = np.abs(np.fft.fft(swing * np.hanning(len(swing) + 2)[1:-1], size))**2
    power = np.log((power + power[-np.arange(size)])[: size // 2])
    top = 1 + int(np.argmax(power[1:-1]))
    before, here, after = power[top - 1 : top + 2]
    return float(2 * np.pi / (size * (steps[1] - steps[0])) * (top + (before - after) / (2 * (before - 2 * here + after))))


def rough(steps: NDArray, signal: NDArray) -> float:
    """About the frequency of a swing that is strongest at the start: the highest place of its spectrum."""
    size = 16 * len(signal)
    power = np.abs(np.fft.fft(signal, size))**2
    power = (power + power[-np.arange(size)])[: size // 2]
    return float(2 * np.pi / (size * (steps[1] - steps[0])) * (1 + np.argmax(power[1:])))


def fading(steps: NDArray, signal: NDArray, frequency: float) -> tuple[int, int]:
    """Where a damped wave of about this frequency is itself, as frames (first, after last): from one swing after its greatest
    height, when what isn't the wave has gone, to a tenth of that, or to where it begins to rise again. The greatest height has
    to come within the first swing: a wave that is damped is there from the start."""
    height, swing = abs(signal), 2 * np.pi / (frequency * (steps[1] - steps[0]))
    # Of a wave that goes both ways the height swings too, twice as fast.
    span = max(int(np.ceil(swing / 2)), 1)
    envelope = np.lib.stride_tricks.sliding_window_view(np.append(height, np.zeros(span - 1)), span).max(axis=1)
    envelope = envelope[: max(len(height) - span + 1, 1)]
    top = int(np.argmax(height))
    lowest = np.minimum.accumulate(envelope[top:]) if top < len(envelope) else np.zeros(1)
    ends = (envelope[top:] < height[top] / 10) | (envelope[top:] > 1.25 * lowest)
    last = top + (int(np.argmin(envelope[top : top + int(np.argmax(ends)) + 1])) if ends.any() else len(lowest) - 1)
    first = top + int(np.ceil(swing))
    if top > swing or last - first < max(2 * FEWEST, swing) or envelope[last] > 0.5 * envelope[min(first, last)]:
        raise ValueError(f"the wave isn't damped, or too fast to be seen: its greatest height is in frame {top}, and one swing, "
                         f"of {swing:.1f} frames, later it falls until frame {last} of {len(steps)}; a fit needs one swing more, "
                         f"{2 * FEWEST} frames, and a fall to a half")
    return first, last


def swung(time: NDArray, rate: float, frequency: float, signal: NDArray) -> tuple[NDArray, NDArray]:
    """The two parts of a wave of this rate and frequency, there and back, that fit a signal best: their shapes over the time
    (times, 2), and their heights (2,)."""
    shapes = np.exp(rate * time)[:, None] * np.exp(-1j * frequency * time[:, None] * np.array([1, -1]))
    return shapes, np.linalg.lstsq(shapes, signal, rcond=None)[0]


def damping(steps: NDArray, signal: NDArray, frames: tuple[int, int] | None = None, guess: float | None = None) -> Swing:
    """The rate, below 0, and the frequency of a damped wave with these heights, which are complex, over the frames
    first..last (without last): by least squares, with a part that goes either way. `guess` is a frequency near its own."""
    frequency = guess or rough(steps, signal)
    first, last = frames or fading(steps, signal, frequency)
    if last - first < 2 * FEWEST:
        raise ValueError(f"{last - first} frames from step {steps[first]} to {steps[last - 1]}; damping needs {2 * FEWEST}")
    time, signal = (steps[first:last] - steps[first]).astype(np.float64), signal[first:last]
    rate = float(np.polyfit(time, np.log(np.maximum(abs(signal), 1e-300)), 1)[0])
    for _ in range(60):
        shapes, parts = swung(time, rate, frequency, signal)
        slopes = np.stack([time * (shapes @ parts), time * (shapes @ (parts * np.array([-1j, 1j])))], axis=1)
        columns = np.hstack([shapes, 1j * shapes, slopes])
        columns, left = (np.concatenate([part.real, part.imag]) for part in (columns, signal - shapes @ parts))
        change = np.linalg.lstsq(columns, left, rcond=None)[0][-2:]
        rate, frequency = rate + float(change[0]), frequency + float(change[1])
        if max(abs(change)) < 1e-12:
            break
    scatter = np.sum(left**2) / max(len(left) - 6, 1)
    error = sqrt(scatter * np.linalg.pinv(columns.T @ columns)[-2, -2])
    first, last = int(steps[first]), int(steps[last - 1])
    if not -rate > error / LOOSEST:
        raise ValueError(f"the wave isn't damped: from step {first} to {last} {len(time)} points have the rate {rate:.2g}, with "
                         f"an error of {error:.2g}")
    return Swing(rate, abs(frequency), *map(complex, parts), first, last, len(time), error)


def nyquist(header: Header) -> float:
    """The highest frequency, in radians a step, that frames `every` steps apart show: pi / every. Higher ones are folded."""
    return pi / header.every


def folded(frequency: NDArray | float, highest: float) -> NDArray | float:
    """Where a frequency is seen in frames whose highest is this one."""
    return abs((np.asarray(frequency) + highest) % (2 * highest) - highest)


def resolved(header: Header, frequency: float, what: str = "the wave") -> None:
    """An error where the frames are too far apart for a frequency that is expected."""
    if frequency > nyquist(header):
        raise ValueError(f"{what} has the frequency {frequency:.4g}, and frames every {header.every} steps show those up to pi / "
                         f"every = {nyquist(header):.4g}: it would be seen folded, at {folded(frequency, nyquist(header)):.4g}")


def ridge(frequencies: NDArray, power: NDArray, near: float, width: float) -> float:
    """The frequency near one that is expected, within `width`, at which a column of a spectrum has the most power; between
    two frequencies by a parabola through the logarithms. An error where the power rises on to an end of the band."""
    inside = np.nonzero(abs(frequencies - near) <= width)[0]
    inside = inside[(0 < inside) & (inside < len(frequencies) - 1)]
    if not len(inside) or not power[inside].any():
        raise ValueError(f"the spectrum has nothing within {width:.3g} of {near:.4g}")
    top = int(inside[np.argmax(power[inside])])
    before, here, after = np.log(np.maximum(power[top - 1 : top + 2], 1e-300))
    if max(before, after) > here:
        raise ValueError(f"the spectrum has no peak within {width:.3g} of {near:.4g}")
    return float(frequencies[top] + (frequencies[1] - frequencies[0]) * (before - after) / (2 * (before - 2 * here + after)))


def longitudinal(e: NDArray[np.float64]) -> NDArray[np.float64]:
    """The squares of the part of E, of shape (3, nz, ny, nx), along its wave numbers: shape (nz, ny, nx), as of a Fourier
    transform that keeps the sum of squares. It is that of the charges; what is left over is light and currents."""
    transform = np.fft.fftn(divergence(e)) / sqrt(e[0].size)
    square = np.sum((2 * np.sin(wave_numbers(e.shape[1:]) / 2))**2, axis=-1)
    square[0, 0, 0] = 1
    return np.abs(transform)**2 / square


def through(places: NDArray[np.float64], cells: Sequence[int]) -> NDArray[np.float64]:
    """Places in cells, of shape (times, .., axes), with each way through a side of the box of so many cells gone on outside of it."""
    box = np.array(cells)
    return places - box * np.cumsum(np.rint(np.diff(places, axis=0, prepend=places[:1]) / box), axis=0)


def wave_numbers(shape: tuple[int, ...]) -> NDArray[np.float64]:
    """The wave numbers (kx, ky, kz), in radians a cell, of a field's transform of this shape (nz, ny, nx): one axis more."""
    return np.stack(np.meshgrid(*(2 * np.pi * np.fft.fftfreq(n) for n in shape), indexing="ij")[::-1], axis=-1)


def spectrum(dump: Dump, name: str, along: str = "x") -> tuple[NDArray, NDArray, NDArray]:
    """Wave numbers 0..pi along an axis, frequencies 0..pi/every, and the power of a component there, averaged over the other
    two axes: shape (frequencies, numbers).

    Frames that aren't a whole `every` apart are left out. The ends of the run are faded out (Hann), so that a wave stays
    within some frequencies of its own.
    """
    regular = dump.steps % dump.header.every == 0
    return spectrum_of(profile(dump, name, along)[regular], dump.header.every)


def spectrum_of(field: NDArray[np.float64], every: int) -> tuple[NDArray, NDArray, NDArray]:
    """The same of values at all cells of an axis, every so many steps: shape (times, cells)."""
    if len(field) < 3:
        raise ValueError(f"{len(field)} frames, every {every} steps, have no spectrum; 3 have")
    faded = field * np.hanning(len(field) + 2)[1:-1, None]
    half, numbers = len(field) // 2, field.shape[1] // 2 + 1
    power = np.abs(np.fft.fft(np.fft.rfft(faded, axis=1), axis=0))**2
    # A wave along + is at minus its frequency: both senses count.
    power = power[: half + 1] + power[-np.arange(half + 1)]
    return (2 * np.pi / field.shape[1] * np.arange(numbers),
            2 * np.pi / (len(field) * every) * np.arange(half + 1), power)
