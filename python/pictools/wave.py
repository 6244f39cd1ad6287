"""The wave that a plasma starts with: how it shifts places and adds to velocities, and the fields of a filament."""

from __future__ import annotations

from functools import cached_property
from math import prod, sin
from typing import TYPE_CHECKING

import numpy as np
from numpy.typing import NDArray

from pictools import theory
from pictools.deck import DeckError
from pictools.limits import AXES

if TYPE_CHECKING:
    from pictools.plasma import Beam, Plasma


class Wave:
    """The wave along x of a plasma whose wave goes along x. Its wave number is in radians a cell."""

    def __init__(self, plasma: Plasma):
        self.plasma, self.number, self.crosses = plasma, plasma.wave_number, plasma.crosses

    @cached_property
    def frequency(self) -> complex:
        """By the theory of the scheme, in radians a step; it grows by the imaginary part."""
        p, k, wp = self.plasma, self.number, self.plasma.frequency_of(self.number)
        if self.crosses:
            return 1j * theory.filamentation(k, wp, p.drift, p.light_speed)
        if p.gyration and p.gyration_axis != "x":
            return complex(theory.upper_hybrid(k, wp, p.gyration, p.light_speed))
        try:
            return self.electrostatic() if p.drift else theory.langmuir(k, wp, p.thermal_along)
        except ArithmeticError:
            raise DeckError(f"--wave {p.wave}: it is too short: it is damped at once") from None

    def electrostatic(self) -> complex:
        """The wave of the streams along x that grows the most, or the slowest that doesn't. The first guess is the textbook's for
        cold streams, 1 = wp^2 times the sum of share / (w - k drift)^2."""
        p, k, wp = self.plasma, self.number, self.plasma.frequency_of(self.number)
        beams, total = p.beams, sum(beam.number for beam in p.beams)
        if len(beams) == 2 and beams[0].number == beams[1].number:
            return theory.two_stream(k, wp, p.drift, p.thermal_along)
        factors = [np.poly1d([k * beam.drift] * 2, True) for beam in beams]
        sums = sum(beam.number / total * prod(f for other, f in zip(beams, factors) if other is not beam) for beam in beams)
        guess = max((prod(factors) - wp**2 * sums).roots, key=lambda w: (round(w.imag, 9), -abs(w.real)))
        streams = [theory.Stream(beam.number / total, beam.drift, p.thermal_along) for beam in beams]
        return theory.root(lambda w: theory.electrostatic(w, k, wp, streams), complex(guess))

    @property
    def hat(self) -> float:
        """How much of the wave a particle feels, with its shape of a hat."""
        return (sin(self.number / 2) / (self.number / 2))**2

    def shift(self, sense: int, speed: NDArray[np.float64] | float) -> tuple[NDArray, NDArray]:
        """How far the wave shifts particles of these speeds along x, and its frequency as they see it.

        A place x, in cells, moves by the real part of shift exp(i (k x - w t)), by at most about `wave_speed` a step. Streams
        that cross x move in opposite senses.
        """
        drifts = [0.0] if self.crosses else [beam.drift for beam in self.plasma.beams]
        seen = self.frequency - self.number * speed
        least = min(abs(2 * np.sin((self.frequency - self.number * drift) / 2)) for drift in drifts)
        return -self.plasma.wave_speed * least / (2 * np.sin(seen / 2))**2 * (sense if self.crosses else 1), seen

    def filament(self) -> complex:
        """The electric field of the filament, along the drift, as an acceleration in cells a step squared."""
        w, k = self.frequency, self.number
        return -self.shift(1, 0)[0] * (2 * np.sin(w / 2))**3 / (self.plasma.drift * 2 * sin(k / 2) * np.cos(w / 2) * self.hat)

    def perturbation(self, beam: Beam, x: NDArray[np.float64], speed: NDArray[np.float64]) -> tuple[NDArray, NDArray]:
        """What the wave adds to the places x, in cells, and to the velocities of the half step before, of particles of a
        beam with these speeds along x: shapes (particles,) and (particles, 3).

        A shift u exp(-i w t) is one by u (1 - exp(i w)) in the step before. B makes of a speed along x one across it, and a
        filament's E speeds up along the drift. Only in a wave that grows each particle goes by its own speed: others have
        particles that go along with them, and would be shifted without a bound.
        """
        p, velocity = self.plasma, np.zeros((len(x), 3))
        if not p.wave:
            return np.zeros_like(x), velocity
        stream = 0 if self.crosses else beam.drift
        shift, seen = self.shift(beam.sense, speed if self.frequency.imag > 0 and not self.crosses else stream)
        wave = np.exp(1j * self.number * x)
        swing = shift * (1 - np.exp(1j * seen)) * wave
        velocity[:, 0] = swing.real
        if p.gyration_axis != "x":
            plus, minus = (1 / np.sin((seen + g) / 2) for g in (p.gyration, -p.gyration))
            across, sense = (1, 1) if p.gyration_axis == "z" else (2, -1)
            velocity[:, across] = sense * (swing * (plus - minus) / (1j * (plus + minus))).real
        if self.crosses:
            along = 1j * self.hat * self.filament() * np.exp(1j * seen / 2) / (2 * np.sin(seen / 2))
            velocity[:, AXES.index(p.drift_axis)] += (along * wave).real
        return (shift * wave).real, velocity

    def filament_fields(self) -> tuple[NDArray[np.int64], NDArray[np.int64]]:
        """The E and B of a filament, of shapes (3, nz, ny, nx); its B is that of half a step before and half a cell further
        on."""
        p, w, k = self.plasma, self.frequency, self.number
        e, b = np.zeros((2, 3, *reversed(p.cells)), np.int64)
        electric = self.filament() * p.fast / (2 * p.kick.value * p.e_force.value)
        magnetic = electric * 2 * sin(k / 2) / (2 * np.sin(w / 2)) * np.exp(1j * (w + k) / 2)
        axis, x = AXES.index(p.drift_axis), np.arange(p.cells[0])
        e[axis] = np.rint((electric * np.exp(1j * k * x)).real).astype(np.int64)
        b[3 - axis] = (1 if axis == 1 else -1) * np.rint((magnetic * np.exp(1j * k * x)).real).astype(np.int64)
        return e, b
