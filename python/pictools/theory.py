"""What the scheme's own linear theory says of waves and instabilities: with its grid, its shapes and its steps.

Wave numbers k are in radians a cell and along x, frequencies and growth rates in radians a step, speeds in cells a step. A
wave is exp(i (k x - w t)), so it grows where the imaginary part of w is above 0. `wp` is the plasma frequency of
the electrons, which all have one charge to mass ratio; the ions stand still.

The method is that of C. K. Birdsall and A. B. Langdon, Plasma Physics via Computer Simulation, chapters 8 and 9. The charge
of a particle is shared by hats, E and B are gathered by hats on Yee's lattice, a particle feels a wave of k also as its
aliases k + 2 pi p, and leapfrog makes 2 sin(x/2) of a frequency x. As k and the frequencies go to 0, each relation goes to
the one of the textbooks.
"""

from __future__ import annotations

from collections.abc import Callable, Sequence
from math import asin, asinh, cos, pi, sin, sinh, sqrt, tan
from typing import NamedTuple

import numpy as np
from numpy.typing import NDArray


class Stream(NamedTuple):
    """A part of the electrons: its share of them, its drift along x, and its thermal speed (the standard deviation)."""

    share: float
    drift: float
    thermal: float


def root(function: Callable[[complex], complex], guess: complex) -> complex:
    """A zero of an analytic function near a guess, by the secant method."""
    before, here = guess * (1 + 1e-4) + 1e-9, guess
    with np.errstate(all="ignore"):
        old, now = function(before), function(here)
        for _ in range(100):
            if abs(here - before) < 1e-11 * abs(here) + 1e-15 and abs(now) < 1e-6:
                return here
            before, old, here = here, now, here - now * (here - before) / (now - old)
            now = function(here)
    raise ArithmeticError(f"no zero found near {guess:.5f}")


def filtered(wp: float, k: float) -> float:
    """The plasma frequency that a wave along an axis has where the current goes through the binomial filter.

    In each relation here wp^2 stands for the E that particles make, of which the filter leaves (1 + cos k) / 2 (Birdsall and
    Langdon, appendix C); so it is that of a run with a filter with this frequency in its place.
    """
    return wp * cos(k / 2)


def light(k: float, c: float, wp: float = 0) -> float:
    """The frequency of light along an axis, in a cold plasma or (wp = 0) in vacuum.

    sin(w/2)^2 = c^2 sin(k/2)^2 + wp^2 (1 + 2 cos(k/2)^2) / 12; the textbook's is w^2 = c^2 k^2 + wp^2.
    """
    return 2 * asin(sqrt(c**2 * sin(k / 2)**2 + wp**2 * (1 + 2 * cos(k / 2)**2) / 12))


def light_number(w: float, c: float, wp: float = 0, filter: int = 0) -> complex:
    """The wave number of light of this frequency along an axis, the relation of `light` the other way round. Below the frequencies
    of light in the plasma it is imaginary, and the light falls by e in 1 / (imaginary part) cells.

    With u = sin(k/2)^2 the relation is sin(w/2)^2 = c^2 u + wp^2 (3 - 2 u) / 12, and with a filter (1 - u) times the second part.
    """
    square = wp**2 / 12
    factors = [2 * square, c**2 - 5 * square, 3 * square] if filter else [0, c**2 - 2 * square, 3 * square]
    factors[2] -= sin(w / 2)**2
    u = min(np.roots(np.trim_zeros(factors, "f")).real, key=abs)
    return 2 * complex(np.arcsin(np.sqrt(complex(u))))


def slowest_light(c: float) -> float:
    """How fast the shortest light along an axis goes in vacuum, two cells long, in cells a step: 2 asin(c) / pi, less than c.
    A particle that is faster than light of some wave makes it, as a boat does waves (numerical Cherenkov radiation: B. B.
    Godfrey, J. Comput. Phys. 15 (1974) 504)."""
    return 2 * asin(min(c, 1)) / pi


def cold_langmuir(k: float, wp: float) -> float:
    """The frequency of a Langmuir wave in a cold plasma with many particles a cell.

    sin(w/2)^2 = wp^2 (1 + cos(k/2)^2) / 8; the textbook's is w = wp.
    """
    return 2 * asin(wp / 2 * sqrt((1 + cos(k / 2)**2) / 2))


def lag_sum(w: complex, k: float, stream: Stream) -> complex:
    """The mean of 1 / (4 sin((w - k v) / 2)^2) over the speeds v of a stream, continued to damped waves as Landau's.

    It is minus the sum, over the steps m since a kick, of m exp(i m (w - k v)), whose mean over a Maxwellian is known.
    """
    if stream.thermal * abs(k) < 1e-9:
        return 1 / (4 * np.sin((w - k * stream.drift) / 2)**2)
    m = np.arange(1, int(9 / (stream.thermal * abs(k))) + 2)
    return -np.sum(m * np.exp(1j * m * (w - k * stream.drift) - (m * k * stream.thermal)**2 / 2))


def aliases(k: float, most: int = 12) -> list[tuple[float, float]]:
    """The aliases k_p = k + 2 pi p of a wave, and how much of what each does to the particles comes back as E along k:
    (-1)^p k_p S(k_p)^2 / (2 sin(k/2)), with the hat's S(k) = (sin(k/2) / (k/2))^2. All add up to (1 + cos(k/2)^2) / 2."""
    found = []
    for p in range(-most, most + 1):
        kp = k + 2 * pi * p
        found.append((kp, (-1.0)**p * kp * (sin(kp / 2) / (kp / 2))**4 / (2 * sin(k / 2))))
    return found


def electrostatic(w: complex, k: float, wp: float, streams: Sequence[Stream]) -> complex:
    """The dielectric function of waves with E along x; it is 0 for a wave that can be.

    1 - wp^2 sum over the aliases k_p, weighed as `aliases` has it, of <1 / (4 sin((w - k_p v) / 2)^2)>. The textbook's is
    1 - wp^2 <1 / (w - k v)^2>.
    """
    return 1 - wp**2 * sum(weight * s.share * lag_sum(w, kp, s) for kp, weight in aliases(k) for s in streams)


def langmuir(k: float, wp: float, thermal: float) -> complex:
    """A Langmuir wave in a warm plasma: its frequency, and (the imaginary part) how fast it grows; Landau damping is
    below 0. The textbook's is w^2 = wp^2 + 3 k^2 thermal^2 for long waves."""
    guess = sqrt(wp**2 + 3 * (k * thermal)**2)
    return root(lambda w: electrostatic(w, k, wp, [Stream(1, 0, thermal)]), guess)


def two_stream(k: float, wp: float, drift: float, thermal: float = 0) -> complex:
    """The slowest wave of two equal streams that go +drift and -drift along x: it grows, by the imaginary part, where that
    is above 0. The textbook's, for cold streams, is 1 = wp^2/2 (1 / (w - k drift)^2 + 1 / (w + k drift)^2)."""
    d, h = (k * drift)**2, wp**2 / 2
    guess = complex(d + h - sqrt(h**2 + 4 * d * h))**0.5
    streams = [Stream(0.5, drift, thermal), Stream(0.5, -drift, thermal)]
    return root(lambda w: electrostatic(w, k, wp, streams), guess)


def thermal_noise(k: NDArray[np.float64], wp: float, thermal: float, filter: int = 0) -> NDArray[np.float64]:
    """The energy of waves of E along their k in thermal noise, in units of half the temperature.

    `k`, of shape (.., 3), may have any direction. All particles count in `wp`, and have one `thermal` speed. It is
    shot / (1 + screen), see `thermal_shares`; the textbook's is 1 / (1 + k^2 D^2), D = thermal / wp.
    """
    shot, screen = thermal_shares(k, wp, thermal, filter)
    return shot / (1 + screen)


def left_by_filter(k: NDArray[np.float64]) -> NDArray[np.float64]:
    """The share of a wave's current and charge that the binomial filter leaves, k of shape (.., 3)."""
    return np.prod((1 + np.cos(k)) / 2, axis=-1)


def thermal_shares(k: NDArray[np.float64], wp: float, thermal: float,
                   filter: int = 0) -> tuple[NDArray[np.float64], NDArray[np.float64]]:
    """The noise of particles that stand anywhere, without an order, and how far they screen it: `shot` and `screen`.

    With s_a = 2 sin(k_a/2) and sums over all aliases k_p of k, screen = (wp / thermal)^2 / s^2 times the sum of
    S(k_p)^2 (sum over a of (-1)^p_a k_pa s_a) / k_p^2, which is the dielectric function less 1 at frequency 0, and
    shot = (wp / thermal)^2 / s^2 times the sum of S(k_p)^2, which is the product of (2 + cos k_a) / 3. For long waves both
    are 1 / (k D)^2. It is taken for granted that a step is short against a particle's way through a wave. A filter that leaves the
    share f of the charge makes `screen` f times as large, and `shot`, which is E's square, f^2 times.
    """
    k = np.asarray(k, np.float64)
    s = 2 * np.sin(k / 2)
    screen = np.zeros(k.shape[:-1])
    for p in np.stack(np.meshgrid(*3 * [np.arange(-2, 3)]), axis=-1).reshape(-1, 3):
        kp = k + 2 * pi * p
        hats = np.prod(np.sinc(kp / (2 * pi))**4, axis=-1)
        screen += hats * np.sum((-1.0)**p * kp * s, axis=-1) / np.sum(kp**2, axis=-1)
    scale = (wp / thermal)**2 / np.sum(s**2, axis=-1) * (left_by_filter(k) if filter else 1)
    shot = np.prod((2 + np.cos(k)) / 3, axis=-1) * (left_by_filter(k) if filter else 1)
    return scale * shot, scale * screen


def filamentation(k: float, wp: float, drift: float, c: float) -> float:
    """The growth rate of filaments across two equal cold streams that go +drift and -drift along y, k along x.

    With g = 2 sinh(rate/2) and s = 2 sin(k/2): g^2 (g^2 + c^2 s^2 + wp^2 (1 + 2 cos(k/2)^2) / 3) =
    wp^2 drift^2 s^2 (1 + g^2/4) (1 + cos(k/2)^2) / 2; the textbook's is g^2 (g^2 + c^2 k^2 + wp^2) = wp^2 drift^2 k^2.
    """
    s, square = 2 * sin(k / 2), cos(k / 2)**2
    drive = (wp * drift * s)**2 * (1 + square) / 2
    half = (c**2 * s**2 + wp**2 * (1 + 2 * square) / 3 - drive / 4) / 2
    return 2 * asinh(sqrt(sqrt(half**2 + drive) - half) / 2)


def weibel(k: float, wp: float, across: float, along: float, c: float) -> float:
    """The growth rate of Weibel's waves of electrons with the thermal speed `across` k and `along` it; 0 where none grows.

    That of `filamentation` with across^2 in the place of drift^2, and with the mean of 1 / (4 sin((w - k v) / 2)^2) over the
    speeds along k (`lag_sum`, for each alias) in that of -1 / g^2. The textbook's is w^2 = c^2 k^2 + wp^2 (1 - (across /
    along)^2 (1 + z Z(z))), z = w / (sqrt(2) k along), Z the plasma dispersion function; waves of c^2 k^2 < wp^2
    ((across / along)^2 - 1) grow. That the spread along k bends the way that E and B share their work is left out: it is
    of the size (k along)^2.
    """
    s, square = 2 * sin(k / 2), cos(k / 2)**2

    def excess(rate: float) -> float:
        """It is below 0 for rates that are too low, and 0 at the wave's."""
        g = 2 * sinh(rate / 2)
        mean = sum(weight * lag_sum(1j * rate, kp, Stream(1, 0, along)).real for kp, weight in aliases(k))
        return g**2 + (c * s)**2 + wp**2 * (1 + 2 * square) / 3 + (wp * across * s)**2 * (1 + g**2 / 4) * mean

    return bisected(excess, 1e-7, 2 * wp) if excess(1e-7) < 0 else 0.0


def bisected(function: Callable[[float], float], low: float, high: float) -> float:
    """The zero of a function that is below 0 at `low` and above at `high`."""
    for _ in range(60):
        middle = (low + high) / 2
        low, high = (middle, high) if function(middle) < 0 else (low, middle)
    return (low + high) / 2


def bernstein(k: float, wp: float, gyration: float, thermal: float, branch: int) -> float:
    """The frequency of the electrostatic wave of warm electrons across a uniform B that lies between `branch` and
    `branch` + 1 times the gyration: Bernstein's, of which one goes over into the upper hybrid wave for long waves.

    1 + wp^2 sum over aliases k_p, weighed as in `electrostatic`, of 1 / (2 x tan(g/2)) sum over n > 0 of n exp(-x) I_n(x)
    (cot((w + n g) / 2) - cot((w - n g) / 2)) / 2, x = (k_p thermal)^2 / (4 sin(g/2)^2). The textbook's is 1 = (wp / k
    thermal)^2 sum over n of exp(-x) I_n(x) n g / (w - n g), x = (k thermal / g)^2. It is that of waves short enough that
    light, c k, is well above them.
    """
    angles = 2 * pi / 4096 * np.arange(4096)
    n, terms = np.arange(1, 1024), []
    for kp, weight in aliases(k, 3):
        x = (kp * thermal / (2 * sin(gyration / 2)))**2
        shares = np.fft.fft(np.exp(-x * (1 - np.cos(angles)))).real[1:1024] / 4096
        terms.append(weight * n * shares / (4 * x * tan(gyration / 2)))
    heights = sum(terms)

    def dielectric(w: float) -> float:
        """It rises from minus to plus infinity between two multiples of the gyration."""
        return 1 + wp**2 * np.sum(heights * (1 / np.tan((w + n * gyration) / 2) - 1 / np.tan((w - n * gyration) / 2)))

    return bisected(dielectric, branch * gyration * (1 + 1e-9), (branch + 1) * gyration * (1 - 1e-9))


def upper_hybrid(k: float, wp: float, gyration: float, c: float, fast: bool = False) -> float:
    """The frequency of the slow extraordinary wave, along x and across a uniform B: the upper hybrid one for short waves; or
    of the fast one, which is light for short waves.

    `gyration` is the angle that B turns a particle by in a step. The electrons are cold. The textbook's is the lesser root
    of c^2 k^2 / w^2 = 1 - wp^2 / w^2 (w^2 - wp^2) / (w^2 - u^2), u^2 = wp^2 + gyration^2; u where c k is well above it.
    """
    s, a, half = 2 * sin(k / 2), cos(k / 2), gyration / 2

    def determinant(w: complex) -> complex:
        """Of the two equations of Ex and Ey. A step's rotation couples the velocities along x and y."""
        lead = 1j * np.cos(half)
        plus, minus = lead / (2 * np.sin((w + gyration) / 2)), lead / (2 * np.sin((w - gyration) / 2))
        along, across = (plus + minus) / 2, (plus - minus) / 2j
        step = 2 * np.sin(w / 2)
        xx = 1 + 1j * wp**2 / step * (1 + a**2) / 2 * along
        xy = 1j * wp**2 / step * a * across
        yx = -wp**2 * a * (5 + a**2) / 6 * -across
        yy = 1j * (step - (c * s)**2 / step) - wp**2 * (1 + 2 * a**2) / 3 * along
        return xx * yy - xy * yx

    p, light_square = wp**2 * (1 + a**2) / 2, (c * s)**2
    half_sum = (2 * p + gyration**2 + light_square) / 2
    apart = sqrt(half_sum**2 - p**2 - light_square * (p + gyration**2))
    return root(determinant, sqrt(half_sum + (apart if fast else -apart))).real
