"""Measures what a dump of one of the example decks is about, and prints what theory says beside it.

    python3 examples/measure.py [--any] DECK DUMP

DECK is light_wave, gyration, e_cross_b, plasma_oscillation, cold_oscillation, thermal_plasma, langmuir or two_stream, after
docs/EXAMPLES.md, or langmuir, two_stream, filamentation or upper_hybrid, after docs/GALLERY.md. A dump is refused that has other cells, scales,
species or numbers of particles than that deck; with --any the dump of another deck of the kind is measured too, and refused
only by what it lacks. All numbers of the theory are taken from the dump. It needs numpy.
"""

import sys
from math import asin, hypot, pi, sin, sqrt
from pathlib import Path

import numpy as np

HOME = Path(__file__).parents[1]
sys.path.insert(0, str(HOME / "python"))

from pictools import files, measure, theory, units
from pictools.dump import Dump, Header, Species
from pictools.outline import SCALES, outline
from pictools.plasma import Plasma

CLEAR = 3                   # a wave is above the noise where it is so many times as high as the next

# What docs/GALLERY.md asks of `python3 -m pictools deck`, as far as a header shows it.
GALLERY = {
    "langmuir": {"plasma_frequency": 0.1, "thermal_speed": 0.05},
    "two_stream": {"plasma_frequency": 0.1, "drift": 0.3, "thermal_speed": 0.05},
    "filamentation": {"plasma_frequency": 0.1, "drift": 0.3, "drift_axis": "y"},
    "upper_hybrid": {"plasma_frequency": 0.1, "gyration": 0.1, "thermal_speed": 0.005},
}


def numbers(rows: list[tuple]) -> dict[str, tuple]:
    """Species by their names: charge, mass, kick, turn and the number of particles."""
    return {name: (charge, mass, tuple(kick), tuple(turn), count) for name, charge, mass, kick, turn, count in rows}


def of_header(header: Header) -> dict:
    """What a header says that a deck says too."""
    return {"cells": header.cells, **{name: tuple(getattr(header, name)) for name in SCALES},
            "species": numbers([(s.name, s.charge, s.mass, s.kick, s.turn, s.count) for s in header.species])}


def of_example(path: Path) -> dict:
    """The same of a deck of the folder decks."""
    return of_header(outline(path.read_text(encoding="utf-8")).header)


def of_gallery(chosen: dict) -> dict:
    """The same of a deck of the gallery."""
    deck = Plasma(**chosen).deck()
    return {"cells": deck.cells, **{name: tuple(getattr(deck, name)) for name in SCALES},
            "species": numbers([(s.name, s.charge, s.mass, s.kick, s.turn, s.count) for s in deck.species])}


def differences(here: dict, there: dict) -> str:
    """What differs first."""
    for name in ("cells", *SCALES):
        if here[name] != there[name]:
            return f"{name} {list(here[name])} in place of {list(there[name])}"
    for name, row in there["species"].items():
        if here["species"].get(name) != row:
            found = here["species"].get(name)
            return f"species {name} " + ("missing" if found is None else f"of {list(found)} in place of {list(row)}")
    further = [name for name in here["species"] if name not in there["species"]]
    return f"a further species {further[0]}" if further else ""


def test_deck(name: str, dump: Dump) -> None:
    """The dump has to be one of the deck of this name, of the folder decks or of the gallery."""
    here, path, found = of_header(dump.header), HOME / "decks" / f"{name}.toml", []
    if path.exists():
        found.append(("decks/" + path.name, differences(here, of_example(path))))
    if name in GALLERY:
        found.append(("the gallery's deck", differences(here, of_gallery(GALLERY[name]))))
    if all(what for _, what in found):
        reasons = "; ".join(f"it isn't of {deck}: {what}" for deck, what in found)
        raise ValueError(reasons + " (--any measures another deck of the kind)")


def show(what: str, measured: float, expected: float) -> None:
    print(f"{what:28} measured {measured:12.9f}   theory {expected:12.9f}   off by {measured / expected - 1:+.1e}")


def tracks(dump: Dump) -> np.ndarray:
    """The positions of all particles in cells, through the box's sides: shape (frames, particles, 3)."""
    return measure.through(dump.records["particles"]["position"] / dump.header.side, dump.header.cells)


def waves(dump: Dump, name: str) -> np.ndarray:
    """The waves along x of a component, which has to have some at the start: shape (frames, nx)."""
    heights = measure.waves(dump, name)
    if not abs(heights[0, 1:]).max() > 0:
        raise ValueError(f"{name} has no wave along x at the start")
    return heights


def particles(dump: Dump) -> list[tuple[int, Species]]:
    """The numbers of all particles that feel B, each with its species."""
    found = [(number, s) for s in dump.header.species if s.turn.n for number in range(s.first, s.first + s.count)]
    if not found:
        raise ValueError("no particle has a turn")
    return found


def uniform(dump: Dump, with_e: bool) -> tuple[float, float]:
    """The uniform E along y and B along z at the start; E has to be there, or not to be, and B has to."""
    e, b = dump[0].e[1].mean(), dump[0].b[2].mean()
    if not b or bool(e) != with_e:
        raise ValueError(f"the mean E along y is {e:g} and the mean B along z {b:g}")
    return e, b


def plasma(dump: Dump, k: float = 0) -> tuple[float, Species]:
    """The plasma frequency, of waves of k where there is a filter, and the first species of electrons."""
    kinds = units.electrons(dump.header)
    if not kinds or not units.plasma_frequency(dump.header):
        raise ValueError("no species has a charge below 0 and a kick that fits it")
    return units.plasma_frequency(dump.header, k), kinds[0]


def frequency(dump: Dump, heights: np.ndarray, expected: float) -> float:
    """The frequency by which the phase of a wave, of shape (frames,), turns. From one frame to the next it turns by less than
    half a turn, or it can't be known."""
    apart = int(np.diff(dump.steps).max(initial=0))
    if not 0 < expected * apart < pi:
        raise ValueError(f"its frames are {apart} steps apart, and the frequency {expected:.4g} wants 1 to {int(pi / expected)}")
    return -measure.turned(np.angle(heights)) / (dump.steps[-1] - dump.steps[0])


def at_rest(dump: Dump, k: float = 0) -> tuple[float, Species]:
    """The same of electrons of one species that don't drift."""
    wp, kind = plasma(dump, k)
    mean = dump[0].species(kind.name)["velocity"].mean(axis=0) / dump.header.fast
    if len(units.electrons(dump.header)) > 1 or hypot(*mean) > 0.001 + units.thermal_speed(dump[0]):
        raise ValueError(f"its electrons are of {len(units.electrons(dump.header))} species and drift by {hypot(*mean):.3g} "
                         "cells a step")
    return wp, kind


def light_wave(dump: Dump) -> None:
    heights = waves(dump, "ey")
    for m in range(1, dump.header.cells[0] // 2):
        if abs(heights[0, m]) > abs(heights[0]).max() / 10:
            length = dump.header.cells[0] / m
            expected = theory.light(2 * pi / length, units.light_speed(dump.header))
            show(f"length {length:.3f}: frequency", frequency(dump, heights[:, m], expected), expected)


def gyration(dump: Dump) -> None:
    velocity, places = dump.records["particles"]["velocity"], tracks(dump)[:-1]
    _, b = uniform(dump, False)
    for number, species in particles(dump):
        expected = units.gyration(dump.header, species, b)      # with the clock for B along z
        turning = velocity[:, number, 0] + 1j * velocity[:, number, 1]
        angle = frequency(dump, turning, expected) if expected > 0 else -frequency(dump, turning.conj(), -expected)
        way = places[:, number, :2] - places[:, number, :2].mean(axis=0)
        speed = hypot(*velocity[0, number, :2]) / dump.header.fast
        show(f"particle {number}: period", 2 * pi / angle, 2 * pi / expected)
        show(f"particle {number}: radius", np.hypot(*way.T).mean(), speed / (2 * sin(abs(expected) / 2)))


def e_cross_b(dump: Dump) -> None:
    (e, b), places = uniform(dump, True), tracks(dump)
    for number, species in particles(dump):
        drift = (places[-1, number] - places[0, number]) / (dump.steps[-1] - dump.steps[0])
        turn = b * dump.header.b_force.value * species.turn.value / 2**20
        show(f"particle {number}: drift along x", drift[0],
             e * dump.header.e_force.value * species.kick.value / turn / dump.header.fast)
        print(f"{'':28} along y  {drift[1]:12.9f}")


def plasma_oscillation(dump: Dump) -> None:
    wave = -measure.waves(dump, "ex")[:, 1] * np.exp(-1j * pi / dump.header.cells[0])
    wp, _ = at_rest(dump, wave_number(dump, 1))
    if 2 * asin(wp / 2) * np.diff(dump.steps).max() > pi:
        raise ValueError(f"its frames are {np.diff(dump.steps).max()} steps apart, more than half a swing")
    show("frequency", measure.frequency(dump.steps, wave.imag), 2 * asin(wp / 2))
    print(f"{'':28} over {len(measure.crossings(dump.steps, wave.imag)) - 1} half swings; "
          f"the plasma frequency itself is {wp:.9f}")


def cold_oscillation(dump: Dump) -> None:
    """The mean of E along the axis on which it is the greatest at the start."""
    means = np.array([frame.e.mean(axis=(1, 2, 3)) for frame in dump])
    axis, (wp, _) = int(np.argmax(abs(means[0]))), at_rest(dump)
    if not means[0, axis]:
        raise ValueError("the mean of E is 0 at the start")
    if 2 * asin(wp / 2) * np.diff(dump.steps).max() > pi:
        raise ValueError(f"its frames are {np.diff(dump.steps).max()} steps apart, more than half a swing")
    show("frequency", measure.frequency(dump.steps, means[:, axis]), 2 * asin(wp / 2))
    print(f"{'':28} over {len(measure.crossings(dump.steps, means[:, axis])) - 1} half swings; B is "
          + ("0 in all frames" if not any(frame.b.any() for frame in dump) else "not 0"))


def wave_number(dump: Dump, wave: int) -> float:
    """The k of the wave that goes so often into the box along x."""
    return 2 * pi * wave / dump.header.cells[0]


def strongest(dump: Dump, name: str) -> tuple[int, float, np.ndarray]:
    """The wave of a component that is the greatest at the start: how often it goes into the box, its k, and its heights. It has
    to stand above all others."""
    heights = waves(dump, name)
    first = abs(heights[0, 1 : dump.header.cells[0] // 2])
    wave = 1 + int(np.argmax(first))
    second = np.delete(first, wave - 1).max()
    if first[wave - 1] < CLEAR * second:
        raise ValueError(f"at the start no wave of {name} stands above the noise: wave {wave} is {first[wave - 1] / second:.2g} "
                         f"times as high as the next, and {CLEAR} times is clear")
    return wave, wave_number(dump, wave), heights[:, wave]


def langmuir(dump: Dump) -> None:
    """The wave at the start, and its damping where theory has it fall to a half; where E is 0 there, the waves of the noise
    that hardly damp."""
    wp, thermal = at_rest(dump)[0], units.thermal_speed(dump[0])
    if dump[0].e.any():
        wave, k, heights = strongest(dump, "ex")
        expected, duration = theory.langmuir(k, at_rest(dump, k)[0], thermal), dump.steps[-1] - dump.steps[0]
        turns = frequency(dump, heights, expected.real)
        if -expected.imag * duration < 0.7:
            show(f"wave {wave}: frequency", turns, expected.real)
            return
        fit = measure.damping(dump.steps, heights, guess=expected.real)
        show(f"wave {wave}: frequency", fit.frequency, expected.real)
        show(f"wave {wave}: damping", -fit.rate, -expected.imag)
        print(f"{'':28} both from step {fit.first} to {fit.last}")
        return
    heights = measure.waves(dump, "ex")
    # Shorter ones are damped in some periods.
    numbers = [wave for wave in range(1, dump.header.cells[0] // 2) if wave_number(dump, wave) * thermal < 0.3 * wp]
    if not numbers or not thermal:
        raise ValueError("no wave along x is longer than 21 Debye lengths, or the electrons are cold")
    for wave in numbers:
        k = wave_number(dump, wave)
        expected = theory.langmuir(k, at_rest(dump, k)[0], thermal)
        show(f"wave {wave}: frequency", measure.peak(dump.steps, heights[:, wave]), expected.real)
        print(f"{'':28} Bohm and Gross: {sqrt(wp**2 + 3 * (k * thermal)**2):.9f}, without grid and steps; "
              f"damped by {-expected.imag:.1e} a step")


def upper_hybrid(dump: Dump) -> None:
    wave, k, heights = strongest(dump, "ex")
    wp, electrons = at_rest(dump, k)
    angle = abs(units.gyration(dump.header, electrons, dump[0].b[2].mean()))
    if not angle:
        raise ValueError("the mean B along z is 0")
    expected = theory.upper_hybrid(k, wp, angle, units.light_speed(dump.header))
    show(f"wave {wave}: frequency", frequency(dump, heights, expected), expected)
    print(f"{'':28} without grid and steps, for c k far above it: {hypot(wp, angle):.9f}")


def drift(dump: Dump, axes: list[int]) -> float:
    """The mean speed of the first electrons along these axes, in cells a step, which has to be a drift."""
    mean = dump[0].species(plasma(dump)[1].name)["velocity"].mean(axis=0)[axes] / dump.header.fast
    if hypot(*mean) < 0.001:
        raise ValueError(f"the electrons drift by {hypot(*mean):g} cells a step along {', '.join('xyz'[a] for a in axes)}")
    return hypot(*mean)


def show_growth(dump: Dump, wave: int, heights: np.ndarray, expected: float) -> None:
    fit = measure.growth(dump.steps, abs(heights))
    show(f"wave {wave}: growth rate", fit.rate, expected)
    print(f"{'':28} from step {fit.first} to {fit.last}")


def two_stream(dump: Dump) -> None:
    """The wave at the start; where E is 0 there, the waves that grow out of the noise, while the strongest still does."""
    speed, thermal = drift(dump, [0]), units.thermal_speed(dump[0])
    if dump[0].e.any():
        wave, k, heights = strongest(dump, "ex")
        show_growth(dump, wave, heights, theory.two_stream(k, plasma(dump, k)[0], speed, thermal).imag)
        return
    heights = abs(measure.waves(dump, "ex"))[:, : dump.header.cells[0] // 2]
    square = np.sum(heights[:, 1:]**2, axis=1)
    top = 1 + int(np.argmax(heights[np.argmax(square > square.max() / 100), 1:]))
    frames = measure.window(dump.steps, heights[:, top])
    # Beside two stronger waves a weak one is soon driven by their beat.
    numbers = {wave: wave_number(dump, wave) for wave in range(1, heights.shape[1])}
    found = {wave: (k, plasma(dump, k)[0]) for wave, k in numbers.items()}
    rates = {wave: theory.two_stream(k, wp, speed, thermal).imag for wave, (k, wp) in found.items() if k * speed < wp}
    for wave, rate in rates.items():
        if rate > 0.75 * max(rates.values()):
            fit = measure.growth(dump.steps, heights[:, wave], frames)
            show(f"wave {wave}: growth rate", fit.rate, rate)
            print(f"{'':28} from step {fit.first} to {fit.last}")


def filamentation(dump: Dump) -> None:
    speed = drift(dump, [1, 2])
    wave, k, heights = strongest(dump, "bz" if dump[0].b[2].any() else "by")
    expected = theory.filamentation(k, plasma(dump, k)[0], speed, units.light_speed(dump.header))
    show_growth(dump, wave, heights, expected)


def show_noise(noise: np.ndarray, k: np.ndarray, wp: float, thermal: float, chosen: int) -> None:
    """The noise of the waves k, in units of half the temperature, by their lengths."""
    length = 2 * pi / np.sqrt(np.sum(k**2, axis=1)) + 1e-9
    shot, screen = theory.thermal_shares(k, wp, thermal, chosen)
    for low, high in (6, np.inf), (4, 6), (3, 4), (2, 3), (1, 2):
        band = (low < length) & (length < high)
        if band.any():
            level = (shot / (1 + screen))[band]
            show(f"waves from {low} cell{'s' * (low > 1)}: noise", noise[band].mean(), level.mean())
            there = level > 0                                                       # a filter leaves none of the shortest
            chance = np.std(noise[band][there] / level[there]) / sqrt(there.sum() / 2)      # k and -k are one wave
            print(f"{'':28} off by {chance:.1e} by chance; without screening {shot[band].mean():.4f}")


def field_energy(k: np.ndarray, wp: float, thermal: float, chosen: int) -> np.ndarray:
    """What the noise of the waves k took out of the speeds, in units of half the temperature. Where a filter leaves the share f of the
    charge, it is E's energy over f."""
    shot, screen = theory.thermal_shares(k, wp, thermal)
    share = theory.left_by_filter(k) if chosen else 1
    return share * shot / (1 + share * screen)


def thermal_plasma(dump: Dump) -> None:
    """The kinetic energy, and the noise of E along its wave numbers, when three plasma periods have gone by."""
    wp, _ = plasma(dump)
    frames = [frame for frame in dump if frame.step * wp > 3 * 2 * pi]
    if dump[0].e.any() or not frames or not units.thermal_speed(dump[0]):
        raise ValueError("it begins with an E or cold, or has less than three plasma periods")
    if not all(units.kinetic_weight(dump.header, species) for species in dump.header.species):
        raise ValueError("a species feels no E")
    scale, number = dump.header.e_force.value**2, 3 * dump.header.particles
    kinetic = np.mean([units.kinetic_energy(frame) for frame in frames])
    thermal = sqrt(np.mean([frame.particles["velocity"].astype(float)**2 for frame in frames])) / dump.header.fast
    noise = np.mean([measure.longitudinal(frame.e) for frame in frames], axis=0) * scale * number / kinetic
    k, noise = measure.wave_numbers(noise.shape).reshape(-1, 3)[1:], noise.ravel()[1:]
    show("kinetic energy over first", kinetic / units.kinetic_energy(dump[0]),
         1 / (1 + field_energy(k, wp, thermal, dump.header.filter).sum() / number))
    print(f"{'':28} means of the steps {frames[0].step} to {frames[-1].step}, here and below")
    show_noise(noise, k, wp, thermal, dump.header.filter)
    e, b = frames[-1].e, frames[-1].b
    light = (np.sum(e**2) - np.sum(measure.longitudinal(e))) * scale, np.sum(b**2) * (
        dump.header.b_force.value**2 * units.magnetic_weight(dump.header))
    light = [part * number / kinetic / (2 * len(k)) for part in light]              # two waves for each k
    print(f"{'light, last step':28} a wave's E {light[0]:.4f} and B {light[1]:.4f}; both 0 at the start")


MEASURES = {f.__name__: f for f in (light_wave, gyration, e_cross_b, plasma_oscillation, cold_oscillation, thermal_plasma, langmuir,
                                    two_stream, filamentation, upper_hybrid)}


def main(words: list[str]) -> None:
    any_deck = words[:1] == ["--any"]
    words = words[any_deck:]
    if len(words) != 2 or words[0] not in MEASURES:
        print(__doc__, file=sys.stderr)
        sys.exit(2)
    name, path = words
    try:
        dump = files.opened(path)
        if not any_deck:
            test_deck(name, dump)
        MEASURES[name](dump)
    except (ValueError, LookupError, ArithmeticError, OSError) as error:
        sys.exit(f"{name}: {path} can't be measured as a dump of this deck: {error}")


if __name__ == "__main__":
    main(sys.argv[1:])
