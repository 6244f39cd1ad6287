"""What a deck's run will cost: the bytes of its dump, and about its seconds."""

from __future__ import annotations

from math import prod

from pictools.deck import Deck
from pictools.header import frame_length, frames_due, header_length
from pictools.info import size

# bench/RESULTS.md, "In short": seconds on one thread of the machine named there.
PARTICLE_STEP = 0.2e-6
CELL_STEP = 0.08e-6
CELL_STEP_BESIDE_PARTICLES = 0.18e-6
BYTES_A_SECOND = 600e6
BYTES_A_STEP, BYTES_A_VALUE, BYTES_AN_ORBIT = 6, 14, 48     # of probe lines, mostly


def dump_bytes(deck: Deck) -> int:
    """The bytes of the whole dump."""
    frames = frames_due(deck.steps, deck.every)
    return header_length(deck.version, len(deck.species), deck.loops) + frames * frame_length(deck.cells, deck.particles) + 6


def line_bytes(deck: Deck) -> int:
    """About the bytes of what `pic probe` puts: of a step, of a value, and of a particle's place and velocity."""
    return (deck.steps + 1) * (BYTES_A_STEP + BYTES_A_VALUE * len(deck.places) + BYTES_AN_ORBIT * len(deck.ids))


def seconds(deck: Deck) -> float:
    """About how long the run takes on one thread, the writing of its dump included."""
    cell = CELL_STEP_BESIDE_PARTICLES if deck.particles else CELL_STEP
    step = PARTICLE_STEP * deck.particles + cell * prod(deck.cells)
    return step * deck.steps + dump_bytes(deck) / BYTES_A_SECOND


def spoken(time: float) -> str:
    """A time as a person says it."""
    if time < 100:
        return f"{max(time, 1):.0f} second{'s' * (time >= 1.5)}"
    return f"{time / 60:.0f} minutes" if time < 6000 else f"{time / 3600:.0f} hours"


def say(deck: Deck) -> str:
    """The line of it."""
    frames = frames_due(deck.steps, deck.every)
    lines = f" `pic probe` puts {deck.steps + 1} lines, about {size(line_bytes(deck))}." if deck.places or deck.ids else ""
    return (f"The run has {deck.steps} steps of {deck.particles} particles in {prod(deck.cells)} cells: about "
            f"{spoken(seconds(deck))} on one thread. Its dump has {frames} frame{'s' * (frames > 1)}, {size(dump_bytes(deck))}." + lines)
