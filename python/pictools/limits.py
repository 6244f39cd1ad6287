"""The choices of a plasma and their limits: each is tested by itself, and a refusal names the option, its value and what it
may be."""

from __future__ import annotations

from dataclasses import MISSING, dataclass, field, fields
from typing import Any

from pictools.deck import MOST_BYTES, ROW_BYTES, DeckError

AXES = "xyz"


@dataclass(frozen=True)
class Limits:
    """A number from `low` to `high`; `above` and `below` leave the ends themselves out. `why` says it in a few words."""

    low: float
    high: float
    above: bool = False
    below: bool = False
    why: str = ""

    def hold(self, value: float) -> bool:
        """Whether a value lies within them; one that is no number doesn't."""
        return (self.low < value if self.above else self.low <= value) and (
            value < self.high if self.below else value <= self.high)

    @property
    def ends(self) -> str:
        return f"{'above ' if self.above else 'from '}{plain(self.low)} {'to below' if self.below else 'to'} {plain(self.high)}"

    def __str__(self) -> str:
        return self.ends + (f" ({self.why})" if self.why else "")


def plain(value: float) -> str:
    """A number as a person writes it."""
    return str(value) if isinstance(value, int) else f"{value:g}"


def choice(text: str, default: Any = MISSING, limits: Limits | tuple[str, ...] | None = None) -> Any:
    """A field of Plasma: the words that say what it is, here and in the command's help, and what it may be."""
    return field(default=default, metadata={"text": text, "limits": limits})


def option(name: str) -> str:
    """How a command names a field."""
    return "--" + name.replace("_", "-")


def command(chosen: Any) -> str:
    """The command that makes the same choices."""
    others = [(one.name, getattr(chosen, one.name)) for one in fields(chosen) if getattr(chosen, one.name) != one.default]
    return "python3 -m pictools deck " + " ".join(f"{option(name)} {spoken(value)}" for name, value in others)


def spoken(value: Any) -> str:
    """A value as it is typed."""
    return " ".join(map(str, value)) if isinstance(value, (tuple, list)) else str(value)


def refuse(name: str, value: Any, reason: str) -> None:
    """The error that names an option, its value, and what is allowed."""
    words = " ".join(map(plain, value)) if isinstance(value, (tuple, list)) else value if isinstance(value, str) else plain(value)
    raise DeckError(f"{option(name)} {words}: {reason}")


def test_choices(chosen: Any) -> None:
    """Each field by itself, in order."""
    for one in fields(chosen):
        value, limits = getattr(chosen, one.name), one.metadata["limits"]
        if value is None or limits is None:
            continue
        if isinstance(limits, tuple):
            if value not in limits:
                refuse(one.name, value, f"it is {', '.join(limits[:-1])} or {limits[-1]}")
        elif not limits.hold(value):
            refuse(one.name, value, f"it is {limits}")


def test_companions(chosen: Any, companions: dict[str, tuple[str, str]]) -> None:
    """What does nothing without another choice isn't chosen without it."""
    for one in fields(chosen):
        needed, what = companions.get(one.name, ("", ""))
        if needed and getattr(chosen, one.name) != one.default and not getattr(chosen, needed):
            refuse(one.name, getattr(chosen, one.name), f"it wants {option(needed)}, {what}")


def test_cells(cells: tuple[int, int, int], most: int) -> None:
    """Each axis by itself."""
    if len(cells) != 3:
        refuse("cells", cells, "there are three numbers, along x, y and z")
    for axis, number in zip(AXES, cells):
        if not 2 <= number <= most:
            refuse("cells", cells, f"{number} cells along {axis}; an axis has 2 to {most}")


def test_particles(particles_a_cell: int, kinds: int, cells: int, listed: int, most: int) -> None:
    """All particles together: `kinds` of them are there for an electron, and `listed` of these are listed, of which a deck has room
    for fewer."""
    if particles_a_cell * cells * kinds > most:
        ions = ", and as many ions," if kinds > 1 else ""
        refuse("particles_a_cell", particles_a_cell,
               f"{particles_a_cell * cells} electrons{ions} are too many; a deck has at most {most} particles, so here "
               f"at most {most // (cells * kinds)} electrons a cell")
    rows = particles_a_cell * cells * listed
    if rows * ROW_BYTES > MOST_BYTES:
        refuse("particles_a_cell", particles_a_cell,
               f"{rows} particles can't be listed; a deck has room for some 30000. Choose fewer, or --start lattice, or --start "
               "random with long axes and no --wave, which list none")
