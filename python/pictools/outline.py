"""What a deck's text says, as the header of its dump does, and its probes. It is taken as one that the program takes."""

from __future__ import annotations

import tomllib
from math import prod
from typing import Any, NamedTuple

from pictools.deck import Place
from pictools.dump import Header, Multiplier, Species
from pictools.header import Loop

SCALES = ("e_to_b", "b_to_e", "e_force", "b_force")


class Outline(NamedTuple):
    """The header of a deck's dump; what `pic probe` puts of it, `places` and `ids`; and the uniform B along x, y and z."""

    header: Header
    places: tuple[Place, ...]
    ids: tuple[int, ...]
    b: tuple[int, int, int]


def outline(text: str) -> Outline:
    """That of a deck; an error where the text lacks what a deck has."""
    try:
        deck = tomllib.loads(text)
        probes, grid = deck.get("probe", {}), deck["grid"]
        header = Header(tuple(grid["cells"]), deck["run"]["steps"], deck["run"]["every"],
                        *(Multiplier(*deck["scale"][name]) for name in SCALES), species_of(deck.get("species", [])), grid.get("sub"),
                        deck["run"].get("filter", 0), tuple(Loop(loop["axis"], tuple(loop["cell"]), tuple(loop["wave"]))
                                                            for loop in deck.get("drive", [])))
        places = tuple(Place("eb"[field] + "xyz"[axis], tuple(cell)) for field, axis, *cell in probes.get("places", []))
        return Outline(header, places, tuple(probes.get("ids", [])), tuple(deck.get("field", {}).get("b", (0, 0, 0))))
    except (LookupError, TypeError, ValueError) as error:
        raise ValueError(f"it is no deck that `pic check` takes: {error!r}") from None


def species_of(kinds: list[dict[str, Any]]) -> tuple[Species, ...]:
    """The species, each with the number of its particles."""
    found: dict[str, Species] = {}
    for kind in kinds:
        first, named = sum(s.count for s in found.values()), kind.get("pair") or kind.get("displace")
        count = (len(kind["points"]) if "points" in kind else prod(kind["lattice"]["count"]) if "lattice" in kind else
                 kind["random"]["count"] if "random" in kind else found[named["of"]].count)
        found[kind["name"]] = Species(kind["name"], kind["charge"], kind["mass"], Multiplier(*kind["kick"]),
                                      Multiplier(*kind["turn"]), count, first)
    return tuple(found.values())
