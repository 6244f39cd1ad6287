"""Each option of the deck maker with each other, for every start, with the filter and without: they make a deck that the program takes,
and some are run; or a line names the option that doesn't go and says why. None is left out of the deck without a word. Without a program
that was built the second model of decks takes some of them."""

import unittest
from collections import Counter
from dataclasses import fields
from functools import cache
from itertools import combinations, product

import answers

from pictools.deck import DeckError
from pictools.limits import option
from pictools.plasma import COMPANIONS, Plasma
from tests.test_program import PROGRAM, call

BASE = {"plasma_frequency": 0.2, "cells": (4, 4, 4), "particles_a_cell": 2, "steps": 2, "every": 1}
KINDS = [{"start": start} for start in ("quiet", "lattice", "random")]
KINDS += [kind | {"filter": 1} for kind in KINDS]


def on_each_axis(name: str, **chosen) -> list[dict]:
    return [chosen | {name + "_axis": axis} for axis in "xyz"]


# What is chosen for each option, with what it wants beside it. `start` and `filter` go with every pair.
CHOSEN = {
    "light_speed": [{"light_speed": 0.3}], "thermal_speed": [{"thermal_speed": 0.02}],
    **{f"thermal_speed_{axis}": [{f"thermal_speed_{axis}": 0.03}] for axis in "xyz"},
    "drift": on_each_axis("drift", drift=0.1), "beam_share": [{"drift": 0.1, "beam_share": share} for share in (0.25, 1)],
    "gyration": on_each_axis("gyration", gyration=0.1), "cross_drift": on_each_axis("gyration", gyration=0.1, cross_drift=0.05),
    "particles_a_cell": [{"particles_a_cell": 1}, {"particles_a_cell": 8}], "mass_ratio": [{"mass_ratio": 4}],
    "wave": on_each_axis("wave", wave=1, wave_speed=0.01), "displace": [{"displace": -1}, *on_each_axis("displace", displace=0.25)],
    "antenna": on_each_axis("antenna", antenna=0.01), "antenna_place": [{"antenna": 0.01, "antenna_place": 1}],
    "antenna_period": [{"antenna": 0.01, "antenna_period": 12}], "probe": on_each_axis("probe", probe="ex,by"), "trace": [{"trace": 3}],
    "cells": [{"cells": cells} for cells in ((4, 2, 2), (2, 4, 2), (2, 2, 4), (4, 4, 2), (3, 4, 5), (2, 2, 2))],
    "sub": [{"sub": 8}, {"sub": 14}], "steps": [{"steps": 0}], "every": [{"every": 7}], "seed": [{"seed": 7}],
}
DEFAULTS = {field.name: field.default for field in fields(Plasma)} | BASE


def joined(*parts: dict) -> dict | None:
    """All choices together; None where two of them say another thing of one option."""
    whole = {}
    for name, value in (item for part in parts for item in part.items()):
        if whole.setdefault(name, value) != value:
            return None
    return whole


@cache
def made(*items: tuple) -> tuple[int, str]:
    """How many particles the deck of some choices has, and its text without the comment; -1 and the line where they make none."""
    try:
        deck = Plasma(**BASE | dict(items)).deck()
        return deck.particles, "".join(line for line in deck.text().splitlines(True) if not line.startswith("#"))
    except DeckError as error:
        return -1, str(error)


def deck_of(chosen: dict) -> tuple[int, str]:
    return made(*sorted(chosen.items()))


def pairs() -> list[tuple[dict, dict, dict]]:
    """Two choices and a kind of start: each pair of options with all that is chosen for both, and all kinds of starts."""
    found = []
    for some, others in combinations(CHOSEN.values(), 2):
        both = [pair for pair in product(some, others) if joined(*pair) is not None]
        found += [(*both[n % len(both)], KINDS[n % len(KINDS)]) for n in range(max(len(both), len(KINDS)))]
    return found


class Pairs(unittest.TestCase):
    def test_all_options_are_chosen(self):
        names = {name for several in CHOSEN.values() for one in several for name in one} | {name for kind in KINDS for name in kind}
        self.assertEqual(names | {"plasma_frequency"}, {field.name for field in fields(Plasma)})

    def is_refused_well(self, line: str, chosen: dict) -> None:
        """A refusal is a line that names an option which was chosen, or goes with one that was, its value, and a reason."""
        self.assertRegex(line, r"^--[a-z-]+ [^:]+: \w[^\n]{15,}$")
        name = next(field.name for field in fields(Plasma) if line.startswith(option(field.name) + " "))
        self.assertTrue({name, COMPANIONS.get(name, ("",))[0]} & {*chosen, "particles_a_cell"}, line)

    def test_each_pair_makes_a_deck_or_says_why_not(self):
        ends, takes = Counter(), (lambda text: call("check", given=text)) if PROGRAM else answers.check
        for number, (one, other, kind) in enumerate(pairs()):
            chosen = joined(one, other, kind)
            with self.subTest(chosen):
                particles, text = deck_of(chosen)
                ends[particles < 0] += 1
                if particles < 0:
                    self.is_refused_well(text, chosen)
                    continue
                for less in (joined(part, kind) for part in (one, other)):
                    left_out = text == deck_of(less)[1] and any(less.get(name, DEFAULTS[name]) != chosen[name] for name in chosen)
                    self.assertFalse(left_out, f"no more is in the deck than of {less}")
                if PROGRAM or number % 16 == 0:
                    self.assertEqual(takes(text.encode()), (0, b"ok %d particles\n" % particles, b""))
                if PROGRAM and number % 16 == 0:
                    self.assertEqual(call("run", given=text.encode())[0], 0)
        self.assertGreater(ends[False], 4 * ends[True])

    def test_each_choice_of_an_option_makes_another_deck(self):
        for several, kind in product(CHOSEN.values(), KINDS):
            texts = [text for particles, text in (deck_of(kind | one) for one in several) if particles >= 0]
            self.assertEqual(len(set(texts)), len(texts), (several, kind))


if __name__ == "__main__":
    unittest.main()
