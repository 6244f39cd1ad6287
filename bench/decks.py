"""Decks for the comparison, and what the two C programs read of a deck.

    python3 bench/decks.py FOLDER      writes each deck twice, for two numbers of steps: NAME_STEPS.toml, and NAME_STEPS.txt
    python3 bench/decks.py < DECK      puts the plain text of a deck on standard output

The plain text is numbers in the order of bench/start.h: cells, steps, every, the four multipliers, E, B, species. Each is checked
by `pic check`, not here.
"""

import sys
import tomllib
from pathlib import Path

HOME = Path(__file__).parents[1]


def line(*numbers):
    return " ".join(map(str, numbers)) + "\n"


def field_text(field, uniform, rows):
    listed = field.get(rows, [])
    return line(*field.get(uniform, [0, 0, 0])) + line(len(listed)) + "".join(line(*row) for row in listed)


def lattice_rows(lattice, box):
    counts = [range(n) for n in lattice["count"]]
    return [[(f + n * g) % b for f, n, g, b in zip(lattice["first"], place, lattice["gap"], box)] + lattice["v"]
            for place in ((x, y, z) for z in counts[2] for y in counts[1] for x in counts[0])]


def particles_text(species, names, box):
    if "points" in species or "lattice" in species:
        rows = species["points"] if "points" in species else lattice_rows(species["lattice"], box)
        return "points\n" + line(len(rows)) + "".join(line(*row) for row in rows)
    kind = "random" if "random" in species else "pair"
    source = species[kind]
    first = source["count"] if kind == "random" else names.index(source["of"])
    return kind + "\n" + line(first, source["seed"], source["stream"], *source["drift"], *source["spread"])


def plain_text(deck):
    """The numbers of a deck. A lattice becomes its points."""
    scale, field, species = deck["scale"], deck.get("field", {}), deck.get("species", [])
    names = [each["name"] for each in species]
    text = line(*deck["grid"]["cells"]) + line(deck["run"]["steps"], deck["run"]["every"])
    text += line(*(number for name in ("e_to_b", "b_to_e", "e_force", "b_force") for number in scale[name]))
    text += field_text(field, "e", "edges") + field_text(field, "b", "faces") + line(len(species))
    for each in species:
        text += line(each["charge"], each["mass"], *each["kick"], *each["turn"])
        text += particles_text(each, names, [4096 * n for n in deck["grid"]["cells"]])
    return text


def demonstration():
    """A thermal plasma of 8192 electrons and as many ions on 16^3 cells, in tiles of 4^3."""
    return (HOME / "decks" / "demo_7.toml").read_text()


def eight():
    """The same plasma in tiles of 8^3."""
    return demonstration().replace("[4, 4, 4]", "[2, 2, 2]")


def million():
    """The same plasma with 1048576 particles, 4 a cell, on 64^3 cells in tiles of 8^3."""
    return demonstration().replace("[16, 16, 16]", "[64, 64, 64]").replace("[4, 4, 4]", "[8, 8, 8]").replace("8192", "524288")


def small():
    """The same plasma with 2048 particles, 4 a cell, on 8^3 cells in one tile: what a step goes over stays in a core's second cache."""
    return demonstration().replace("[16, 16, 16]", "[8, 8, 8]").replace("[4, 4, 4]", "[1, 1, 1]").replace("8192", "1024")


def fields():
    """Fields alone on 64^3 cells in tiles of 8^3: a sheet of Bz of no order, which spreads as light."""
    head = demonstration().split("[[species]]")[0]
    head = head.replace("[16, 16, 16]", "[64, 64, 64]").replace("[4, 4, 4]", "[8, 8, 8]")
    rows = [[2, i, j, 32, (i * 7919 + j * 104729) % 1000003 * 1000003] for j in range(64) for i in range(64)]
    return head + "[field]\nfaces = " + str(rows) + "\n"


# Each with the lesser and the greater number of steps.
DECKS = {"small": (small, 100, 2100), "demonstration": (demonstration, 16, 216), "eight": (eight, 16, 216), "million": (million, 1, 4),
         "fields": (fields, 4, 44)}


def with_steps(text, steps):
    """With frames of the first and the last state alone."""
    return text.replace("steps = 16", f"steps = {steps}").replace("every = 4", "every = 1000000")


def main():
    if len(sys.argv) == 1:
        sys.stdout.write(plain_text(tomllib.load(sys.stdin.buffer)))
        return
    for name, (make, few, many) in DECKS.items():
        for steps in few, many:
            text = with_steps(make(), steps)
            place = Path(sys.argv[1]) / f"{name}_{steps}"
            place.with_suffix(".toml").write_text(text)
            place.with_suffix(".txt").write_text(plain_text(tomllib.loads(text)))


if __name__ == "__main__":
    main()
