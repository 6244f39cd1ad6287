"""Decks and dumps at random, for fuzz.py: a grammar of decks, ways to spell them, dumps field by field, and damage to both."""

import sys
from copy import deepcopy
from math import prod
from pathlib import Path
from struct import pack

import answers
from verdicts import MOST_FILTER, MOST_LOOPS, MOST_NUMBER, MOST_VERSION, MOST_WAVE

sys.path.insert(0, str(Path(__file__).parents[1] / "examples"))
from compare import Model, differences, scaled
from random_decks import random_deck

NAMES = "abcdefgh", "e", "ion", "S_1", "x" * 32, "A9_"
FACTORS = 0, 1, -1, 3, 2**20, 2**31 - 1, 1 - 2**31
# Values that stand at or beyond limits, or are of another kind.
ODD = (0, 1, -1, 2, 3, 7, 8, 14, 15, 61, 62, 63, 64, 65, 128, 129, 4095, 4096, 8191, 8192, 16383, 16384, 32767, 32768, -32768, -32769,
       65536, 65537, 262144, 262145, 1000000, 1000001, 2**20, 2**20 + 1, 2**23, 2**23 + 1, -(2**23) - 1, 2**24, 2**24 + 1, -(2**24) - 1, 2**31 - 1, 2**31, -(2**31),
       2**44, 2**44 + 1, 2**63 - 1, -(2**63), 2**63, 1.0, True, "x", "e", "", [], [0], [1, 2, 3], {}, {"x": 1})


def factor(dice, low, high):
    """A multiplier of a size from 2^low to 2^high, now and then a wild one."""
    if dice.random() < 0.05:
        return [dice.choice(FACTORS), dice.choice([0, 1, 5, 31, 62])]
    k = dice.randint(max(0, -low), 30)
    return [dice.choice([1, -1]) * max(1, round(2 ** (k + dice.uniform(low, high)))), k]


def velocity(dice, most):
    return [dice.choice([0, most, -most, dice.randint(-most, most)]) for _ in range(3)]


def drawn(dice, side):
    return {"seed": dice.choice([0, 7, 2**63 - 1]), "stream": dice.choice([0, 54, 2**63 - 1]),
            "drift": velocity(dice, 64 * side), "spread": [abs(v) for v in velocity(dice, 64 * side)]}


def source(dice, cells, side):
    """What fills a species: the key and its value."""
    box = [side * c for c in cells]
    spots = [dice.choice([0, b - 1, dice.randrange(b), side * dice.randrange(c)]) for b, c in zip(box, cells)]
    kind = dice.choice(["points", "lattice", "random"])
    if kind == "points":
        return {kind: [spots + velocity(dice, 4096 * side)] + [[dice.randrange(b) for b in box] + velocity(dice, 512 * side)
                                                               for _ in range(dice.randint(0, 4))]}
    if kind == "lattice":
        gaps = [dice.choice([0, 1, side // 2, side, 64 * side]) for _ in range(3)]
        return {kind: {"first": spots, "gap": gaps, "count": [dice.randint(1, 2) for _ in range(3)], "v": velocity(dice, 1024 * side)}}
    return {kind: {"count": dice.randint(0, 9)} | drawn(dice, side)}


def species(dice, name, charge, filled):
    return {"name": name, "charge": charge, "mass": dice.choice([1, 1836, 65536]), "kick": factor(dice, -12, 3),
            "turn": factor(dice, -12, 3)} | filled


def displaced(dice, of, side):
    """What fills a species that is displaced from another."""
    by = [dice.choice([0, 1, -1, side, -side, dice.randint(-side, side)]) for _ in range(3)]
    return {"displace": {"of": of, "by": by, "v": velocity(dice, 256 * side)}}


def loops(dice, cells):
    """Driven loops, within their limits."""
    high = 2 ** dice.randint(0, 60)
    return [{"axis": dice.randrange(3), "cell": [dice.randrange(c) for c in cells],
             "wave": [dice.randint(-high, high) for _ in range(dice.choice([1, 2, 3, MOST_WAVE]))]}
            for _ in range(dice.choice([0, 1, 2, MOST_LOOPS]))]


def probes(dice, cells, particles):
    """Probes, within their limits; either key may be left out."""
    places = [[dice.randrange(2), dice.randrange(3), *(dice.randrange(c) for c in cells)] for _ in range(dice.choice([0, 1, 3, 64]))]
    parts = {"places": places, "ids": [dice.randrange(particles) for _ in range(dice.choice([0, 1, 3, 64]))] if particles else []}
    return {name: parts[name] for name in parts if dice.random() < 0.8}


def all_species(dice, cells, side, version):
    """Species that have no charge, or come in couples of opposite charge; now and then one with a charge alone."""
    made = []
    for n in range(dice.choice([0, 1, 1, 2])):
        charge = dice.choice([0, 1, -1, 7, 32767])
        made.append(species(dice, NAMES[2 * n], charge, source(dice, cells, side)))
        if charge and dice.random() < 0.9:
            filled = {"pair": {"of": NAMES[2 * n]} | drawn(dice, side)}
            if version == 2 and dice.random() < 0.5:
                filled = displaced(dice, NAMES[2 * n], side)
            made.append(species(dice, NAMES[2 * n + 1], -charge, filled))
    return made


def count_of(held):
    """How many particles species have."""
    counts = {}
    for each in held:
        filled = next(each[name] for name in answers.SOURCES if name in each)
        counts[each["name"]] = (len(filled) if "points" in each else counts[filled["of"]] if "of" in filled else
                                prod(filled["count"]) if "lattice" in each else filled["count"])
    return sum(counts.values())


def deck(dice):
    """A deck that may be run, or that Gauss's law refuses."""
    cells = [dice.choice([2, 2, 3, 4, 5, 6]) for _ in range(3)]
    tiles = [dice.choice([t for t in range(1, c // 2 + 1) if c % t == 0]) for c in cells]
    version = dice.randint(1, MOST_VERSION)
    sub = {"sub": dice.randint(8, 14)} if version == 2 else {}
    chosen = {"filter": dice.randint(0, MOST_FILTER)} if version == 2 and dice.random() < 0.7 else {}
    made = {"version": version, "grid": {"cells": cells, "tiles": tiles} | sub,
            "run": {"steps": dice.randint(0, 6), "every": dice.choice([1, 1, 2, 3, 1000000])} | chosen,
            "scale": {"e_to_b": factor(dice, -4, -1), "b_to_e": factor(dice, -4, 1), "e_force": factor(dice, -30, -2),
                      "b_force": factor(dice, -30, -2)}}
    if dice.random() < 0.08:
        wild = {"e_to_b": [2**31 - 1, 0], "b_to_e": [1 - 2**31, 0], "e_force": [0, 0], "b_force": dice.choice([[0, 0], [1, 62], [1, 46]])}
        made["scale"] |= {name: wild[name] for name in wild if dice.random() < 0.8}
    if dice.random() < 0.6:
        made["field"] = field(dice, cells)
    held = all_species(dice, cells, 2 ** sub.get("sub", 12), version)
    if held or dice.random() < 0.5:
        made["species"] = held
    if version == 2 and dice.random() < 0.4:
        made["drive"] = loops(dice, cells)
    if version == 2 and dice.random() < 0.4:
        made["probe"] = probes(dice, cells, count_of(held))
    return made


def field(dice, cells):
    """Uniform parts, faces, and edges that are a loop, so that they have no divergence; now and then one edge alone."""
    high = 2 ** dice.randint(3, 62)
    i, j, k = (dice.randrange(c) for c in cells)
    value = dice.randint(-high, high)
    loop = [[0, i, j, k, value], [1, (i + 1) % cells[0], j, k, value], [0, i, (j + 1) % cells[1], k, -value], [1, i, j, k, -value]]
    faces = [[dice.randrange(3), *(dice.randrange(c) for c in cells), dice.randint(-high, high)] for _ in range(dice.randint(0, 3))]
    parts = {"e": velocity(dice, high), "b": velocity(dice, high), "edges": loop if dice.random() < 0.9 else loop[:1], "faces": faces}
    return {name: parts[name] for name in parts if dice.random() < 0.7}


def places_in(value, path=()):
    """The paths of all values below one."""
    inner = value.items() if isinstance(value, dict) else enumerate(value) if isinstance(value, list) else ()
    for key, each in inner:
        yield path + (key,)
        yield from places_in(each, path + (key,))


def bent(dice, whole):
    """A deck with one or two of its values, keys or lists another."""
    made = deepcopy(whole)
    for _ in range(dice.choice([1, 1, 2])):
        paths = list(places_in(made))
        if not paths:
            break
        *way, last = dice.choice(paths)
        at = made
        for key in way:
            at = at[key]
        bend(dice, at, last)
    return made


def bend(dice, at, last):
    how = dice.randrange(6)
    if how == 0:
        del at[last]
    elif how == 1 and isinstance(at[last], int):
        at[last] += dice.choice([1, -1, 2, 2**20, -(2**20), 2**40])
    elif how == 2 and isinstance(at[last], list):
        at[last] = at[last] + at[last][-1:] if dice.random() < 0.5 else at[last][:-1]
    elif how == 3 and isinstance(at, dict):
        at[dice.choice(["x", "Z", "é b", "", "a.b", *answers.SOURCES, "drive", "probe", "sub", "filter", "wave"])] = dice.choice(ODD)
    elif how == 4 and isinstance(at, list):
        at[last] = deepcopy(dice.choice(at))
    else:
        at[last] = deepcopy(dice.choice(ODD))


def number(dice, value):
    """A whole number in one of its spellings."""
    if value >= 0 and dice.random() < 0.05:
        return dice.choice([f"0x{value:X}", f"0x{value:x}", f"0o{value:o}", f"0b{value:b}", f"+{value}", f"{value:_}"])
    return str(value)


def key_text(dice, key):
    if key and all(c.isascii() and (c.isalnum() or c in "_-") for c in key) and dice.random() < 0.95:
        return key
    return f'"{key}"'


def inline(dice, value):
    """A value on one line."""
    gap = dice.choice([" ", "", "  "])
    if isinstance(value, dict):
        return "{" + gap + f",{gap}".join(f"{key_text(dice, key)} ={gap}{inline(dice, each)}" for key, each in value.items()) + gap + "}"
    if isinstance(value, list):
        joint = dice.choice([", ", ",", ",\n  ", ", # a row\n"])
        return "[" + gap + joint.join(inline(dice, each) for each in value) + (dice.choice(["", ","]) if value else "") + gap + "]"
    if isinstance(value, bool):
        return str(value).lower()
    if isinstance(value, str):
        return dice.choice(['"{}"', "'{}'", '"""{}"""']).format(value)
    return number(dice, value) if isinstance(value, int) else str(value)


def spelled(dice, whole):
    """A deck as a text: tables inline or under headers, keys dotted, comments, line ends of either kind."""
    plain, tables = [], []
    for key, value in whole.items():
        name = key_text(dice, key)
        if isinstance(value, dict) and dice.random() < 0.7:
            if value and dice.random() < 0.1:
                plain += [f"{name}.{key_text(dice, inner)} = {inline(dice, each)}" for inner, each in value.items()]
            else:
                tables.append([f"[{name}]"] + [f"{key_text(dice, inner)} = {inline(dice, each)}" for inner, each in value.items()])
        elif value and isinstance(value, list) and all(isinstance(each, dict) for each in value) and dice.random() < 0.8:
            tables += [[f"[[{name}]]"] + [f"{key_text(dice, inner)} = {inline(dice, each)}" for inner, each in table.items()] for table in value]
        else:
            plain.append(f"{name} = {inline(dice, value)}")
    lines = plain + [line for table in tables for line in table]
    end = dice.choice(["\n", "\n", "\n", "\r\n", " # é\n", "\n\n\t"])
    return (dice.choice(["", "", "\ufeff", "\n# a deck\n"]) + end.join(lines) + dice.choice(["", "\n"])).encode()


def damaged(dice, held):
    """Bytes with some of them flipped, cut, doubled or others put in."""
    made = bytearray(held)
    for _ in range(dice.choice([1, 1, 1, 2, 8])):
        if not made:
            break
        place, how = dice.randrange(len(made)), dice.randrange(6)
        if how == 0:
            made[place] ^= 1 << dice.randrange(8)
        elif how == 1:
            made[place] = dice.choice(b'\0\x7f\xff\xfe"[]{}=,#.\n\r-+_09aEe\\')
        elif how == 2:
            del made[place:place + dice.choice([1, 1, 4, 16, 1000000])]
        elif how == 3:
            made[place:place] = made[place:place + dice.choice([1, 4, 24, 100])]
        elif how == 4:
            made[place:place] = dice.randbytes(dice.choice([1, 2, 16]))
        else:
            other = dice.randrange(len(made))
            made[place], made[other] = made[other], made[place]
    return bytes(made)


def run_dump(dice):
    """The dump of a run of the model."""
    kind = dice.choice(["both", "filter", "displace", "drive", "drive"]) if MOST_VERSION == 2 and dice.random() < 0.6 else ""
    while True:
        text = spelled(dice, deck(dice)) if dice.random() < 0.8 else random_deck(dice.randrange(10**6), kind).encode()
        status, held, _ = answers.run(text)
        if status < 2:
            return held


def multiplier_bytes(dice):
    return pack(">iI", dice.choice(FACTORS), dice.choice([0, 1, 31, 62]))


def made_dump(dice):
    """A dump field by field, without particles: E a curl or wild, and an end record of any kind."""
    cells, steps, every = [dice.randint(2, 3) for _ in range(3)], dice.choice([0, 1, 2, 3, 7, 1000000]), dice.choice([1, 2, 3, 1000000])
    scales = [multiplier_bytes(dice) for _ in range(4)]
    scales[2:] = [pack(">iI", *dice.choice([(0, 0), (1, 46), (1, 62), (-1, 50)])) for _ in range(2)]
    version = dice.randint(1, MOST_VERSION)
    held = [loop_bytes(dice, cells) for _ in range(dice.choice([0] * 5 + [1, 2, MOST_LOOPS, MOST_LOOPS + 1]))] if version == 2 else []
    form = dice.choice([8, 14, dice.randint(7, 15)]), dice.choice([0] * 5 + [1] * 4 + [2]), len(held)
    form = pack(">3I", *form) if version == 2 else b""
    made = b"PICDUMP%d" % version + pack(">5I", *cells, steps, every) + b"".join(scales) + form + bytes(4) + b"".join(held)
    model = object.__new__(Model)
    model.cells = cells
    model.places = [(i, j, k) for k in range(cells[2]) for j in range(cells[1]) for i in range(cells[0])]
    model.down = [[model.at(*(c - (b == a) for b, c in enumerate(p))) for p in model.places] for a in range(3)]
    due = sorted({step for step in (0, every, 2 * every, 3 * every, steps) if step <= steps})
    for step in due[:dice.randint(1, len(due))]:
        made += frame_bytes(dice, model, step, scales)
    return made + end_bytes(dice, cells, dice.choice([steps, step, step + 1, step + every]), dice.choice([0, 0, 1, 2]))


def loop_bytes(dice, cells):
    """A loop of a header; now and then a number of it is outside its limits."""
    bad = dice.random() < 0.1
    axis, *cell = (n + bad * dice.choice([0, 0, 1]) for n in (dice.randint(0, 2), *(c - 1 for c in cells)))
    length = dice.choice([1, 2, MOST_WAVE, *[0, MOST_WAVE + 1] * bad])
    wave = [dice.choice([0, 1, MOST_NUMBER, -MOST_NUMBER, *[MOST_NUMBER + 1, -MOST_NUMBER - 1] * bad]) for _ in range(length)]
    return pack(f">5I{length}q", axis, *cell, length, *wave)


def frame_bytes(dice, model, step, scales):
    high = 2 ** dice.choice([0, 10, 86, 87])
    source, b = ([[dice.randint(-high, high) for _ in model.places] for _ in range(3)] for _ in "eb")
    e = differences(source, [range(len(model.places))] * 3, model.down)
    made, energies = b"F" + pack(">I", step), []
    for part, held in zip((e, b), scales[2:]):
        made += b"".join(value.to_bytes(16, "big", signed=True) for component in part for value in component)
        factors = int.from_bytes(held[:4], "big", signed=True), int.from_bytes(held[4:], "big")
        energies.append(sum(scaled(value, factors) ** 2 for component in part for value in component))
    return made + b"".join((energy % 2**128).to_bytes(16, "big") for energy in (0, *energies))


def end_bytes(dice, cells, step, kind):
    made = b"E" + bytes([kind]) + pack(">I", step)
    bounds = 2**90, 2**44, 2**40, 4096, 256, 16384
    value = (dice.choice([1, -1]) * (dice.choice(bounds) + dice.randint(0, 1))).to_bytes(16, "big", signed=True)
    if kind == 1:
        return made + bytes([dice.choice([1, 3, 4, 4, 2]), dice.choice([1, 2, 2, 0]), dice.choice([0, 1, 2, 3])]) \
            + pack(">3I", *(dice.randint(0, c) if dice.random() < 0.2 else 0 for c in cells)) + value
    return made + (pack(">IBB", dice.randint(0, 1), dice.randint(0, 4), dice.randint(0, 3)) + value if kind == 2 else b"")


def field_changed(dice, held):
    """A dump with the bytes of one field another: numbers of 4 or 16 bytes that stand at a limit."""
    size = dice.choice([1, 4, 4, 16])
    place = dice.randrange(max(1, min(len(held), dice.choice([200, 200, len(held)])))) // 4 * 4
    value = dice.choice([0, 1, 2, 64, 65, 4096, 16384, 2**20, 2**31 - 1, 2**32 - 1, 2**44 + 1, 2**90, 2**90 + 1, 2**127]) % 2 ** (8 * size)
    return held[:place] + value.to_bytes(size, "big") + held[place + size:]


def dump(dice):
    """A dump, whole or not."""
    held = run_dump(dice) if dice.random() < 0.6 else made_dump(dice)
    how = dice.random()
    if how < 0.25:
        return field_changed(dice, held)
    if how < 0.3:
        return held + dice.randbytes(dice.choice([1, 1, 37, 70000]))
    return damaged(dice, held) if how < 0.65 else held
