"""Random decks for compare.py, tools/ and bench/: small ones, the same at each call, most of which the program runs.

A KIND is `sources` where particles are lattices, random ones and pairs; `sides` where cells have 256 to 16384 sub-cells (version 2);
`both` where either is so, and particles may be listed too; `filter` where decks of the last kind have a filter or none, and charged
particles apart with the E of their filtered charge. Decks of the kinds `displace`, `drive` and `probe` have a filter or none as well:
the first have particles displaced from those of earlier species, the second loops, and the third probes, and one of the two before.
"""

import random

from compare import Model, differences

KINDS = "sources", "sides", "both", "filter", "displace", "drive", "probe"
VERSION_2 = KINDS[1:]
MOST_NUMBER = 2**60         # of a loop's wave


def random_multiplier(dice, wild, low, high):
    """A multiplier whose size is from 2^low to 2^high, or a wild one."""
    if wild:
        return [dice.choice([2**31 - 1, 1 - 2**31, 0, 1, 3]), dice.choice([0, 1, 5, 31, 62])]
    k = dice.randint(0, 20)
    return [round(2 ** (k + dice.uniform(low, high))) * dice.choice([1, -1]), k]


def random_species(dice, wild, cells, side):
    """Two species on the same places with opposite charges, so without a charge; many on faces, edges and nodes."""
    fast, charge = dice.choice([4, 2**8, 2**11, 2**12]) * side, dice.choice([1, -1, 7, 32767, 0])
    spots = [[dice.choice([dice.randrange(c * side), side * dice.randrange(c) + dice.choice([0, 0, 1, side // 2, side - 1])])
              for c in cells] for _ in range(dice.randint(0, 5 if wild else 30))]
    text = ""
    for name, sign in ("a", 1), ("b", -1):
        speeds = lambda: [dice.choice([dice.randint(-fast, fast), 0, fast, -fast]) for _ in range(3)]
        text += random_kind(dice, wild, name, sign * charge) + f"points = {[spot + speeds() for spot in spots]}\n"
    return text


def random_kind(dice, wild, name, charge):
    """A species without its particles."""
    kick, turn = (random_multiplier(dice, wild and dice.random() < 0.3, low, low + 15) for low in (-14, -11))
    text = f'[[species]]\nname = "{name}"\ncharge = {charge}\nmass = {dice.randint(1, 65536)}\n'
    return text + f"kick = {kick}\nturn = {turn}\n"


def random_sources(dice, wild, cells, side, gap_cells):
    """A lattice or random particles, and two pairs of them, one of a pair. The second has the opposite charge, the third none."""
    charge, fast = dice.choice([1, -1, 7, 32767, 0]), dice.choice([side // 4, 16 * side, 256 * side])
    widest = gap_cells * side
    drift, spread = ([dice.choice([0, dice.randint(0, fast)]) for _ in range(3)] for _ in "ds")
    drawn = lambda: (f"seed = {dice.choice([0, 1, 42, 2**63 - 1])}, stream = {dice.choice([0, 54, 2**63 - 1])}, "
                     f"drift = {[dice.choice([1, -1]) * d for d in drift]}, spread = {spread}")
    counts, first = [dice.choice([1, 1, 2, 3]) for _ in range(3)], [dice.randrange(side * c) for c in cells]
    gap, v = [dice.choice([0, side // 2, widest, dice.randrange(widest)]) for _ in range(3)], [-d for d in drift]
    sources = [f"lattice = {{ first = {first}, gap = {gap}, count = {counts}, v = {v} }}",
               f"random = {{ count = {dice.randint(0, 5 if wild else 30)}, {drawn()} }}"]
    sources = [dice.choice(sources), f'pair = {{ of = "a", {drawn()} }}', f'pair = {{ of = "b", {drawn()} }}']
    return "".join(random_kind(dice, wild, name, sign * charge) + source + "\n"
                   for name, sign, source in zip("abc", (1, -1, 0), sources))


def random_displaced(dice, wild, cells, side):
    """Species that are drawn, listed or displaced from earlier ones, neutral in all, but not where they stand."""
    count, fast, charges = dice.randint(1, 3), dice.choice([2**8, 2**11]) * side, [dice.choice([1, -1, 2, 7])]
    speed = lambda: [dice.randint(-fast, fast) for _ in range(3)]
    way = lambda: [dice.choice([0, 1, -1, side // 2, side, -side, dice.randint(-side, side)]) for _ in range(3)]
    pair = lambda of: (f'pair = {{ of = "{of}", seed = {dice.randrange(9)}, stream = {dice.randrange(9)}, drift = {speed()}, '
                       "spread = [4, 0, 1] }\n")
    rows = [[dice.choice([dice.randrange(c * side), side * dice.randrange(c)]) for c in cells] + speed() for _ in range(count)]
    text = random_kind(dice, wild, "a", charges[0]) + f"points = {rows}\n"
    for name in "bcdef"[:dice.randint(1, 5)]:
        of = dice.randrange(len(charges))
        moved = len(charges) == 1 or dice.random() < 0.7
        charges.append(-charges[of] if moved else dice.choice([0, 1, -2]))
        source = f'displace = {{ of = "{"abcdef"[of]}", by = {way()}, v = {speed()} }}\n' if moved else pair("abcdef"[of])
        text += random_kind(dice, wild, name, charges[-1]) + source
    return text + (random_kind(dice, wild, "z", -sum(charges)) + pair("a") if sum(charges) else "")


def random_apart(dice, cells, side):
    """Two species of opposite charge, as many particles of each, anywhere in the box."""
    count, fast, charge = dice.randint(1, 4), dice.choice([2**8, 2**11]) * side, dice.choice([1, -1, 2])
    row = lambda: [dice.randrange(c * side) for c in cells] + [dice.randint(-fast, fast) for _ in range(3)]
    return "".join(random_kind(dice, False, name, sign * charge) + f"points = {[row() for _ in range(count)]}\n"
                   for name, sign in (("a", 1), ("b", -1)))


def field_of(model):
    """An E whose divergence is the model's charge: what is left over goes along x to the last plane, there along y, and along z."""
    left, field = model.charges(), [[0] * len(model.places) for _ in range(3)]
    for a in range(3):
        for n, place in enumerate(model.places):
            if place[a] < model.cells[a] - 1 and all(place[b] == model.cells[b] - 1 for b in range(a)):
                field[a][n], left[model.up[a][n]] = left[n], left[model.up[a][n]] + left[n]
    return field


def charged_at_first(model):
    """The charge with each displaced particle where it is displaced from."""
    places = iter(model.displaced)
    model.particles = [(kind, next(places)[1] if "displace" in kind else place, velocity)
                       for kind, place, velocity in model.particles]
    return model


def random_drive(dice, cells, high):
    """Loops, some of them on one face."""
    text, high = "", min(high, MOST_NUMBER)
    cell = lambda: [dice.choice([0, 0, c - 1, dice.randrange(c)]) for c in cells]
    for _ in range(dice.choice([1, 1, 2, 3, 16])):
        wave = [dice.choice([dice.randint(-high, high), 0, high, -high]) for _ in range(dice.choice([1, 2, 3, 5, 64]))]
        text += f"[[drive]]\naxis = {dice.randrange(3)}\ncell = {cell()}\nwave = {wave}\n"
    return text


def random_probe(dice, cells, particles):
    """Probes at some places and of some particles, some twice; or none."""
    count = lambda: dice.choice([0, 1, 2, 5, 64])
    places = [[dice.randrange(2), dice.randrange(3), *(dice.randrange(c) for c in cells)] for _ in range(count())]
    ids = [dice.choice([0, particles - 1, dice.randrange(particles)]) for _ in range(count())] if particles else []
    parts = [f"places = {places}\n", f"ids = {ids}\n"]
    return dice.choice(["", "[probe]\n", *["[probe]\n" + "".join(parts)] * 6, "[probe]\n" + parts[0], "[probe]\n" + parts[1]])


def random_scales(dice, wild, power):
    """The multipliers of fields of a size up to 2^power."""
    text = "[scale]\n"
    for name, high in ("e_to_b", -2), ("b_to_e", 0):
        text += f"{name} = {random_multiplier(dice, wild and dice.random() < 0.7, high - 4, high)}\n"
    for name in "e_force", "b_force":
        k = dice.randint(14, 62) if wild else dice.choice([dice.randint(20, 40), max(0, power - dice.randint(5, 24))])
        text += f"{name} = {[dice.randint(-3, 3), k]}\n"
    return text


def random_particles(dice, wild, kind, shape, cells, side):
    """The species of a deck of this kind; `shape` is what it has beside its kind."""
    if shape == "displace":
        return random_displaced(dice, wild, cells, side)
    if shape == "apart":
        return random_apart(dice, cells, side)
    if kind == "sources" or kind in VERSION_2[1:] and dice.random() < 0.8:
        return random_sources(dice, wild, cells, side, 64 * (1 + (kind in VERSION_2)))
    return random_species(dice, wild, cells, side)


def shape_of(dice, wild, kind):
    """Whether charges stand apart in a deck of this kind, or are displaced."""
    if kind == "displace" or kind == "probe" and dice.random() < 0.5:
        return "displace"
    return "apart" if kind in VERSION_2[2:] and not wild and dice.random() < 0.5 else ""


def random_deck(number, kind=""):
    """The random deck of a number: a calm one where it is even, else a wild one that stops soon."""
    dice, wild = random.Random(number), number % 2
    cells = [dice.choice([2, 2, 3, 4] if wild else [2, 3, 4, 5, 6]) for _ in range(3)]
    tiles = [dice.choice([t for t in range(1, c // 2 + 1) if c % t == 0]) for c in cells]
    version = 2 if kind in VERSION_2 else 1
    sub = dice.randint(8, 14) if version == 2 else 12
    text = f"version = {version}\n[grid]\ncells = {cells}\ntiles = {tiles}\n"
    text += f"sub = {sub}\n" if version == 2 else ""
    text += f"[run]\nsteps = {dice.randint(0, 12)}\nevery = {dice.randint(1, 5)}\n"
    text += dice.choice(["", "filter = 0\n", "filter = 1\n", "filter = 1\n"]) if kind in VERSION_2[2:] else ""
    power = dice.choice([3, 40, 57, 58, 59, 60]) if wild else dice.randint(3, 43)
    shape = shape_of(dice, wild, kind)
    # Charges of one sign come to 64 times 12 S^3 each.
    text += random_scales(dice, wild, 3 * sub + 13 if shape else power)
    text += random_particles(dice, wild, kind, shape, cells, 2**sub)
    # E is a curl, and so has no charge but that of particles apart; a few wild decks have a row more.
    model, high = charged_at_first(Model(text)), 2**power
    source, faces = ([[dice.randint(-high, high) for _ in model.places] for _ in range(3)] for _ in "eb")
    curl = differences(source, model.here, model.down)
    if shape:
        curl = [[c + e for c, e in zip(*parts)] for parts in zip(curl, field_of(model))]
    edges, faces = ([[a, *p, v] for a in range(3) for p, v in zip(model.places, field[a])] for field in (curl, faces))
    edges += [[0, 0, 1, 0, 1]] if wild and dice.random() < 0.1 else []
    e, b = ([dice.choice([dice.randint(-high, high), 8 * high - 1]) for _ in range(3)] for _ in "eb")
    text += f"[field]\ne = {e}\nb = {b}\nedges = {edges}\nfaces = {faces}\n"
    text += random_drive(dice, cells, high) if kind == "drive" or kind == "probe" and not shape else ""
    return text + (random_probe(dice, cells, len(model.particles)) if kind == "probe" else "")
