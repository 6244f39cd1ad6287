"""The arithmetic of the second model (compare.py), and where the particles of a species come from, after docs/SCHEME.md and
docs/FORMATS.md."""

def rounded(number, divisor):
    """The nearest whole number to number / divisor, a half going up."""
    return (2 * number + divisor) // (2 * divisor)


def scaled(value, multiplier):
    """A value times the multiplier [n, k], which is n / 2^k."""
    return rounded(value * multiplier[0], 2 ** multiplier[1])


def random_words(seed, stream):
    """The words of PCG32 (M. E. O'Neill, 2014: XSH RR of a 64-bit congruence) for a seed and a stream."""
    step = (2 * stream + 1) % 2**64
    state = ((step + seed) * 6364136223846793005 + step) % 2**64
    while True:
        mixed, turn = (state >> 18 ^ state) >> 27 & 2**32 - 1, state >> 59
        yield (mixed >> turn | mixed << 32 - turn) & 2**32 - 1
        state = (state * 6364136223846793005 + step) % 2**64


def drawn_velocity(draw, source):
    """On each axis the drift and the spread times a sum of twelve words, which is nearly Gaussian."""
    return [drift + rounded(spread * (sum(next(draw) for _ in range(12)) - 6 * (2**32 - 1)), 2**32)
            for drift, spread in zip(source["drift"], source["spread"])]


def particles(kind, box, earlier):
    """The rows [x, y, z, vx, vy, vz] of a species. `earlier` has those of the species before it, by name."""
    if "points" in kind:
        return kind["points"]
    if "lattice" in kind:
        source = kind["lattice"]
        counts = [range(n) for n in source["count"]]
        return [[(f + n * g) % b for f, n, g, b in zip(source["first"], place, source["gap"], box)] + source["v"]
                for place in ((x, y, z) for z in counts[2] for y in counts[1] for x in counts[0])]
    if "displace" in kind:
        source = kind["displace"]
        return [[(p + d) % b for p, d, b in zip(row, source["by"], box)] + source["v"] for row in earlier[source["of"]]]
    source = kind["random"] if "random" in kind else kind["pair"]
    draw = random_words(source["seed"], source["stream"])
    if "random" in kind:
        return [[next(draw) * b >> 32 for b in box] + drawn_velocity(draw, source) for _ in range(source["count"])]
    return [row[:3] + drawn_velocity(draw, source) for row in earlier[source["of"]]]
