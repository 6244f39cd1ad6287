"""What `check`, `run`, `probe`, `verify` and `resume` answer to some bytes: a model of its own, after docs/FORMATS.md, which shares no
code with pic.

    check(deck), run(deck), probe(deck), verify(dump), resume(dump, steps, tiles)
                                                each gives status, standard output, standard error
    has_no_cause(word, ended)                   whether an answer of a command is none that docs/FORMATS.md has for it
    is_newer(deck)                              whether a text may be TOML 1.1 and not 1.0

Documents are read by Python's tomllib, which knows TOML 1.0; pic's reader knows 1.1. Dumps are those of verdicts.py, runs those of
examples/compare.py.
"""

import re
import sys
import tomllib
from math import isinf
from pathlib import Path

from verdicts import (MOST_CELLS, MOST_FACTOR, MOST_FILTER, MOST_FORCE, MOST_LOOPS, MOST_NUMBER, MOST_PARTICLES, MOST_SHIFT,
                      MOST_SPECIES, MOST_STEPS, MOST_VERSION, MOST_WAVE, SUBS, Bad, Broken, Dump, verify)

sys.path.insert(0, str(Path(__file__).parents[1] / "examples"))
from compare import Halt, Model, scaled

__all__ = ["Refused", "check", "has_no_cause", "is_newer", "probe", "resume", "run", "verify", "walk"]

MOST_BYTES, MOST_TILES, MOST_PROBES = 2**20, 512, 64
WHOLE = (-(2**63), 2**63 - 1)
GRID_KEYS = {1: ("cells", "tiles"), 2: ("cells", "tiles", "sub")}
RUN_KEYS = {1: ("steps", "every"), 2: ("steps", "every", "filter")}
DECK_KEYS = {1: ("version", "grid", "run", "scale", "field", "species")}
DECK_KEYS[2] = *DECK_KEYS[1], "drive", "probe"
SOURCES = {"points": (), "lattice": ("first", "gap", "count", "v"), "random": ("count", "seed", "stream", "drift", "spread"),
           "pair": ("of", "seed", "stream", "drift", "spread"), "displace": ("of", "by", "v")}
SOURCES_OF = {1: [*SOURCES][:-1], 2: [*SOURCES]}


class Refused(Exception):
    """A deck is refused, with this line."""


def limit(path, value, low, high):
    if not low <= value <= high:
        raise Refused(f"refused 5 limit {path} {value} {low} {high}")


def kind(path, value, wanted):
    if type(value) is not wanted:
        raise Refused(f"refused 4 kind {path}")
    return value


def numbers(path, value, *limits):
    """An array of whole numbers, one for each of the limits."""
    if len(kind(path, value, list)) != len(limits):
        raise Refused(f"refused 4 kind {path}")
    for n, (low, high) in enumerate(limits):
        limit(f"{path}[{n}]", kind(f"{path}[{n}]", value[n], int), low, high)
    return value


def multiplier(path, value):
    return numbers(path, value, (-MOST_FACTOR, MOST_FACTOR), (0, MOST_SHIFT))


def joined(path, key):
    return f"{path}.{key}" if path else key


def table(path, value, keys):
    """A table of no keys but these."""
    for key in sorted(set(kind(path, value, dict)) - set(keys), key=str.encode):
        raise Refused(f"refused 2 unknown {joined(path, key)}")
    return value


def needed(path, value, key):
    if key not in value:
        raise Refused(f"refused 3 missing {joined(path, key)}")
    return value[key]


def number(path, value, key, low, high):
    found = needed(path, value, key)
    limit(f"{joined(path, key)}", kind(joined(path, key), found, int), low, high)
    return found


def has_wide(value):
    """Whether a document has a number outside 64 bits."""
    if type(value) in (dict, list):
        return any(has_wide(each) for each in (value.values() if type(value) is dict else value))
    return type(value) is int and not WHOLE[0] <= value <= WHOLE[1]


def float_of(text):
    """A float, which the reader of pic refuses where 64 bits don't hold it."""
    if isinf(float(text)) and "inf" not in text:
        raise ValueError("too large")
    return float(text)


def document(deck):
    if len(deck) > MOST_BYTES:
        raise Refused(f"refused 5 limit deck {MOST_BYTES + 1} 0 {MOST_BYTES}")
    try:
        text = deck.decode()
        found = tomllib.loads(text.removeprefix("\ufeff"), parse_float=float_of)
        if not has_wide(found):
            return found
    except (UnicodeDecodeError, tomllib.TOMLDecodeError, RecursionError, ValueError):
        pass
    raise Refused("refused 1 text")


def is_newer(deck):
    """Whether a text may be a document of TOML 1.1 and none of 1.0: an inline table over lines or with a last comma, an escape
    of two digits, a time without seconds. So deep a nesting is here too that the two readers may differ."""
    return bool(re.search(rb"\{[^}]*[\n,]\s*(\}|#|\n)|\{[^}]*\n|\\[xe]|\d:\d\d(?!:)|[\[{]{40}", deck, re.S))


class Terms:
    """What a deck's version and grid say of its particles' limits."""

    def __init__(self, version, cells, side):
        self.version, self.way, self.box = version, (-side, side), [(0, side * c - 1) for c in cells]
        self.particles, self.gap = MOST_PARTICLES[version], MOST_CELLS[version] * side
        self.speed, self.drift, self.spread = ((low * most * side, most * side) for low, most in ((-1, 4096), (-1, 2048), (0, 256)))


def test_tiles(tiles, cells):
    """Into how many tiles each axis is cut, number by number, and their product."""
    for n, (tile, most) in enumerate(zip(tiles, cells)):
        limit(f"grid.tiles[{n}]", kind(f"grid.tiles[{n}]", tile, int), 1, most // 2)
        limit(f"grid.tiles[{n}]", most % tile, 0, 0)
    limit("grid.tiles", tiles[0] * tiles[1] * tiles[2], 1, MOST_TILES)


def walk_grid(version, grid):
    """The cells, and how many sub-cells one has along an axis."""
    table("grid", grid, GRID_KEYS[version])
    cells = numbers("grid.cells", needed("grid", grid, "cells"), *[(2, MOST_CELLS[version])] * 3)
    tiles = needed("grid", grid, "tiles")
    if len(kind("grid.tiles", tiles, list)) != 3:
        raise Refused("refused 4 kind grid.tiles")
    test_tiles(tiles, cells)
    return cells, 2 ** (number("grid", grid, "sub", *SUBS[version]) if version == 2 else SUBS[version][0])


def walk_run(version, run):
    table("run", run, RUN_KEYS[version])
    number("run", run, "steps", 0, MOST_STEPS)
    number("run", run, "every", 1, MOST_STEPS)
    if "filter" in run:
        number("run", run, "filter", 0, MOST_FILTER)


def rows(path, value, *limits):
    for n, row in enumerate(kind(path, value, list)):
        numbers(f"{path}[{n}]", row, *limits)
    return value


def walk_field(field, cells):
    table("field", field, ("e", "b", "edges", "faces"))
    for name in "e", "b":
        numbers(f"field.{name}", field.get(name, [0, 0, 0]), WHOLE, WHOLE, WHOLE)
    for name in "edges", "faces":
        rows(f"field.{name}", field.get(name, []), (0, 2), *[(0, n - 1) for n in cells], WHOLE)


def walk_draw(path, value, terms):
    for name in "seed", "stream":
        number(path, value, name, 0, 2**63 - 1)
    numbers(f"{path}.drift", needed(path, value, "drift"), *[terms.drift] * 3)
    numbers(f"{path}.spread", needed(path, value, "spread"), *[terms.spread] * 3)


def named(path, value, earlier):
    """What an earlier species has that is named here."""
    if kind(f"{path}.of", needed(path, value, "of"), str) not in earlier:
        raise Refused(f"refused 6 name {path}.of")
    return earlier[value["of"]]


def walk_displace(path, value, charge, terms, earlier):
    """How many particles a displaced species has, which is of this charge."""
    count, opposite = named(f"{path}.displace", value, earlier)
    limit(f"{path}.charge", charge, -opposite, -opposite)
    numbers(f"{path}.displace.by", needed(f"{path}.displace", value, "by"), *[terms.way] * 3)
    numbers(f"{path}.displace.v", needed(f"{path}.displace", value, "v"), *[terms.speed] * 3)
    return count


def walk_source(path, species, terms, earlier):
    """How many particles a species has. `earlier` has the number and the charge of the earlier ones, by name."""
    given = [key for key in SOURCES_OF[terms.version] if key in species]
    if len(given) > 1:
        raise Refused(f"refused 2 unknown {path}.{given[1]}")
    if not given:
        raise Refused(f"refused 3 missing {path}.points")
    name, box, speeds, whole = given[0], terms.box, [terms.speed] * 3, path
    path, value = f"{path}.{name}", species[name]
    if name == "points":
        return len(rows(path, value, *box, *speeds))
    table(path, value, SOURCES[name])
    if name == "displace":
        return walk_displace(whole, value, species["charge"], terms, earlier)
    if name == "lattice":
        numbers(f"{path}.first", needed(path, value, "first"), *box)
        numbers(f"{path}.gap", needed(path, value, "gap"), *[(0, terms.gap)] * 3)
        count = numbers(f"{path}.count", needed(path, value, "count"), *[(1, terms.particles)] * 3)
        numbers(f"{path}.v", needed(path, value, "v"), *speeds)
        return count[0] * count[1] * count[2]
    count = number(path, value, "count", 0, terms.particles) if name == "random" else named(path, value, earlier)[0]
    walk_draw(path, value, terms)
    return count


def walk_species(path, species, terms, earlier):
    table(path, species, ("name", "charge", "mass", "kick", "turn", *SOURCES_OF[terms.version]))
    name = kind(f"{path}.name", needed(path, species, "name"), str)
    if not re.fullmatch("[A-Za-z0-9_]{1,32}", name) or name in earlier:
        raise Refused(f"refused 6 name {path}.name")
    number(path, species, "charge", -32768, 32767)
    number(path, species, "mass", 1, 65536)
    for key in "kick", "turn":
        multiplier(f"{path}.{key}", needed(path, species, key))
    earlier[name] = walk_source(path, species, terms, earlier), species["charge"]


def walk_drive(loops, cells):
    limit("drive", len(kind("drive", loops, list)), 0, MOST_LOOPS)
    for n, loop in enumerate(loops):
        path = f"drive[{n}]"
        table(path, loop, ("axis", "cell", "wave"))
        number(path, loop, "axis", 0, 2)
        numbers(f"{path}.cell", needed(path, loop, "cell"), *[(0, c - 1) for c in cells])
        wave = kind(f"{path}.wave", needed(path, loop, "wave"), list)
        numbers(f"{path}.wave", wave, *[(-MOST_NUMBER, MOST_NUMBER)] * len(wave))
        limit(f"{path}.wave", len(wave), 1, MOST_WAVE)


def walk_probe(probes, cells, particles):
    table("probe", probes, ("places", "ids"))
    places = rows("probe.places", probes.get("places", []), (0, 1), (0, 2), *[(0, c - 1) for c in cells])
    limit("probe.places", len(places), 0, MOST_PROBES)
    ids = kind("probe.ids", probes.get("ids", []), list)
    numbers("probe.ids", ids, *[(0, particles - 1)] * len(ids))
    limit("probe.ids", len(ids), 0, MOST_PROBES)


def test_force(name, multiplier, uniform, changed, cells):
    """That no force value at the start is too large: the first place whose is. Most places have the uniform value alone."""
    places = {}
    for axis, i, j, k, value in changed:
        places[axis, k, j, i] = places.get((axis, k, j, i), uniform[axis]) + value
    for axis in range(3):
        plain = next(((axis, k, j, i) for k in range(cells[2]) for j in range(cells[1]) for i in range(cells[0])
                      if (axis, k, j, i) not in places), None)
        if plain:
            places[plain] = uniform[axis]
    for place in sorted(places):
        limit(f"scale.{name}", scaled(places[place], multiplier), -MOST_FORCE, MOST_FORCE)


def walk(deck):
    """The deck's document and the number of its particles."""
    found = document(deck)
    # The keys of version 2 are unknown where the version is the number 1; where it is none at all, that is the fault.
    table("", found, DECK_KEYS[1 if type(found.get("version")) is int and found["version"] == 1 else 2])
    version = number("", found, "version", 1, MOST_VERSION)
    cells, side = walk_grid(version, kind("grid", needed("", found, "grid"), dict))
    walk_run(version, needed("", found, "run"))
    names = "e_to_b", "b_to_e", "e_force", "b_force"
    scale = table("scale", needed("", found, "scale"), names)
    for name in names:
        multiplier(f"scale.{name}", needed("scale", scale, name))
    field = found.get("field", {})
    walk_field(field, cells)
    species, earlier, terms, count = kind("species", found.get("species", []), list), {}, Terms(version, cells, side), 0
    limit("species", len(species), 0, MOST_SPECIES)
    for n, each in enumerate(species):
        walk_species(f"species[{n}]", each, terms, earlier)
        count = sum(count for count, _ in earlier.values())
        limit(f"species[{n}]", count, 0, terms.particles)
    walk_drive(found.get("drive", []), cells)
    walk_probe(found.get("probe", {}), cells, count)
    for name, part, changed in ("e_force", "e", "edges"), ("b_force", "b", "faces"):
        test_force(name, scale[name], field.get(part, [0, 0, 0]), field.get(changed, []), cells)
    return found, count


def printed(line):
    """A line of the report: each character of a path that isn't from ! to ~ is a question mark."""
    head = "refused 2 unknown "
    if line.startswith(head):
        line = head + re.sub("[^!-~]", "?", line[len(head):])
    return f"{line}\n".encode()


def answered(deck, go):
    try:
        found, count = walk(deck)
        return go(deck.decode().removeprefix("\ufeff"), count)
    except Refused as line:
        return 3, b"", printed(line.args[0])
    except Halt as end:
        return end.args[0], b"", f"{end.args[1]}\n".encode()


def checked(text, count):
    Model(text).test_start()
    return 0, f"ok {count} particles\n".encode(), b""


def check(deck):
    return answered(deck, checked)


def run(deck):
    return answered(deck, lambda text, count: Model(text).run())


def probe(deck):
    return answered(deck, lambda text, count: Model(text).probe())


def resume(held, steps, tiles=(1, 1, 1)):
    """The dump's run, gone on with to so many steps in all: its due frames again, and then the steps behind its last frame."""
    dump, texts = Dump(held), lambda line, record=b"": (b"", printed(line))
    try:
        dump.header()
        limit("run.steps", steps, dump.steps, MOST_STEPS)
        test_tiles(tiles, dump.cells)
        state = dump.state()
        state.steps, texts = steps, state.texts
        state.write_header()
        for step in dump.frames():
            if dump.state().is_due(step):
                state.write_frame(step)
        state.go_on(step)
    except Refused as line:
        return 3, *texts(line.args[0])
    except Bad as fault:
        return 7, *texts("bad dump %d %d" % fault.args)
    except Broken as line:
        return 8, *texts(line.args[0])
    except Halt as end:
        return end.args[0], *texts(*end.args[1:])


FRAMES = rb"(frame \d+ kinetic \d+ electric \d+ magnetic \d+\n)"
LINES = rb"(\d+( -?\d+)*\n)"
CAUSES = {
    (0, "check"): rb"ok \d+ particles\n", (0, "verify"): rb"verified \d+ frames\n", (0, "run"): FRAMES + rb"+done \d+\n",
    (1, "run"): FRAMES + rb"+stopped \d+ (field (half1|half2|electric) (value|force) [012] \d+ \d+ \d+"
                         rb"|particle \d+ (speed|turn|far) [012]) -?\d+\n",
    (3, "check"): rb"refused (1 text|2 unknown [!-~]*|3 missing [!-~]+|4 kind [!-~]+|5 limit [!-~]+( -?\d+){3}|6 name [!-~]+)\n"
                  rb"|gauss( \d+){3} div -?\d+ rho -?\d+\n",
    (0, "probe"): LINES + rb"+done \d+\n",
    (3, "resume"): rb"refused 5 limit (run\.steps|grid\.tiles(\[[012]\])?)( \d+){3}\n",
    (7, "verify"): rb"bad dump \d+ ([1-9]|10)\n", (8, "verify"): rb"broken frame \d+ node( \d+){3} div -?\d+ rho -?\d+\n"}
CAUSES |= {(status, "resume"): CAUSES[status, "run"] for status in (0, 1)}
CAUSES |= {(status, "resume"): FRAMES + rb"*" + CAUSES[status, "verify"] for status in (7, 8)}
CAUSES[1, "probe"] = CAUSES[1, "run"].replace(FRAMES, LINES)
CAUSES |= {(3, word): CAUSES[3, "check"] for word in ("run", "probe")}
# The commands whose lines are a report, beside a dump; and the answers at which a dump stands.
WRITERS, WRITTEN = ("run", "resume"), {(0, "run"), (1, "run"), (0, "resume"), (1, "resume"), (7, "resume"), (8, "resume")}


def has_no_cause(word, ended):
    """Whether an answer is none of those that docs/FORMATS.md has for the command, each of which has its cause in its line."""
    status, out, report = ended
    texts = (report, out) if status and (status, word) != (1, "probe") or word in WRITERS else (out, report)
    wanted = CAUSES.get((status, word))
    return wanted is None or not re.fullmatch(wanted, texts[0]) or (status, word) not in WRITTEN and texts[1] != b""
