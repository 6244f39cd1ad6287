"""What the program's lines and exit statuses mean, and what to change: python3 -m pictools explain refused 4 kind grid.cells"""

from __future__ import annotations

import re
from collections.abc import Callable, Iterable, Iterator

from pictools.meanings import ADVICE, CAUSES, KEYS, MENDED, STATUSES, USAGE

SIDE_1 = 4096               # sub-cells a cell in version 1; a line doesn't say those of version 2


def all_lines(lines: Iterable[str]) -> Iterator[str]:
    """What each of these lines means. Of the lines of frames, and of those of `pic probe`, the first is explained alone."""
    framed = False
    for line in filter(str.strip, lines):
        if re.match(r"frame |\d+ -?\d", line):
            if framed:
                continue
            framed = True
        yield explain(line.strip())


def explain(line: str) -> str:
    """What a line of the program, or the number of an exit status, means: the line, and below it some sentences."""
    for pattern, meaning in MEANINGS:
        found = re.fullmatch(pattern, line)
        if found:
            return line + "\n" + "\n".join("    " + said for said in meaning(*found.groups()))
    raise ValueError(f"no line of the program is {line!r}; explain takes a line of its report or answer, or an exit status")


def place_of(path: str) -> str:
    """A path of a deck with each number in brackets as [i], which is how the tables have it."""
    return re.sub(r"\[\d+\]", "[i]", path)


def known(path: str) -> tuple[str, str]:
    """What a key of the deck is, by its path, and its limits."""
    return KEYS.get(place_of(path), ("", ""))


def siblings(path: str) -> list[str]:
    """The keys of the table that a path's key stands in."""
    table = place_of(path).rpartition(".")[0]
    return [key.rpartition(".")[2] for key in KEYS if key.rpartition(".")[0] == table and "[i]" not in key.rpartition(".")[2]]


def text() -> list[str]:
    return ["The deck isn't UTF-8, or no TOML document: a bracket or a quote that isn't closed, a key given twice, a number "
            "outside 64 bits.",
            "Its line is named by: python3 -c 'import sys, tomllib; tomllib.load(sys.stdin.buffer)' < DECK"]


def unknown(path: str) -> list[str]:
    keys = siblings(path)
    said = [f"The deck has a key {path} that isn't one of a deck's."]
    if place_of(path).startswith("species[i].") and path.rpartition(".")[2] in ("points", "lattice", "random", "pair", "displace"):
        more = " (displace in version 2 alone)" if path.endswith("displace") else ""
        return said + [f"A species has just one of points, lattice, random, pair and displace{more}."]
    if path in ("grid.sub", "run.filter", "drive", "probe"):
        return said + [f"It is a key of version 2: take it out, or give the deck version = 2 and {what_2(path)}."]
    return said + [f"In its place there can be: {', '.join(keys)}. Mend its name, or take it out." if keys else "Take it out."]


def what_2(path: str) -> str:
    """What else a deck of version 1 wants to be one of version 2 that has this key."""
    if path != "run.filter":
        return "keep it" if path == "grid.sub" else "grid.sub = 12"
    return "grid.sub = 12; with a filter of 1 e_force and b_force also want 6 more in k"


def missing(path: str) -> list[str]:
    what, limits = known(path)
    more = " (or lattice, random, pair or displace in its place)" if path.endswith(".points") else ""
    return [f"The deck has no {path}{more}." + (f" It is {what}{', ' + limits if limits else ''}." if what else "")]


def kind(path: str) -> list[str]:
    what, limits = known(path)
    return [f"{path} is of another kind than it has to be, or an array of another length."
            + (f" It is {what}{', ' + limits if limits else ''}." if what else ""),
            "All numbers are whole: 0.5 or 1e3 is none, and a text stands in quotes."]


def limit(path: str, value: str, low: str, high: str) -> list[str]:
    said = [f"{path} is {value}; it has to be from {low} to {high}."]
    return said + [advice for pattern, advice in ADVICE if re.fullmatch(pattern, f"{place_of(path)} {low} {high}")][:1]


def name(path: str) -> list[str]:
    if path.endswith(".of"):
        how = "displaced particles stand beside" if path.endswith(".displace.of") else "a pair stands on"
        return [f"{path} is no name of an earlier species: {how} the particles of one that the deck has before it."]
    return [f"{path} isn't allowed: a name has 1 to 32 letters (a to z, A to Z), digits and _, or an earlier species has it "
            "already."]


def gauss(i: str, j: str, k: str, divergence: str, charge: str) -> list[str]:
    d, r = int(divergence), int(charge)
    said = [f"Nothing was run: at the node ({i}, {j}, {k}), the first of those where they differ, the divergence of E is {d} "
            f"and the charge {r}, which is {r / (12 * SIDE_1**3):.6g} particles of charge 1 in version 1 "
            "(12 * 8^sub is one in version 2, and 64 times that with a filter)."]
    if d == 0:
        said.append("E has no divergence there, and the particles aren't neutral. Put a `pair` of the opposite charge on each "
                    "species, or give the deck an E that fits as `field.edges`: pictools.deck.field_of(charges(cells, species)) "
                    "finds one.")
    else:
        said.append("The deck's E isn't that of its particles: make `field.edges` anew (pictools.deck.field_of) after each "
                    "change of a particle, or of run.filter, with which the charge is filtered and 64 times as large.")
    return said + ["All charges have to add up to 0: count times charge, summed over the species. No E fits a box that is "
                   "charged."]


def stopped_field(step: str, phase: str, bound: str, axis: str, *place_and_value: str) -> list[str]:
    field, (i, j, k, value) = "E" if phase == "electric" else "B", place_and_value
    size = f"2^{int(value).bit_length()}" if int(value) else "0"
    passed = "2^90, the most that a field may be" if bound == "value" else "2^44 once it is a force value (times its `_force`)"
    return [f"The run ended in step {step}: {field} along {'xyz'[int(axis)]} at ({i}, {j}, {k}) would be {value}, about {size}, "
            f"above {passed}. The frames before it stand in the dump.",
            "Mostly light is past its bound, c^2 = 2 e_to_b b_to_e above 1/3: the shortest waves grow by a factor each step. "
            "Lower b_to_e.",
            "Else the field is too strong for its `_force`: lower e_force and b_force together, and raise kick and turn as much."]


def stopped_particle(step: str, identity: str, what: str, axis: str, value: str) -> list[str]:
    number = int(value)
    causes = {
        "far": f"it would move {number} sub-cells, in version 1 {number / SIDE_1:.4g} cells; a particle moves at most one cell a "
               "step",
        "turn": f"turn b would be {number}, above 2^24, which is nearly half a turn: B is too strong for a step",
        "speed": f"half a kick would make its velocity {number} (1/4096 sub-cell a step), above 2^40: E is far too strong"}
    return [f"The run ended in step {step} at particle {identity} (identities count from 0 through all species), along "
            f"{'xyz'[int(axis)]}: {causes[what]}. The frames before it stand in the dump.",
            "If it began too fast: lower its speed or the thermal speed (of many electrons the fastest has some 5 of it); with "
            "the plasma frequency lowered as much, the Debye length stays.",
            "If it was sped up: a field grew. Look at the last frames: an instability that has run its course wants a lower "
            "plasma frequency and drift; fields that grow from step to step at all places want a plasma frequency below 2 and "
            "c^2 = 2 e_to_b b_to_e below 1/3; a steady rise is heating by the grid, and wants a larger Debye length, more "
            "particles a cell, or fewer steps.",
            "If all are this fast at once, `kick` or `turn` is too large for `e_force` and `b_force`: docs/UNITS.md has how "
            "they go together."]


def bad_dump(place: str, cause: str) -> list[str]:
    said = [f"The dump isn't of the format from byte {place} on, counted from 0: "
            f"{CAUSES.get(cause, 'a cause that is not known')}."]
    if cause == "9":
        said.append("Its run was cut (a full disk, Ctrl-C, a time limit), or still writes. " + MENDED + " info, plot and thin take "
                    "its whole frames as it is.")
    return said


def broken(frame: str, i: str, j: str, k: str, divergence: str, charge: str) -> list[str]:
    return [f"The dump is of the format, but frame {frame}, counted from 0, doesn't meet Gauss's law: at ({i}, {j}, {k}) the "
            f"divergence of E is {divergence} and the charge {charge}.",
            "No run of the program writes such a frame: bytes were changed later."]


def frame(step: str) -> list[str]:
    return [f"The frame of step {step} is in the dump. The energies are sums in three units: python3 -m pictools energies draws "
            "them, and pictools.units.energies of the dump has them in one."]


def probed(step: str) -> list[str]:
    return [f"A line of `pic probe`, of step {step}: behind it stand the values at the deck's `probe.places`, and of each of `probe.ids` x, y, z, "
            "vx, vy, vz. python3 -m pictools plot LINES --deck DECK -o PICTURE draws such lines, and pictools.Probes reads them."]


def status(number: str) -> list[str]:
    return STATUSES.get(int(number), ["No exit status of the program: a shell gives 128 and a signal's number where a signal "
                                      "ended it."])


MEANINGS: list[tuple[str, Callable[..., list[str]]]] = [
    (r"refused 1 text", text), (r"refused 2 unknown ?(\S*)", unknown), (r"refused 3 missing (\S+)", missing),
    (r"refused 4 kind (\S+)", kind), (r"refused 5 limit (\S+) (-?\d+) (-?\d+) (-?\d+)", limit), (r"refused 6 name (\S+)", name),
    (r"gauss (\d+) (\d+) (\d+) div (-?\d+) rho (-?\d+)", gauss),
    (r"stopped (\d+) field (half1|half2|electric) (value|force) ([012]) (\d+) (\d+) (\d+) (-?\d+)", stopped_field),
    (r"stopped (\d+) particle (\d+) (speed|turn|far) ([012]) (-?\d+)", stopped_particle),
    (r"bad dump (\d+) (\d+)", bad_dump), (r"broken frame (\d+) node (\d+) (\d+) (\d+) div (-?\d+) rho (-?\d+)", broken),
    (r"frame (\d+) kinetic \d+ electric \d+ magnetic \d+", frame), (r"(\d+)(?: -?\d+)+", probed), (r"usage: .*", lambda: USAGE),
    (r"done (\d+)", lambda step: [f"The run came to its last step, {step}; the dump is whole."]),
    (r"ok (\d+) particles", lambda number: [f"The deck can be run: {number} particles, and E meets Gauss's law at every node."]),
    (r"verified (\d+) frames", lambda number: [f"The dump is of the format, and each of its {number} frames meets Gauss's law."]),
    (r"upgraded (\d+) frames", lambda number: [f"The dump was put again in the spelling of version 2, whole, with its {number} frames."]),
    (r"read fault", lambda: STATUSES[4]), (r"(?:status |exit )?(\d+)", status)]
