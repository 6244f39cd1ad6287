"""Long runs, and decks at every limit of their keys, each held against another program of the scheme.

    python3 tools/long.py [--program PROGRAM] [--steps STEPS] [GROUP ..]

The groups are long, wide and limits; without one all of them. `exact` is bench/exact.c, whose report has to be that of pic to the
letter; `model` are tools/answers.py and examples/compare.py, whose status, dump and report have to be those of pic, byte for byte.
A table is printed at the end; the exit status is 0 where all agree. STEPS (1000000) are those of the longest run: some minutes. It
needs Python 3.11 and a C compiler (cc).
"""

import argparse
import random
import subprocess
import sys
import tempfile
import tomllib
from copy import deepcopy
from pathlib import Path

import answers
from program import HOME, Program, Test, chosen_program

sys.path.insert(0, str(HOME / "bench"))
from decks import plain_text

BIGGEST, FACTOR = 2**63 - 1, 2**31 - 1
FOLDER = tempfile.TemporaryDirectory()


def exact(deck):
    """The exit status and the report of bench/exact.c."""
    place = Path(FOLDER.name) / "exact"
    if not place.exists():
        subprocess.run(["cc", "-std=gnu11", "-O2", "-o", place, HOME / "bench" / "exact.c", "-lm"], check=True)
    done = subprocess.run([place], input=plain_text(deck).encode(), capture_output=True)
    return done.returncode, done.stdout


def spelled(value):
    """A value as TOML has it, tables inline."""
    if isinstance(value, dict):
        return "{ " + ", ".join(f"{key} = {spelled(each)}" for key, each in value.items()) + " }"
    if isinstance(value, list):
        return "[" + ", ".join(map(spelled, value)) + "]"
    return f'"{value}"' if isinstance(value, str) else str(value)


def text_of(deck):
    return "".join(f"{key} = {spelled(value)}\n" for key, value in deck.items()).encode()


def deck_of(cells, tiles, steps, every, **others):
    """A deck of light waves and calm particles, with other tables where they are given."""
    return {"version": 1, "grid": {"cells": cells, "tiles": tiles}, "run": {"steps": steps, "every": every},
            "scale": {"e_to_b": [1, 2], "b_to_e": [1, 2], "e_force": [1, 30], "b_force": [1, 30]}} | others


def species(name, charge, **source):
    return {"name": name, "charge": charge, "mass": 1 + 65535 * (charge > 0), "kick": [charge, 6], "turn": [charge, 4]} | source


def drawn(seed, drift, spread):
    return {"seed": seed, "stream": seed + 1, "drift": drift, "spread": [spread] * 3}


def agree_exactly(program, test, name, deck, workers):
    """The report is that of exact.c, and the dump is verified."""
    wanted = exact(deck)
    for count in workers:
        status, dump, report = program.call("run", "--workers", str(count), given=text_of(deck))
        verdict = program.call("verify", given=dump)
        frames = b"verified %d frames\n" % (report.count(b"\n") - 1)
        fits = (status, report) == wanted and verdict == (0, frames, b"")
        test.case(f"{name}, {count} workers", fits, (status, b"", report), f"as exact.c, of {len(report.splitlines()) - 1} frames")
    test.end()


def loops(seed, cells, lengths):
    """Loops at random faces, with waves of so many numbers."""
    dice = random.Random(seed)
    return [{"axis": n % 3, "cell": [dice.randrange(c) for c in cells], "wave": [dice.randint(-10**11, 10**11) for _ in range(length)]}
            for n, length in enumerate(lengths)]


def agree_with_model(program, test, name, deck, workers):
    text = text_of(deck)
    wanted, lines = answers.run(text), answers.probe(text) if "probe" in deck else None
    for count in workers:
        ended = program.call("run", "--workers", str(count), given=text)
        test.case(f"{name}, {count} workers", ended == wanted, ended)
        if lines:
            ended = program.call("probe", "--workers", str(count), given=text)
            test.case(f"{name}, probed, {count} workers", ended == lines, ended)
    test.case(f"{name}, verified", program.call("verify", given=wanted[1]) == answers.verify(wanted[1]), wanted, "verified")
    test.end()


def long(program, steps):
    """Two electrons and two ions in light on the smallest grid."""
    rows = [[5000, 100, 8191, 300000, -200000, 7], [1, 4096, 2048, -100000, 0, 250000]]
    faces = [[2, 0, 0, 0, 900000000000], [0, 1, 1, 0, -700000000000]]
    still = [row[:3] + [0, 0, 0] for row in rows]
    both = [species("electron", -1, points=rows), species("ion", 1, points=still)]
    field = {"b": [0, 0, 400000000000], "faces": faces}
    deck = deck_of([2, 2, 2], [1, 1, 1], steps, max(1, steps // 10), field=field, species=both)
    agree_exactly(program, Test(f"{steps} steps on 2 by 2 by 2 cells, 4 particles, one worker"), "long", deck, [1])
    few = deck | {"run": {"steps": steps // 20, "every": max(1, steps // 100)}}
    agree_exactly(program, Test(f"{steps // 20} steps of the same, 2 and 4 workers"), "long", few, [2, 4])
    brief = deck | {"run": {"steps": steps // 500, "every": max(1, steps // 10000)}}
    agree_with_model(program, Test(f"{steps // 500} steps of the same, byte for byte, 1 and 3 workers"), "long", brief, [1, 3])
    driven = brief | {"version": 2, "grid": deck["grid"] | {"sub": 12}, "drive": loops(3, deck["grid"]["cells"], [7, 64, 1])}
    agree_with_model(program, Test(f"{steps // 500} steps of the same with three loops, byte for byte, 1 and 3 workers"), "driven", driven, [1, 3])


def of_all_devices():
    """A deck with displaced species, as many loops as there may be, each with a wave of 64 numbers, and as many probes."""
    cells, dice = [6, 4, 4], random.Random(9)
    held = [species("ion", 2, random={"count": 40} | drawn(5, [0, 0, 0], 2**12))]
    # A way from drawn particles, from paired ones, from pairs of displaced ones, and from displaced ones, beside a pair of these.
    for name, charge, of, by in (("a", -2, "ion", [4096, -4096, 1]), ("b", 3, "ion", None), ("c", -3, "b", [-2048, 0, 4096]), ("d", 1, "a", None),
                                 ("e", -1, "d", [-4095, 7, -4096]), ("f", -2, "a", None), ("g", 2, "a", [0, 0, 4096])):
        source = {"displace": {"of": of, "by": by, "v": [dice.randint(-2**20, 2**20) for _ in range(3)]}}
        held.append(species(name, charge, **source if by else {"pair": {"of": of} | drawn(6, [0, 0, 0], 2**12)}))
    places = [[dice.randrange(2), dice.randrange(3), *(dice.randrange(c) for c in cells)] for _ in range(64)]
    probe = {"places": places, "ids": [dice.randrange(320) for _ in range(64)]}
    deck = deck_of(cells, [3, 2, 2], 20, 7, species=held, drive=loops(4, cells, [64] * 16), probe=probe)
    return deck | {"version": 2, "grid": deck["grid"] | {"sub": 12}, "run": deck["run"] | {"filter": 1}}


def apart(count):
    """So many electrons that drift a quarter of a cell a step, on as many ions that stand still."""
    return [species("e", -1, random={"count": count} | drawn(3, [2**22, 0, -(2**21)], 2**20)), species("i", 1, pair={"of": "e"} | drawn(4, [0, 0, 0], 9))]


def wide(program, steps):
    """As many tiles, species, particles as there may be."""
    del steps
    pair = [species("e", -1, random={"count": 200} | drawn(7, [0, 0, 0], 2**20)),
            species("i", 1, pair={"of": "e"} | drawn(8, [2**20, 0, -(2**22)], 3))]
    deck = deck_of([16, 16, 16], [8, 8, 8], 12, 4, species=pair)
    agree_with_model(program, Test("12 steps in 512 tiles, 400 particles, 1, 3, 64 workers"), "tiles", deck, [1, 3, 64])
    deck = deck_of([64, 4, 2], [32, 2, 1], 12, 5, species=pair)
    agree_with_model(program, Test("12 steps on 64 by 4 by 2 cells, 1, 2, 63 workers"), "long box", deck, [1, 2, 63])
    many = []
    for n in range(0, 16, 2):
        source = [{"random": {"count": 5} | drawn(n, [n, 0, -n], 2**16 * n)},
                  {"lattice": {"first": [n, 0, 5], "gap": [4096, 262144, n], "count": [2, 1, 3], "v": [-n, n, 2**24]}}][n % 4 // 2]
        many += [species(f"S_{n}".ljust(32, "x"), 1 - n, **source),
                 species(f"P_{n}", n - 1, pair={"of": f"S_{n}".ljust(32, "x")} | drawn(n, [0, 0, n], 2**10))]
    deck = deck_of([4, 6, 5], [2, 3, 1], 20, 7, species=many)
    agree_with_model(program, Test("20 steps of 16 species from lattices, random ones and pairs, 1, 2, 64 workers"), "species", deck, [1, 2, 64])
    agree_with_model(program, Test("20 steps of 4 displaced species, 16 loops, 128 probes, 1, 3, 64 workers"), "devices", of_all_devices(), [1, 3, 64])
    deck = deck_of([6, 4, 4], [3, 2, 2], 100, 33, species=apart(90))
    agree_with_model(program, Test("100 steps of 180 particles that cross tiles, byte for byte, 1, 3, 64 workers"), "crossing", deck, [1, 3, 64])
    deck = deck_of([32, 32, 32], [8, 8, 8], 100, 20, species=apart(32768))
    agree_exactly(program, Test("100 steps of 65536 particles that cross tiles, 1, 3, 64 workers"), "crossing", deck, [1, 3, 64])
    half = 524288
    most = [species("e", -1, random={"count": half} | drawn(1, [0, 0, 0], 2**18)), species("i", 1, pair={"of": "e"} | drawn(2, [0, 0, 0], 9))]
    deck = deck_of([64, 64, 64], [8, 8, 8], 3, 3, species=most)
    agree_exactly(program, Test("3 steps of 1048576 particles on 64 by 64 by 64 cells, 1 and 4 workers"), "most", deck, [1, 4])


def changed(deck, path, value):
    made = deepcopy(deck)
    at = made
    for key in path[:-1]:
        at = at[key]
    at[path[-1]] = value
    return made


# Where a deck has its numbers, and the limits of each. What is run at a limit takes no long time.
def numbers_of(deck):
    box = [(0, 4096 * n - 1) for n in deck["grid"]["cells"]]
    shift, factor, fast = (0, 62), (-FACTOR, FACTOR), (-(2**24), 2**24)
    yield ["version"], (1, 1)
    for n in range(3):
        yield ["grid", "cells", n], (2, 64)
        yield ["grid", "tiles", n], (1, 2)
        for name in "e", "b":
            yield ["field", name, n], (-BIGGEST - 1, BIGGEST)
        for name in "edges", "faces":
            yield ["field", name, 0, 1 + n], (0, deck["grid"]["cells"][n] - 1)
        yield ["species", 0, "points", 0, n], box[n]
        yield ["species", 0, "points", 0, 3 + n], fast
        yield ["species", 1, "lattice", "first", n], box[n]
        yield ["species", 1, "lattice", "gap", n], (0, 262144)
        yield ["species", 1, "lattice", "count", n], (1, 1048576)
        yield ["species", 1, "lattice", "v", n], fast
        for place, name in (2, "random"), (3, "pair"):
            yield ["species", place, name, "drift", n], (-(2**23), 2**23)
            yield ["species", place, name, "spread", n], (0, 2**20)
    yield ["run", "steps"], (0, 1000000)
    yield ["run", "every"], (1, 1000000)
    for name in "e_to_b", "b_to_e", "e_force", "b_force":
        yield ["scale", name, 0], factor
        yield ["scale", name, 1], shift
    for name in "edges", "faces":
        yield ["field", name, 0, 0], (0, 2)
        yield ["field", name, 0, 4], (-BIGGEST - 1, BIGGEST)
    for n in range(4):
        yield ["species", n, "charge"], (-32768, 32767)
        yield ["species", n, "mass"], (1, 65536)
        for name in "kick", "turn":
            yield ["species", n, name, 0], factor
            yield ["species", n, name, 1], shift
    yield ["species", 2, "random", "count"], (0, 1048576)
    for place, name in (2, "random"), (3, "pair"):
        yield ["species", place, name, "seed"], (0, BIGGEST)
        yield ["species", place, name, "stream"], (0, BIGGEST)


def deck_of_version_2():
    """A small deck with a displaced species, loops and probes."""
    moved = species("moved", -1, displace={"of": "points", "by": [5, -7, 0], "v": [0, 1, 2]})
    deck = deck_of([4, 2, 3], [2, 1, 1], 2, 1, species=[species("points", 1, points=[[255, 0, 511, 1, 2, 3], [9, 8, 7, 0, 0, 0]]), moved],
                   drive=[{"axis": 0, "cell": [3, 1, 2], "wave": [5, -6]}], probe={"places": [[0, 0, 0, 0, 0]], "ids": [1, 3]})
    return deck | {"version": 2, "grid": deck["grid"] | {"sub": 8}, "run": deck["run"] | {"filter": 1}}


def numbers_of_2(deck):
    """The numbers that version 2 alone has."""
    side, cells = 2 ** deck["grid"]["sub"], deck["grid"]["cells"]
    yield ["grid", "sub"], (8, 14)
    yield ["run", "filter"], (0, 1)
    for n in range(3):
        yield ["species", 1, "displace", "by", n], (-side, side)
        yield ["species", 1, "displace", "v", n], (-4096 * side, 4096 * side)
        yield ["drive", 0, "cell", n], (0, cells[n] - 1)
        yield ["probe", "places", 0, 2 + n], (0, cells[n] - 1)
    yield ["drive", 0, "axis"], (0, 2)
    yield ["drive", 0, "wave", 1], (-(2**60), 2**60)
    yield ["probe", "places", 0, 0], (0, 1)
    yield ["probe", "places", 0, 1], (0, 2)
    yield ["probe", "ids", 1], (0, 3)


def is_brief(deck):
    """Whether the model runs a deck in seconds."""
    counts = [s.get("lattice", {}).get("count", [1]) + [s.get("random", {}).get("count", 1)] for s in deck["species"]]
    return deck["run"]["steps"] < 100 and max(map(max, counts)) < 1000


def limits(program, steps):
    """Each number of a deck at its two limits and one beyond; lists at theirs."""
    del steps
    four = [species("points", 0, points=[[0, 0, 0, 1, 2, 3]]),
            species("lattice", 0, lattice={"first": [0, 1, 2], "gap": [1, 2, 3], "count": [1, 2, 1], "v": [0, 0, 1]}),
            species("random", 0, random={"count": 2} | drawn(1, [0, 0, 0], 5)), species("pair", 0, pair={"of": "random"} | drawn(3, [1, 2, 3], 4))]
    field = {"e": [0, 0, 0], "b": [1, 2, 3], "edges": [[0, 0, 0, 0, 0]], "faces": [[1, 0, 0, 0, 5]]}
    deck = deck_of([4, 4, 4], [2, 2, 2], 2, 1, field=field, species=four)
    at_limits(program, "a deck", deck, numbers_of)
    at_limits(program, "version 2 alone", deck_of_version_2(), numbers_of_2)
    lists(program, deck)
    lists_of_2(program, deck_of_version_2())


def at_limits(program, what, deck, numbers):
    force = deck | {"scale": deck["scale"] | {"e_force": [0, 0], "b_force": [0, 0]}}
    at, beyond = Test(f"run or check, each number of {what} at either limit"), Test(f"check, each number of {what} one beyond either limit")
    for path, (low, high) in numbers(deck):
        base = force if path[0] in ("field", "drive") else deck
        for value in low, high:
            made = changed(base, path, value)
            text, word = text_of(made), "run" if is_brief(made) else "check"
            wanted = getattr(answers, word)(text)
            ended = program.call(word, given=text)
            at.case(f"{path} {value}", ended == wanted, ended, f"{word}, status {ended[0]}")
        for value in low - 1, high + 1:
            ended = program.call("check", given=text_of(changed(base, path, value)))
            fits = ended == answers.check(text_of(changed(base, path, value))) and ended[0] == 3
            beyond.case(f"{path} {value}", fits, ended, b" ".join(ended[2].split()[:3]).decode())
    at.end()
    beyond.end()


def lists_of_2(program, deck):
    test = Test("check and probe, loops, waves and probes at their limits and beyond")
    loop, probe = deck["drive"][0], deck["probe"]
    made = [changed(deck, ["drive"], [loop] * number) for number in (0, 1, 16, 17)]
    made += [changed(deck, ["drive", 0, "wave"], [n - 3 for n in range(number)]) for number in (0, 1, 64, 65)]
    made += [changed(deck, ["probe", "places"], probe["places"] * number) for number in (0, 64, 65)]
    made += [changed(deck, ["probe", "ids"], [n % 4 for n in range(number)]) for number in (0, 64, 65)]
    made += [changed(deck, ["species"], []), changed(deck, ["probe"], {}), changed(deck, ["probe"], {"ids": [3, 3, 0]})]
    for n, each in enumerate(made):
        for word in "check", "probe":
            ended, wanted = program.call(word, given=text_of(each)), getattr(answers, word)(text_of(each))
            test.case(f"deck {n}, {word}", ended == wanted, ended)
    test.end()


def lists(program, deck):
    test = Test("check, names, species, tiles, particles and the deck's length at their limits and beyond")
    names = [changed(deck, ["species", 0, "name"], "n" * length) for length in (0, 1, 32, 33)]
    one = deck["species"][0]
    kinds = [deck | {"species": [one | {"name": f"s{n}"} for n in range(count)]} for count in (0, 16, 17)]
    grids = [deck | {"grid": {"cells": cells, "tiles": tiles}} for cells, tiles in (
        ([64, 64, 64], [8, 8, 8]), ([64, 64, 64], [8, 8, 16]), ([64, 64, 64], [32, 4, 4]), ([9, 4, 4], [2, 2, 2]), ([9, 4, 4], [3, 2, 2]))]
    for n, made in enumerate(names + kinds + grids):
        ended = program.call("check", given=text_of(made))
        test.case(f"deck {n}", ended == answers.check(text_of(made)), ended)
    empty = deck | {"species": []}
    for name, source, answer in (
            ("lattice", {"first": [0, 0, 0], "gap": [7, 7, 7], "count": [1024, 1024, 1], "v": [0, 0, 0]}, (0, b"ok 1048576 particles\n", b"")),
            ("lattice", {"first": [0, 0, 0], "gap": [7, 7, 7], "count": [1024, 1025, 1], "v": [0, 0, 0]},
             (3, b"", b"refused 5 limit species[0] 1049600 0 1048576\n")),
            ("lattice", {"first": [0, 0, 0], "gap": [0, 0, 7], "count": [1, 1, 1048576], "v": [0, 0, 0]}, (0, b"ok 1048576 particles\n", b"")),
            ("random", {"count": 1048576} | drawn(1, [0, 0, 0], 0), (0, b"ok 1048576 particles\n", b""))):
        ended = program.call("check", given=text_of(empty | {"species": [species("most", 0, **{name: source})]}))
        test.case(f"{name} {source}", ended == answer, ended)
    text = text_of(empty)
    for length in 2**20 - 1, 2**20, 2**20 + 1, 2**20 + 2, 2**21:
        longer = text + b"#" * (length - len(text))
        ended = program.call("check", given=longer)
        test.case(f"{length} bytes", ended == answers.check(longer), ended)
    test.end()


GROUPS = {f.__name__: f for f in (long, wide, limits)}


def main():
    words = argparse.ArgumentParser(description=__doc__, formatter_class=argparse.RawDescriptionHelpFormatter)
    words.add_argument("--program", type=Path)
    words.add_argument("--steps", default=1000000, type=int)
    words.add_argument("groups", nargs="*", metavar="GROUP", help=", ".join(GROUPS))
    chosen = words.parse_args()
    if set(chosen.groups) - set(GROUPS):
        words.error(f"the groups are {', '.join(GROUPS)}")
    program = Program(chosen_program(chosen.program))
    for name in chosen.groups or GROUPS:
        GROUPS[name](program, chosen.steps)
    return not Test.table()


if __name__ == "__main__":
    sys.exit(main())
