"""Runs in parts: dumps that `resume` goes on from, held against the run in one, byte for byte: dump, report and status.

    python3 tools/parts.py [--program PROGRAM] [--random COUNT] [--kind KIND] [--steps STEPS] [GROUP ..]

The groups are decks, random, refused, mended and long; without one all of them. A run is cut at one to three steps, and each part has
a tiling and a number of workers of its own. COUNT (300) is the number of random decks, of both versions or of one KIND of those that
examples/compare.py has, whose runs are also held against the model (there for a run, tools/answers.py for a part). `mended` cuts dumps
at 200 places each, and wants numpy. STEPS (1000000) are those of the longest run, in ten parts. A table is printed at the end; the exit
status is 0 where all agree.
"""

import argparse
import random
import re
import sys
import tempfile
import time
from pathlib import Path

import answers
from long import deck_of, species, text_of
from program import HOME, Program, Run, Test, chosen_program, with_steps

sys.path[:0] = [str(HOME / "examples"), str(HOME / "python")]
from compare import Model
from random_decks import KINDS, random_deck

WORKERS = 1, 2, 3, 5, 64
MOST_TILES = 512
PLACES = 200


def cells_of(deck):
    return [int(n) for n in re.search(r"(?m)^cells = \[(\d+), (\d+), (\d+)\]", deck).groups()]


def tiling(dice, cells):
    """A tiling of a grid, at random."""
    while True:
        tiles = [dice.choice([t for t in range(1, n // 2 + 1) if n % t == 0]) for n in cells]
        if tiles[0] * tiles[1] * tiles[2] <= MOST_TILES:
            return tiles


def resume_words(steps, tiles, workers):
    cut = [f"--tiles-{axis}={n}" for axis, n in zip("xyz", tiles)]
    return ["resume", "--steps", str(steps), "--workers", str(workers), *cut]


def resumed(program, dice, cells, steps, given):
    """A part: `resume` in some tiling on some workers."""
    return program.call(*resume_words(steps, tiling(dice, cells), dice.choice(WORKERS)), given=given)


def cuts_of(dice, steps):
    """Where a run is cut, once to three times: the first place is before its last step."""
    first = dice.randrange(steps)
    return [first, *sorted(dice.randint(first, steps) for _ in range(dice.randint(0, 2)))]


def in_parts(program, dice, deck, steps):
    """A deck's run of so many steps in parts: where it was cut, and how the last part ended."""
    cells, cuts = cells_of(deck), cuts_of(dice, steps)
    ended = program.call("run", "--workers", str(dice.choice(WORKERS)), given=with_steps(deck, cuts[0]).encode())
    for step in [*cuts[1:], steps]:
        ended = resumed(program, dice, cells, step, ended[1])
    return cuts, ended


def decks(program, chosen):
    dice = random.Random(3)
    for path in sorted((HOME / "decks").glob("*.toml")):
        deck = path.read_text()
        steps = max(2, int(re.search(r"(?m)^steps = (\d+)", deck)[1]))
        whole = program.call("run", given=with_steps(deck, steps).encode())
        test = Test(f"run and resume, {path.name}, {steps} steps, cut once to three times")
        for _ in range(6):
            cuts, ended = in_parts(program, dice, deck, steps)
            test.case(f"cut at {cuts}", ended == whole, ended)
        test.end()


def random_case(program, number, kind):
    """A random deck in parts: whether all is as the model says, how it ended, and a name."""
    kind = kind or ("", *KINDS)[number % (len(KINDS) + 1)]
    deck, dice = random_deck(number, kind), random.Random(number)
    steps = int(re.search(r"(?m)^steps = (\d+)", deck)[1])
    whole = Model(deck).run()
    if whole[0] == 3 or steps == 0:
        return True, (None, b"", b""), "refused by `run`" if whole[0] == 3 else "no steps"
    cuts, ended = in_parts(program, dice, deck, steps)
    before = Model(with_steps(deck, cuts[-1])).run()
    fits = ended == whole == answers.resume(before[1], steps, tiling(dice, cells_of(deck)))
    return fits, ended, f"status {ended[0]}"


def randoms(program, chosen):
    test = Test("run and resume, random decks of both versions, cut once to three times")
    for number, (fits, ended, word) in program.each(
            lambda number: random_case(program, number, chosen.kind), range(chosen.random)):
        test.case(f"deck {number}", fits, ended, word)
    test.end()


def refused(program, chosen):
    """Each number of tiles on each axis, and steps around those of the dump, each held against the model."""
    dice = random.Random(4)
    for name in "two_charges", "two_charges_fine", "two_charges_filtered":
        run, test = Run(program, name), Test(f"resume, the dump of {name}.toml, with steps and tiles within limits and beyond")
        calls = [(steps, [1, 1, 1]) for steps in (0, 1, 2, 3, 7)]
        calls += [(dice.randint(0, 2), [n if a == axis else 1 for a in range(3)]) for axis in range(3) for n in range(1, 65)]
        calls += [(1, [dice.randint(1, 3) for _ in range(3)]) for _ in range(30)]
        for steps, tiles in calls:
            ended = program.call(*resume_words(steps, tiles, 2), given=run.dump)
            test.case(f"{steps} steps, tiles {tiles}", ended == answers.resume(run.dump, steps, tiles), ended)
        test.end()
    wide = deck_of([64, 64, 64], [1, 1, 1], 3, 3)
    header = program.call("run", given=text_of(wide))[1][:64]
    test = Test("resume, the header of 64 by 64 by 64 cells alone, with tiles within limits and beyond")
    for tiles in [8, 8, 8], [8, 8, 16], [32, 4, 4], [32, 32, 1], [32, 32, 32], [33, 1, 1], [1, 3, 1], [64, 3, 3]:
        ended = program.call(*resume_words(1000000, tiles, 1), given=header)
        test.case(f"tiles {tiles}", ended == answers.resume(header, 1000000, tiles), ended)
    test.end()


def mended(program, chosen):
    """A dump that is cut at some place, mended, and gone on with is the whole one."""
    from pictools.mend import mend

    dice = random.Random(5)
    with tempfile.TemporaryDirectory() as folder:
        path = Path(folder) / "cut.dump"
        for name in "two_charges", "two_charges_fine", "two_charges_filtered", "cold_oscillation", "antenna":
            run = Run(program, name)
            deck = with_steps(run.deck.decode(), 40, 3)
            whole = program.call("run", given=deck.encode())
            test = Test(f"mend and resume, {name}.toml, 40 steps, every third kept, the dump cut at {PLACES} places")
            for length in dice.sample(range(len(whole[1])), PLACES):
                path.write_bytes(whole[1][:length])
                try:
                    mend(path)
                except ValueError:
                    fits = path.read_bytes() == whole[1][:length] and length < run.frame_ends[0]
                    test.case(f"{length} bytes", fits, whole, "no frame is whole")
                    continue
                ended = resumed(program, dice, cells_of(deck), 40, path.read_bytes())
                test.case(f"{length} bytes", ended == whole, ended)
            test.end()


def long(program, chosen):
    """Two electrons and two ions in light on the smallest grid, for a long time, in one and in ten parts."""
    rows = [[5000, 100, 8191, 300000, -200000, 7], [1, 4096, 2048, -100000, 0, 250000]]
    faces = [[2, 0, 0, 0, 900000000000], [0, 1, 1, 0, -700000000000]]
    still = [row[:3] + [0, 0, 0] for row in rows]
    both = [species("electron", -1, points=rows), species("ion", 1, points=still)]
    field, steps = {"b": [0, 0, 400000000000], "faces": faces}, chosen.steps

    def deck(last):
        return text_of(deck_of([2, 2, 2], [1, 1, 1], last, max(1, steps // 7), field=field, species=both))

    test, since = Test(f"{steps} steps on 2 by 2 by 2 cells, 4 particles, in one run and in ten parts"), time.monotonic()
    whole = program.call("run", given=deck(steps))
    between = time.monotonic()
    cuts = [steps * n // 10 for n in range(1, 11)]
    ended = program.call("run", given=deck(cuts[0]))
    for step in cuts[1:]:
        ended = program.call(*resume_words(step, [1, 1, 1], 1), given=ended[1])
    last = time.monotonic()
    test.case("ten parts", ended == whole, ended)
    test.end()
    print(f"in one run {between - since:.1f} s, in ten parts {last - between:.1f} s", file=sys.stderr)


GROUPS = {"decks": decks, "random": randoms, "refused": refused, "mended": mended, "long": long}


def main():
    words = argparse.ArgumentParser(description=__doc__, formatter_class=argparse.RawDescriptionHelpFormatter)
    words.add_argument("--program", type=Path)
    words.add_argument("--jobs", default=2, type=int, help="calls at once (default: 2)")
    words.add_argument("--random", default=300, type=int, metavar="COUNT")
    words.add_argument("--kind", default="", choices=KINDS)
    words.add_argument("--steps", default=1000000, type=int)
    words.add_argument("groups", nargs="*", metavar="GROUP", help=", ".join(GROUPS))
    chosen = words.parse_args()
    if set(chosen.groups) - set(GROUPS):
        words.error(f"the groups are {', '.join(GROUPS)}")
    program = Program(chosen_program(chosen.program), chosen.jobs)
    for name in chosen.groups or GROUPS:
        GROUPS[name](program, chosen)
    return not Test.table()


if __name__ == "__main__":
    sys.exit(main())
