"""Decks and dumps made at random, each given to pic and to a model of its own beside it.

    python3 tools/fuzz.py --minutes M [--jobs N] [--seed S] [--program PROGRAM]

Decks come from a grammar, whole or with some value, key or list another; some then have bytes flipped, cut or doubled. Dumps are those
of the model's runs, and such as are made field by field, with fields or bytes another. `check` and `verify` are called on each, and
`run`, `probe` and `resume` where the model does the steps in moments, on 1 to 64 workers. Status, standard output and standard error have to be
those of tools/answers.py, byte for byte. Printed are the counts by kind of answer, how many calls differ, and how many have an answer
without a cause. A case is found again by its seed and number (--only NUMBER writes its input to standard output). The exit status is 0
where none differs. A text that Python's reader refuses and pic's doesn't is no difference where it has forms of TOML 1.1; it is
counted.
"""

import argparse
import random
import sys
import time
from collections import Counter
from multiprocessing import Process, Queue
from pathlib import Path

import answers
import forms
from program import Program, chosen_program
from verdicts import MOST_STEPS, Bad, Broken, Dump

MOST_WORK, MOST_PARTICLES = 20000, 3000
WORKERS = "1", "2", "3", "5", "64"


def case_of(seed, number):
    """What a case is: its dice, `deck` or `dump`, and the bytes."""
    dice = random.Random(f"{seed} {number}")
    kind = dice.choice(["deck"] * 3 + ["dump"])
    if kind == "dump":
        return dice, kind, forms.dump(dice)
    deck = forms.deck(dice)
    if dice.random() < 0.5:
        deck = forms.bent(dice, deck)
    text = forms.spelled(dice, deck)
    return dice, kind, forms.damaged(dice, text) if dice.random() < 0.3 else text


def work_of(deck):
    """How much work a run of a deck is for the model, and the number of its particles; none where it is refused."""
    try:
        found, count = answers.walk(deck)
    except answers.Refused:
        return 0, 0
    cells = found["grid"]["cells"]
    return (cells[0] * cells[1] * cells[2] + 10 * count) * (1 + found["run"]["steps"]), count


def kind_of(word, ended):
    """The kind of an answer: its words without numbers."""
    status, out, report = ended
    last = (out if word == "probe" and status < 2 else report or out).splitlines()[-1:] or [b""]
    words = last[0].decode(errors="replace").split()
    if words[:2] == ["bad", "dump"]:
        return f"{word}: bad dump, cause {words[3]}"
    if words[:1] == ["refused"]:
        return f"{word}: {' '.join(words[:3])}"
    return f"{word}: {' '.join(w for w in words[:5] if w.isalpha() or w in ('half1', 'half2')) or f'status {status}'}"


def resumes_of(dice, given):
    """A call of `resume` with a dump, where the model goes on from it in moments: words, and the answer of the model."""
    dump, last = Dump(given), None
    steps, tiles = dice.choice([0, 1, 7, MOST_STEPS]), [dice.choice([1, 2, 3, 64]) for _ in range(3)]
    try:
        dump.header()
        steps = min(max(dump.steps + dice.choice([0, 0, 1, 2, 5, 5, -1]), 0), MOST_STEPS)
        if dice.random() < 0.9:
            tiles = [dice.choice([t for t in range(1, n // 2 + 1) if n % t == 0]) for n in dump.cells]
        last = list(dump.frames())[-1]
    except (Bad, Broken):
        pass
    if last is not None and (len(dump.electric[0]) + 10 * len(dump.particles)) * (steps - last) > MOST_WORK:
        return
    cut = [f"--tiles-{axis}={n}" for axis, n in zip("xyz", tiles)]
    yield ["resume", "--steps", str(steps), "--workers", dice.choice(WORKERS), *cut], answers.resume(given, steps, tiles)


def calls_of(dice, kind, given):
    """The calls of a case: words, and the answer of the model."""
    if kind == "dump":
        yield ["verify"], answers.verify(given)
        yield from resumes_of(dice, given)
        return
    work, count = work_of(given)
    if count <= MOST_PARTICLES:
        yield ["check"] if dice.random() < 0.9 else [], answers.check(given)
    if work <= MOST_WORK:
        yield ["run", "--workers", dice.choice(WORKERS)], answers.run(given)
        if dice.random() < 0.3:
            yield ["probe", "--workers", dice.choice(WORKERS)], answers.probe(given)


def tried(program, seed, number, counts):
    """Tries a case, counts its answers, and gives what differs."""
    dice, kind, given = case_of(seed, number)
    for words, wanted in calls_of(dice, kind, given):
        ended, word = program.call(*words, given=given), words[0] if words else "check"
        counts[kind_of(word, ended)] += 1
        if answers.has_no_cause(word, ended):
            counts["no cause"] += 1
            yield number, words, "has no cause", ended, wanted
        elif ended != wanted and wanted[2] == b"refused 1 text\n" and answers.is_newer(given):
            counts["excused: forms of TOML 1.1"] += 1
        elif ended != wanted:
            counts["different"] += 1
            yield number, words, "differs", ended, wanted


def job(path, seed, first, by, until, found):
    counts, number = Counter(), first
    program = Program(path)
    while time.monotonic() < until:
        counts["cases"] += 1
        for difference in tried(program, seed, number, counts):
            found.put(difference)
        number += by
    found.put(counts)


def told(difference):
    number, words, what, ended, wanted = difference
    print(f"case {number}, {' '.join(words)}, {what}: pic {ended[0]} {ended[1][-80:]!r} {ended[2][-120:]!r}, "
          f"the model {wanted[0]} {wanted[1][-80:]!r} {wanted[2][-120:]!r}", flush=True)


def fuzz(path, minutes, jobs, seed):
    found, counts = Queue(), Counter()
    until = time.monotonic() + 60 * minutes
    running = [Process(target=job, args=(path, seed, n, jobs, until, found)) for n in range(jobs)]
    for process in running:
        process.start()
    ended = 0
    while ended < jobs:
        item = found.get()
        if isinstance(item, Counter):
            counts, ended = counts + item, ended + 1
        else:
            told(item)
    return counts


def main():
    words = argparse.ArgumentParser(description=__doc__, formatter_class=argparse.RawDescriptionHelpFormatter)
    words.add_argument("--program", type=Path)
    words.add_argument("--minutes", default=1, type=float)
    words.add_argument("--jobs", default=2, type=int)
    words.add_argument("--seed", default="1")
    words.add_argument("--only", type=int, metavar="NUMBER")
    chosen = words.parse_args()
    if chosen.only is not None:
        sys.stdout.buffer.write(case_of(chosen.seed, chosen.only)[2])
        return 0
    counts = fuzz(chosen_program(chosen.program), chosen.minutes, chosen.jobs, chosen.seed)
    cases, different, none = (counts.pop(name, 0) for name in ("cases", "different", "no cause"))
    print("| answer | calls |\n|---|---|")
    for kind in sorted(counts):
        print(f"| {kind} | {counts[kind]} |")
    print(f"\nseed {chosen.seed}, {cases} cases, {sum(counts.values())} calls, {different} different, {none} without a cause")
    return different + none > 0


if __name__ == "__main__":
    sys.exit(main())
