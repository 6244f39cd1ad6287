"""What a run of `pic` costs as it grows: time a particle-step and a cell-step, memory, and the steps of one long run.

    python3 bench/growth.py [PROGRAM [ROUNDS]]      PROGRAM: a built pic (default: what ./pic built names); ROUNDS: how often each is run (default: 3)

The plasma is that of the demonstration: half electrons, half ions that stand on them, at random. A step's time is the difference of
two runs with different numbers of steps, each the least of its rounds, divided by the difference of the numbers, so loading
and frames don't count. Memory is the most that the process had at once (resident), of the run with more steps, less that of a run of
the least grid. It prints tables; nothing is judged. Where the machine is shared, QUIET=30 in the environment keeps the runs before and
behind which its last cache was free, as for bench/run, which is called first.
"""

import os
import re
import subprocess
import sys
import tempfile
import time
from pathlib import Path

HOME = Path(__file__).parents[1]
DECK = (HOME / "decks" / "demo_7.toml").read_text()
# cells an axis, cells a tile's axis, particles, steps less steps
SIZES = [
    (16, 8, 10_000, 20, 420), (16, 8, 100_000, 4, 44), (16, 8, 1_000_000, 1, 5),
    (32, 8, 10_000, 10, 110), (32, 8, 100_000, 4, 44), (32, 8, 1_000_000, 1, 5),
    (64, 8, 10_000, 2, 22), (64, 8, 100_000, 2, 22), (64, 8, 1_000_000, 1, 5),
    (64, 16, 524_288, 1, 7), (128, 16, 4_194_304, 1, 4),
]
FIELDS = [(16, 8, 100, 2100), (32, 8, 20, 320), (64, 8, 4, 44), (64, 16, 4, 44), (128, 16, 1, 7)]
WORKERS = (1, 2, 4)
MOST_CELLS_OF_VERSION_1 = 64
QUIET = os.environ.get("QUIET")
TRIES = 600


def deck(cells, tile, particles, steps, every=1_000_000):
    """The demonstration's plasma on a grid of its own, or its fields alone."""
    text = DECK.replace("[16, 16, 16]", str([cells] * 3)).replace("[4, 4, 4]", str([cells // tile] * 3))
    text = text.replace("steps = 16", f"steps = {steps}").replace("every = 4", f"every = {every}")
    if cells > MOST_CELLS_OF_VERSION_1:
        text = text.replace("version = 1", "version = 2").replace("[grid]", "[grid]\nsub = 12")
    if particles == 0:
        return text.split("[[species]]")[0] + "[field]\nfaces = [[2, 0, 0, 0, 1000003]]\n"
    return text.replace("count = 8192", f"count = {particles // 2}")


def run(program, text, workers):
    """Processor seconds, seconds by the clock, and KiB of memory at the most."""
    with tempfile.TemporaryFile() as given, open(os.devnull, "w") as none:
        given.write(text.encode())
        given.seek(0)
        began = time.monotonic()
        started = subprocess.Popen([program, "run", "--workers", str(workers)], stdin=given, stdout=none, stderr=none)
        _, status, used = os.wait4(started.pid, 0)
        passed = time.monotonic() - began
    if status:
        sys.exit(f"bench/growth.py: the program ended with status {os.waitstatus_to_exitcode(status)}")
    return used.ru_utime + used.ru_stime, passed, used.ru_maxrss


def is_free():
    """Whether a line through 4 MB takes no longer than QUIET asks for, in nanoseconds."""
    if QUIET is None:
        return True
    return int(subprocess.run([HOME / "bench" / "out" / "lines"], capture_output=True, check=True).stdout) <= int(QUIET)


def kept_run(program, text, workers):
    """The first run before and behind which the last cache is free."""
    for _ in range(TRIES):
        if is_free():
            found = run(program, text, workers)
            if is_free():
                return found
        time.sleep(1)
    sys.exit("bench/growth.py: the machine's last cache isn't free")


def least(program, text, workers, rounds):
    return [min(each) for each in zip(*(kept_run(program, text, workers) for _ in range(rounds)))]


def a_step(program, cells, tile, particles, few, many, workers, rounds):
    """Processor and clock seconds a step, and the most memory in KiB."""
    first = least(program, deck(cells, tile, particles, few), workers, rounds)
    last = least(program, deck(cells, tile, particles, many), workers, rounds)
    return [(b - a) / (many - few) for a, b in zip(first[:2], last[:2])] + [last[2]]


def sizes(program, rounds):
    base = least(program, deck(2, 1, 0, 1).replace("tiles = [2, 2, 2]", "tiles = [1, 1, 1]"), 1, rounds)[2]
    print("| cells | particles | workers | ms a step | processor, ns a particle-step | memory, MB | bytes a particle and cell |")
    print("|---|---|---|---|---|---|---|")
    for cells, tile, particles, few, many in SIZES:
        for workers in WORKERS:
            busy, passed, room = a_step(program, cells, tile, particles, few, many, workers, rounds)
            each = (room - base) * 1024 / (particles + cells**3)
            print(f"| {cells}^3 in tiles of {tile}^3 | {particles} | {workers} | {1000 * passed:.2f} | {1e9 * busy / particles:.0f} "
                  f"| {room * 1024 / 1e6:.0f} | {each:.0f} |", flush=True)
    print("\n| cells, fields alone | workers | ms a step | processor, ns a cell-step | memory, MB | bytes a cell |\n|---|---|---|---|---|---|")
    for cells, tile, few, many in FIELDS:
        for workers in WORKERS:
            busy, passed, room = a_step(program, cells, tile, 0, few, many, workers, rounds)
            print(f"| {cells}^3 in tiles of {tile}^3 | {workers} | {1000 * passed:.2f} | {1e9 * busy / cells**3:.0f} "
                  f"| {room * 1024 / 1e6:.0f} | {(room - base) * 1024 / cells**3:.0f} |", flush=True)


def long_run(program, cells, tile, particles, steps, every):
    """By the clock, from one line of the report to the next: steps and their frame."""
    with tempfile.TemporaryFile() as given, open(os.devnull, "w") as none:
        given.write(deck(cells, tile, particles, steps, every).encode())
        given.seek(0)
        started = subprocess.Popen([program, "run"], stdin=given, stdout=none, stderr=subprocess.PIPE, text=True)
        marks = [(int(found[1]), time.monotonic()) for found in (re.match(r"frame (\d+) ", line) for line in started.stderr) if found]
        started.wait()
    print(f"\n| steps of one run, {particles} particles on {cells}^3 cells, one worker | ms a step, with a frame every {every} |\n|---|---|")
    for (first, began), (last, ended) in zip(marks, marks[1:]):
        print(f"| {first + 1} to {last} | {1000 * (ended - began) / (last - first):.2f} |")


def main():
    program = sys.argv[1] if len(sys.argv) > 1 else subprocess.check_output([HOME / "pic", "built"], text=True).strip()
    rounds = int(sys.argv[2]) if len(sys.argv) > 2 else 3
    print(f"load {os.getloadavg()[0]:.1f} at the start; the least of {rounds}\n")
    sizes(program, rounds)
    long_run(program, 32, 8, 131_072, 1000, 100)
    print(f"\nload {os.getloadavg()[0]:.1f} at the end")


if __name__ == "__main__":
    main()
