"""What driven loops and probes cost a step, in instructions: the same whatever else the machine does.

    python3 bench/devices.py [PROGRAM]      PROGRAM: a built pic (default: what ./pic built names)

A step is half the difference of two runs, of 2 and of 4 steps, under valgrind's callgrind: fields alone at 32^3 cells without loops and
with 16 of 64 numbers each, and a hundred thousand particles there by `run` without frames between and by `probe` with 64 places and 64
particles, all on one worker. It needs valgrind, and some minutes.
"""

import re
import subprocess
import sys
import tempfile
from pathlib import Path

HOME = Path(__file__).parents[1]
DECK = """version = 2
grid = {{ cells = [32, 32, 32], tiles = [4, 4, 4], sub = 12 }}
run = {{ steps = {steps}, every = 1000000 }}
scale = {{ e_to_b = [1, 4], b_to_e = [1, 1], e_force = [1, 30], b_force = [1, 30] }}
field = {{ faces = [[2, 3, 1, 0, 55555555555555]] }}
"""
DRAWN = "seed = 7, stream = 54, drift = [0, 0, 0]"
SPECIES = f"""[[species]]
name = "electron"
charge = -1
mass = 1
kick = [-1, 2]
turn = [-1, 0]
random = {{ count = 50000, {DRAWN}, spread = [1048576, 1048576, 1048576] }}
[[species]]
name = "ion"
charge = 1
mass = 1836
kick = [1, 10]
turn = [1, 10]
pair = {{ of = "electron", {DRAWN}, spread = [16384, 16384, 16384] }}
"""
LOOPS = "".join(f"[[drive]]\naxis = {n % 3}\ncell = [{2 * n}, {31 - n}, {n}]\nwave = {[10**9 * (m - n) for m in range(64)]}\n" for n in range(16))
PROBES = f"[probe]\nplaces = {[[n % 2, n % 3, n // 2, 7, n // 4] for n in range(64)]}\nids = {[1500 * n for n in range(64)]}\n"


def instructions(program, word, text):
    with tempfile.TemporaryDirectory() as folder:
        words = ["valgrind", "--tool=callgrind", f"--callgrind-out-file={folder}/out", program, word]
        said = subprocess.run(words, input=text.encode(), stdout=subprocess.DEVNULL, stderr=subprocess.PIPE, check=True).stderr
    return int(re.search(rb"Collected : (\d+)", said)[1])


def a_step(program, word, more):
    few, many = (instructions(program, word, DECK.format(steps=steps) + more) for steps in (2, 4))
    return (many - few) // 2


def compare(name, before, now):
    print(f"| {name} | {before} | {now} | {100 * (now - before) / before:+.2f} % |", flush=True)


def main():
    program = sys.argv[1] if len(sys.argv) > 1 else subprocess.check_output([HOME / "pic", "built"], text=True).strip()
    print("| a step at 32^3 cells | instructions without | with | more |\n|---|---|---|---|")
    compare("fields alone, 16 loops", a_step(program, "run", ""), a_step(program, "run", LOOPS))
    plain = a_step(program, "run", SPECIES)
    compare("100000 particles, a line of the step alone", plain, a_step(program, "probe", SPECIES))
    compare("100000 particles, 64 places and 64 tracers", plain, a_step(program, "probe", SPECIES + PROBES))


if __name__ == "__main__":
    main()
