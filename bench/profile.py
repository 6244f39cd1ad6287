"""Where the time of a run goes, by phases: seconds of the processor, on 1, 2 and 4 workers.

    python3 bench/profile.py [PROGRAM]      PROGRAM: a built pic (default: what ./pic built names)

A run of 9 steps of the million (bench/out/million_4.toml, which bench/run makes, with other numbers of steps) is sampled a thousand
times a second by `perf record -e cpu-clock`; loading, the first and the last frame are in it. A sample counts for the phase of the
function that it is in: what the compiler put into the push of a tile counts for the push.
"""

import re
import subprocess
import sys
import tempfile
import time
from pathlib import Path

HOME = Path(__file__).parent
PHASES = [
    ("gather, Boris's push, path, chain", r"pic_(gather|boris|split|chain)::|pic_push::(?!sending|spreading)"),
    ("flux", r"pic_flux::|pic_push::"),
    ("parcels merged", r"pic_merge::"),
    ("parcels posted, the board", r"pic_(core|crew|yard|gate)::|atomic_table::|pic_states::"),
    ("half steps of B, step of E, force values", r"pic_(field|filter|drive|advance|team)::"),
    ("cleared or copied, and the kernel", r"mem(set|cpy|move)|\[k\]"),
]
REST = "decks, loading, the first and last frame, the rest"


def phase_of(line):
    return next((name for name, pattern in PHASES if re.search(pattern, line)), REST)


def with_steps(text, steps):
    return re.sub(r"^(steps|every) = .*$", rf"\1 = {steps}", text, flags=re.MULTILINE)


def sampled(program, deck, workers):
    """Seconds by the clock, and by phase the seconds of the processor."""
    with tempfile.TemporaryDirectory() as folder:
        data = f"{folder}/perf.data"
        begin = time.monotonic()
        subprocess.run(["perf", "record", "-q", "-e", "cpu-clock", "-F", "1000", "-o", data,
                        program, "run", "--workers", str(workers)],
                       input=deck.encode(), stdout=subprocess.DEVNULL, stderr=subprocess.DEVNULL, check=True)
        clock = time.monotonic() - begin
        report = subprocess.run(["perf", "report", "-i", data, "--stdio", "-g", "none", "-F", "sample,dso,symbol"],
                                capture_output=True, text=True, check=True).stdout
    seconds = dict.fromkeys([name for name, _ in PHASES] + [REST], 0.0)
    for line in report.splitlines():
        found = re.match(r"\s*(\d+)\s", line)
        if found:
            seconds[phase_of(line)] += int(found.group(1)) / 1000
    return clock, seconds


def main():
    program = sys.argv[1] if len(sys.argv) > 1 else subprocess.check_output([HOME.parent / "pic", "built"], text=True).strip()
    deck = with_steps((HOME / "out/million_4.toml").read_text(), 9)
    runs = [sampled(program, deck, workers) for workers in (1, 2, 4)]
    print("| | 1 worker | 2 | 4 |\n|---|---|---|---|")
    for name in runs[0][1]:
        print(f"| {name} | " + " | ".join(f"{seconds[name]:.2f}" for _, seconds in runs) + " |")
    print("| all, seconds of the processor | " + " | ".join(f"{sum(s.values()):.2f}" for _, s in runs) + " |")
    print("| by the clock | " + " | ".join(f"{clock:.2f}" for clock, _ in runs) + " |")


if __name__ == "__main__":
    main()
