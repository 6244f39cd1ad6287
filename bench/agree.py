"""Holds exact.c against the second model of the scheme, examples/compare.py, on its random decks, most of which stop.

    python3 bench/agree.py COUNT [sources]      after bench/run has built exact.c

Reports and exit statuses are compared; decks that are refused are left out. The exit status is 0 where all agree.
"""

import subprocess
import sys
import tomllib
from collections import Counter

from decks import HOME, plain_text

sys.path.insert(0, str(HOME / "examples"))
from compare import Model
from random_decks import random_deck


def main(count, kind=""):
    ends, differ = Counter(), 0
    for number in range(count):
        text = random_deck(number, kind)
        status, _, report = Model(text).run()
        if status == 3:
            ends["refused"] += 1
            continue
        given = plain_text(tomllib.loads(text)).encode()
        exact = subprocess.run([HOME / "bench" / "out" / "exact"], input=given, capture_output=True)
        last = report.splitlines()[-1].split()
        ends["done" if status == 0 else f"stopped {last[2].decode()}"] += 1
        if (exact.returncode, exact.stdout) != (status, report):
            differ += 1
            print(f"deck {number}: {exact.stdout[-100:]!r} and {report[-100:]!r}")
    print(f"{differ} of {count} differ; " + ", ".join(f"{times} {end}" for end, times in sorted(ends.items())))
    return differ > 0


if __name__ == "__main__":
    sys.exit(main(int(sys.argv[1]), *sys.argv[2:]))
