"""The note beside a dump: of which deck, seed and program it is. It stands in `DUMP.json`; pictures name what it says, where the
dump is still the one that it was written for.
"""

from __future__ import annotations

import hashlib
import json
import platform
import re
import sys
import tomllib
from pathlib import Path
from typing import Any

import numpy as np

from pictools import files
from pictools.dump import Dump, Frame
from pictools.program import HOME, known

SHORT = 12                  # digits of a checksum on a picture
MAKER = "python3 -m pictools deck "


def path_of(dump: str) -> str:
    """Where a dump's note stands."""
    return f"{dump}.json"


def read_deck(text: bytes) -> dict[str, Any]:
    """A deck's tables; none of a text that is no document, which the program refuses."""
    try:
        return tomllib.loads(text.decode())
    except (ValueError, RecursionError):
        return {}


def run_number(text: bytes, key: str) -> int:
    """A number of a deck's table `run`; 0 where the program refuses the deck."""
    try:
        return int(read_deck(text)["run"][key])
    except (LookupError, TypeError, ValueError):
        return 0


def tiles(text: bytes) -> list[int]:
    """A deck's tiles, which a dump doesn't have; one of a deck that the program refuses."""
    try:
        return [int(n) for n in read_deck(text)["grid"]["tiles"]]
    except (LookupError, TypeError, ValueError):
        return [1, 1, 1]


def seeds(text: bytes) -> list[int]:
    """The seeds of a deck's species, or that of the maker where it drew and listed them; of a deck that is refused none."""
    try:
        species = read_deck(text).get("species", [])
        drawn = {int(one[kind]["seed"]) for one in species for kind in ("random", "pair") if kind in one}
    except (LookupError, TypeError, ValueError):
        return []
    made = made_by(text)
    if not drawn and "--start random" in made:
        drawn = {int((re.search(r"--seed (\d+)", made) or [0, 1])[1])}
    return sorted(drawn)


def made_by(text: bytes) -> str:
    """The command that made a deck, which the maker leaves in its comment; or nothing."""
    lines = [line[2:] for line in text.decode("utf-8", "replace").splitlines() if line.startswith("# " + MAKER)]
    return lines[0] if lines else ""


def versions() -> dict[str, str]:
    """Of this package, of Python and of numpy."""
    from importlib.metadata import PackageNotFoundError, version
    try:
        own = version("pictools")
    except PackageNotFoundError:
        project = HOME / "python" / "pyproject.toml"
        own = tomllib.loads(project.read_text())["project"]["version"] if project.is_file() else "not installed"
    return {"pictools": own, "python": platform.python_version(), "numpy": np.__version__}


def begun(name: str, text: bytes, program: str, workers: int) -> dict[str, Any]:
    """The note of a run of the deck `text`, which stood in the file `name`, as far as it is known at the start."""
    deck = {"file": name, "sha256": hashlib.sha256(text).hexdigest(), "made by": made_by(text), "seeds": seeds(text)}
    return {"deck": deck, "program": known(program), "versions": versions(), "workers": workers, "command": sys.argv,
            "deck text": text.decode("utf-8", "replace").splitlines()}


def goes_on(note: dict[str, Any], before: dict[str, Any]) -> dict[str, Any]:
    """The note of a call that goes on with the run of an earlier one: it keeps what that one's note said of itself, and of those
    before it."""
    kept = ("program", "versions", "workers", "command", "end", "mended after", "seconds")
    return note | {"first": before["first"],
                   "earlier calls": [*before.get("earlier calls", []), {name: before[name] for name in kept if name in before}]}


def write(dump: str, note: dict[str, Any]) -> None:
    """Puts a note beside its dump; the deck's text, which may be long, comes last."""
    last = {"deck text": note["deck text"]}
    with files.written(path_of(dump)) as place:
        Path(place).write_text(json.dumps({n: note[n] for n in note if n not in last} | last, indent=1) + "\n", encoding="utf-8")


def line_of(frame: Frame) -> str:
    """The report's line of a frame."""
    return "frame {} kinetic {} electric {} magnetic {}".format(frame.step, *frame.energies)


def read(dump: Dump) -> dict[str, Any] | None:
    """The note of a dump; None where there is none, or where it was written for another: its first frame is another one, or, once
    its run had ended, its last."""
    try:
        note = json.loads(Path(path_of(dump.path)).read_text(encoding="utf-8"))
        first, last = note["first"], note.get("last")
    except (OSError, ValueError, KeyError, TypeError):
        return None
    return note if len(dump) and first == line_of(dump[0]) and last in (None, line_of(dump[-1])) else None


def said(dump: Dump) -> str:
    """What a picture says of where its dump comes from; nothing without a note."""
    note = read(dump)
    if note is None:
        return ""
    deck, program = note["deck"], note["program"]
    drawn = f", seed {' and '.join(map(str, deck['seeds']))}" if deck["seeds"] else ""
    which = f"pic {program.get('version', 'of these sources')} {program['sha256'][:SHORT]}"
    return f"{Path(dump.path).name}: deck {deck['file']} {deck['sha256'][:SHORT]}{drawn}, {which}"
