"""Many runs: a scan over choices of a plasma, to a table, by any engine that offers a concurrent.futures.Executor.

    many = planned({"wave": [2, 3, 4]}, "growth.csv", plasma_frequency=0.1, drift=0.1, wave_speed=0.002)
    rows = many.run()

A run is known by the command that makes its deck, by what is measured and by the program's checksum; the table is written
anew, whole, with each row that comes. So a scan that was cut off goes on where it stood when it is called again, and one to
which values are added runs these alone. Dumps aren't kept unless they are asked for: a deck and a program make the same dump
each time, and the row has its checksum.
"""

from __future__ import annotations

import csv
import os
import signal
import subprocess
from collections.abc import Callable, Iterable, Iterator
from concurrent.futures import Executor, ProcessPoolExecutor, as_completed
from dataclasses import dataclass
from itertools import product
from pathlib import Path
from typing import Any

import numpy as np

from pictools import advice, expect, explain, files, measure, units
from pictools.deck import DeckError
from pictools.dump import Dump
from pictools.limits import command, spoken
from pictools.plasma import Plasma
from pictools.program import checksum, program
from pictools.progress import bar
from pictools.views import against, number_of

KNOWN_BY = ("command", "quantity", "program_sha256")
COLUMNS = ("measured", "error", "theory", "reason", "end", "deck", "deck_sha256", "dump_sha256", *KNOWN_BY)
Row = dict[str, str]
GOES_ON = "what was done stands in it, and the same command goes on"


@dataclass(frozen=True)
class Quantity:
    """What is measured of each run: its `kind` is one of KINDS; the wave and the component are those of the start where they are
    None, and a fit goes from the step `first` to `last`, or finds its own window."""

    kind: str = "growth"
    wave: int | None = None
    component: str | None = None
    first: int | None = None
    last: int | None = None

    def __str__(self) -> str:
        parts = (("of wave", self.wave), ("of", self.component), ("from", self.first), ("to", self.last))
        return " ".join([self.kind, *(f"{word} {value}" for word, value in parts if value is not None)])

    def wave_of(self, plasma: Plasma) -> int:
        """The wave of the start, or all electrons together where they are displaced, which is the wave 0."""
        return (plasma.wave or (0 if plasma.displace else 1)) if self.wave is None else self.wave

    def component_of(self, plasma: Plasma) -> str:
        """E along the wave, or along the way of electrons that are displaced, or where electrons drift across the wave B across both."""
        if self.component or plasma.displace and not self.wave_of(plasma):
            return self.component or "e" + plasma.displace_axis
        a = "xyz".index(plasma.wave_axis)
        return "b" + "xyz"[3 - a - "xyz".index(plasma.drift_axis)] if plasma.crosses else "e" + plasma.wave_axis

    def signal(self, dump: Dump, plasma: Plasma) -> np.ndarray:
        """The heights of the wave over the frames; of the wave 0 the means of the box."""
        if not self.wave_of(plasma):
            return measure.waves(dump, self.component_of(plasma), plasma.wave_axis)[:, 0]
        return measure.heights(dump, self.component_of(plasma), [self.wave_of(plasma)], plasma.wave_axis)[0]

    def frames(self, dump: Dump) -> tuple[int, int] | None:
        return measure.between(dump.steps, self.first, self.last)

    def theory(self, plasma: Plasma) -> float | None:
        """What theory says of the wave at the start, or of all electrons together; None where another is measured."""
        if self.kind == "frequency" and not self.wave_of(plasma):
            return advice.swing(plasma)
        w = plasma.wave_frequency if plasma.wave and self.wave in (None, plasma.wave) else None
        return None if w is None or self.kind == "heating" else float({"growth": w.imag, "damping": -w.imag,
                                                                       "frequency": abs(w.real)}[self.kind])


def growth(dump: Dump, plasma: Plasma, asked: Quantity) -> tuple[float, float | None, float | None]:
    """The growth rate of a wave, its error, and theory's."""
    fit = measure.growth(dump.steps, abs(asked.signal(dump, plasma)), asked.frames(dump))
    theirs = expect.growth(dump, asked.component_of(plasma), asked.wave_of(plasma), plasma.wave_axis)
    return fit.rate, fit.error, theirs and theirs.rate


def damping(dump: Dump, plasma: Plasma, asked: Quantity) -> tuple[float, float | None, float | None]:
    """How fast a wave is damped, above 0."""
    theirs = expect.damping(dump, asked.component_of(plasma), asked.wave_of(plasma), plasma.wave_axis)
    fit = measure.damping(dump.steps, asked.signal(dump, plasma), asked.frames(dump), theirs and theirs.frequency)
    return -fit.rate, fit.error, theirs and -theirs.rate


def frequency(dump: Dump, plasma: Plasma, asked: Quantity) -> tuple[float, float | None, float | None]:
    """The frequency at which a wave has the most power."""
    first, last = asked.frames(dump) or (0, len(dump))
    theirs = asked.theory(plasma)
    measure.resolved(dump.header, theirs or 0)
    return measure.peak(dump.steps[first:last], asked.signal(dump, plasma)[first:last]), None, theirs


def heating(dump: Dump, plasma: Plasma, asked: Quantity) -> tuple[float, float | None, float | None]:
    """All energy at the end over that at the start."""
    first, last = asked.frames(dump) or (0, len(dump))
    table = units.energies(dump).sum(axis=1)
    if not table[first] > 0:
        raise ValueError(f"there is no energy at step {dump.steps[first]} that it could be a multiple of; --from names a later one")
    return float(table[last - 1] / table[first]), None, None


KINDS: dict[str, Callable[[Dump, Plasma, Quantity], tuple[float, float | None, float | None]]] = {
    "growth": growth, "damping": damping, "frequency": frequency, "heating": heating}


@dataclass(frozen=True)
class Task:
    """A run of a scan, as any process takes it: the choices, the files that it writes, and what is asked of it."""

    choices: dict[str, Any]
    stem: str
    program: str
    asked: Quantity
    keep: bool


def one(task: Task) -> Row:
    """Makes a deck, runs it, and measures: a part of its row. What can be no other at the next call is told as its `reason`."""
    deck, dump = Path(task.stem + ".toml"), Path(task.stem + ".dump")
    row = {"deck": deck.name}
    try:
        plasma = Plasma(**task.choices)
        text = plasma.deck().text().encode()
    except (DeckError, ArithmeticError) as error:
        return row | {"deck": "", "reason": f"no deck: {error}"}
    deck.parent.mkdir(parents=True, exist_ok=True)
    for path in deck, dump:
        path.unlink(missing_ok=True)
    deck.write_bytes(text)
    try:
        with files.written(str(dump)) as place, open(place, "wb") as sink:
            ended = subprocess.run([task.program, "run"], input=text, stdout=sink, stderr=subprocess.PIPE)
            line = (ended.stderr.decode("ascii", "replace").splitlines() or [""])[-1]
            if ended.returncode not in (0, 1):
                raise ValueError(f"{deck}: the program ended with the status {ended.returncode}: "
                                 + (line or " ".join(explain.status(str(ended.returncode)))))
        row |= {"end": line, "deck_sha256": checksum(deck), "dump_sha256": checksum(dump)}
        return row | measured(Dump(dump), plasma, task.asked)
    finally:
        if not task.keep:
            dump.unlink(missing_ok=True)


def measured(dump: Dump, plasma: Plasma, asked: Quantity) -> Row:
    """What was asked of a dump; where it can't be measured, why."""
    try:
        value, error, theirs = KINDS[asked.kind](dump, plasma, asked)
    except (ValueError, ArithmeticError) as reason:
        return {"reason": str(reason)}
    # The theory of the choices, where the wave is theirs: a curve between the points is of the same.
    own = asked.theory(plasma)
    told = {"measured": value, "error": error, "theory": theirs if own is None else own}
    return {name: repr(float(number)) for name, number in told.items() if number is not None}


@dataclass
class Scan:
    """The runs of a scan: the values of each choice, and which choices have several."""

    over: dict[str, list]
    fixed: dict[str, Any]
    out: str
    asked: Quantity
    program: str
    keep: bool = False

    def choices(self) -> Iterator[dict[str, Any]]:
        """Those of each run, the last one fastest."""
        for values in product(*self.over.values()):
            yield self.fixed | dict(zip(self.over, values))

    def known(self, choices: dict[str, Any], sha256: str) -> Row:
        """What a row is known by, and its scanned choices."""
        scanned = {name: spoken(choices[name]) for name in self.over}
        return scanned | {"command": said(choices), "quantity": str(self.asked), "program_sha256": sha256}

    def task(self, choices: dict[str, Any]) -> Task:
        name = "_".join(f"{name}_{spoken(choices[name]).replace(' ', 'x')}" for name in self.over) or "run"
        return Task(choices, str(Path(self.out).resolve().with_suffix("")) + f"_runs/{name}", self.program, self.asked, self.keep)

    def earlier(self, rows: list[Row]) -> list[Row]:
        """The rows with what stands in the table already, which has to be of this scan."""
        if not os.path.exists(self.out):
            return rows
        with open(self.out, newline="", encoding="utf-8") as file:
            there = list(csv.DictReader(file))
        found = {key(row): row for row in there if set(KNOWN_BY) <= set(row)}
        others = len(there) - len(found.keys() & {key(row) for row in rows})
        if others:
            what = "rows that aren't" if others > 1 else "row that isn't"
            raise ValueError(f"{self.out}: it has {others} {what} of this scan (other choices, another measure, or another "
                             "program); name another file, or remove it")
        return [found.get(key(row), {}) | row for row in rows]

    def left(self, rows: list[Row]) -> dict[int, Task]:
        """The runs that aren't done, by their places. What such a run left behind when it was cut goes away."""
        tasks = {}
        for place, choices in enumerate(self.choices()):
            task = self.task(choices)
            if not is_done(rows[place]) or self.keep and rows[place]["deck"] and not os.path.exists(task.stem + ".dump"):
                tasks[place] = task
                for path in Path(task.stem).parent.glob(f".{Path(task.stem).name}.*.dump"):
                    path.unlink()
        return tasks

    def write(self, rows: list[Row]) -> None:
        """The table of the rows that are done, whole or not at all."""
        with files.written(self.out) as place, open(place, "w", newline="", encoding="utf-8") as file:
            table = csv.DictWriter(file, [*self.over, *COLUMNS], extrasaction="ignore")
            table.writeheader()
            table.writerows(row for row in rows if is_done(row))

    def run(self, executor: Executor | None = None) -> list[Row]:
        """All rows, in order; each is in the table as soon as it comes. Without an engine processes of this machine run them."""
        sha256 = checksum(self.program)
        rows = self.earlier([self.known(choices, sha256) for choices in self.choices()])
        self.write(rows)
        with executor or processes() as engine:
            left = {engine.submit(one, task): place for place, task in self.left(rows).items()}
            with bar(len(left), "run", Path(self.out).name) as drawn:
                try:
                    for future in as_completed(left):
                        rows[left[future]] |= future.result()
                        self.write(rows)
                        drawn.update(1)
                except Exception as error:
                    raise ValueError(f"{str(error) or type(error).__name__} ({self.out}: {GOES_ON})") from error
                finally:
                    for future in left:
                        future.cancel()
        return rows


def key(row: Row) -> tuple[str, ...]:
    return tuple(row[name] for name in KNOWN_BY)


def is_done(row: Row) -> bool:
    return bool(row.get("measured") or row.get("reason"))


def said(choices: dict[str, Any]) -> str:
    """The command that makes a run's deck; of choices that make none what was chosen."""
    try:
        return command(Plasma(**choices))
    except DeckError:
        return f"no deck: {choices}"


def quiet() -> None:
    """Signals end a process of a scan at once, and without a word."""
    for number in signal.SIGINT, signal.SIGTERM:
        signal.signal(number, signal.SIG_DFL)


def processes(number: int | None = None) -> Executor:
    """So many processes of this machine, or one for each core."""
    return ProcessPoolExecutor(len(os.sched_getaffinity(0)) if number is None else number, initializer=quiet)


def planned(over: dict[str, list], out: str, asked: Quantity = Quantity(), keep: bool = False, named: str | None = None,
            **fixed: Any) -> Scan:
    """A scan over the values of some choices, to the table `out`; the others are `fixed`. `named` is a program."""
    return Scan(over, fixed, out, asked, program(named), keep)


def lines(over: Iterable[str], rows: list[Row]) -> Iterator[str]:
    """What each row found, in words."""
    for row in rows:
        name = ", ".join(f"{name.replace('_', ' ')} {row[name]}" for name in over) or "the run"
        value, error, theory = (float(row[part]) if row.get(part) else None for part in ("measured", "error", "theory"))
        if value is None:
            yield f"{name}: {row['reason']}"
        else:
            beside = "" if theory is None else f"; {against(value, theory)}"
            yield f"{name}: {row['quantity']} {number_of(value, error)}{beside}"
