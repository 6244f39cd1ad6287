"""A long run: the program with a progress bar, a note beside its dump, and a dump that is whole however the run ends and that a
second call goes on from."""

from __future__ import annotations

import os
import signal
import subprocess
import threading
import time
from collections.abc import Iterator
from contextlib import contextmanager, suppress
from dataclasses import dataclass
from math import nan
from pathlib import Path
from tempfile import TemporaryFile
from typing import Any, BinaryIO

from pictools import note, units
from pictools.dump import Dump, DumpError
from pictools.files import STOPPED, claim, places
from pictools.header import Header
from pictools.mend import mend
from pictools.program import checksum, program
from pictools.progress import bar

SIGNALS = {130: STOPPED, 143: "stopped by SIGTERM, as by a time limit"}


@dataclass
class Ended:
    """How a call ended: the exit status (130 after Ctrl-C, 143 after SIGTERM), the last line of the dump's report, or the
    program's last one where it wrote no dump, whether the dump had to be mended, and behind which step of an earlier call it went on."""

    status: int
    line: str
    dump: Dump | None
    mended: bool
    seconds: float
    start: int | None


def why(status: int) -> str:
    """Why a run ended before its end."""
    return SIGNALS.get(status, f"the program ended with the status {status}")


class Gauge:
    """What the bar says beside the steps: how many particles are pushed a second, and the energies."""

    def __init__(self, dump: str, start: int):
        self.began, self.start, self.weights, self.first = time.monotonic(), start, None, None
        with suppress(DumpError):
            frame = Dump(dump, partial=True)[0]
            self.weights, self.first = weights_of(frame.header), frame.energies
            self.particles, self.moving = frame.header.particles, units.kinetic_energy(frame)

    @property
    def whole(self) -> float:
        """All energy at the start; 0 of a run that is driven from nothing."""
        return self.moving + self.first[1] + self.first[2] * self.weights[1]

    def shown(self, step: int, energies: tuple[int, ...]) -> str:
        """The words of it. Energies are shares of all energy at the start, where they can be had in one unit."""
        speed = self.particles * (step - self.start) / max(time.monotonic() - self.began, 1e-3) if self.first else nan
        words = [f"{speed / 1e6:.2f} million particle-steps/s"]
        if self.first and self.weights and self.whole:
            # The report's kinetic energy also has that of species that feel no E; it stays, and falls out here.
            kinetic = self.moving + (energies[0] - self.first[0]) * self.weights[0]
            parts = kinetic, energies[1], energies[2] * self.weights[1]
            words += [f"{name} {part / self.whole:{form}}" for name, part, form in (
                ("energy", sum(parts), ".4f"), ("electric", parts[1], ".2g"), ("magnetic", parts[2], ".2g"))]
        return ", ".join(words)


def weights_of(header: Header) -> tuple[float, float] | None:
    """How often the report's kinetic and magnetic energy count in the unit of the electric one; None where species differ."""
    kinetic = {units.kinetic_weight(header, s) for s in header.species if s.count and s.kick.n}
    return (kinetic.pop(), units.magnetic_weight(header)) if len(kinetic) == 1 else None


class Interrupts:
    """Ctrl-C and the signal of a time limit, while a program runs: it is told to end, and nothing is torn here. `came` is the
    signal that came, or 0."""

    def __init__(self):
        self.process: subprocess.Popen | None = None
        self.came, self.before = 0, {}

    def __enter__(self) -> Interrupts:
        if threading.current_thread() is threading.main_thread():
            self.before = {number: signal.signal(number, self.take) for number in (signal.SIGINT, signal.SIGTERM)}
        return self

    def __exit__(self, *_: Any) -> None:
        for number, handler in self.before.items():
            signal.signal(number, handler)

    def take(self, number: int, _: Any) -> None:
        self.came = number
        if self.process:
            self.process.send_signal(signal.SIGINT)

    def tell(self, process: subprocess.Popen) -> None:
        """The process that is told of a signal, also of one that came before."""
        self.process = process
        if self.came:
            process.send_signal(signal.SIGINT)


class Run:
    """One run of a deck into a file, from its start or behind what an earlier call left. The file takes its place when the first
    frame of this call stands in it."""

    def __init__(self, deck: str, text: bytes, out: str, workers: int, named: str | None, anew: bool = False):
        if os.path.exists(out) and not os.path.isfile(out):
            raise ValueError(f"{out}: it is no file; a dump with a note beside it is one")
        self.out, self.program = out, program(named)
        self.whole, self.beside = places(out)
        self.note = note.begun(deck, text, self.program, workers)
        self.text, self.steps = text, note.run_number(text, "steps")
        self.start = None if anew else self.earlier()
        self.line, self.is_placed, self.began = "", False, time.monotonic()

    def earlier(self) -> int | None:
        """The last step of an earlier call for this deck that was ended before the run's last one; its dump is made whole."""
        try:
            dump = Dump(self.out, partial=True)
        except (OSError, DumpError):
            return None
        told = note.read(dump)
        if told is None or told["deck"]["sha256"] != self.note["deck"]["sha256"]:
            return None
        # A dump that was thinned has another `every`.
        if dump.header.every != note.run_number(self.text, "every"):
            return None
        if not dump.cut and (not dump.end.done or dump.end.step == self.steps):
            return None
        self.note = note.goes_on(self.note, told)
        del dump
        return mend(self.out).end.step

    @property
    def words(self) -> list[str]:
        """The program's words."""
        workers = ["--workers", str(self.note["workers"])]
        if self.start is None:
            return [self.program, "run", *workers]
        tiles = [f"--tiles-{axis}={number}" for axis, number in zip("xyz", note.tiles(self.text))]
        return [self.program, "resume", "--steps", str(self.steps), *workers, *tiles]

    @contextmanager
    def given(self) -> Iterator[BinaryIO]:
        """What the program reads: the deck, or the dump that it goes on from."""
        with TemporaryFile() if self.start is None else open(self.out, "rb") as file:
            if self.start is None:
                file.write(self.text)
                file.seek(0)
            yield file

    def go(self) -> Ended:
        try:
            with Interrupts() as interrupts:
                with open(self.beside, "wb") as sink, self.given() as source:
                    claim(sink)
                    process = subprocess.Popen(self.words, stdin=source, stdout=sink, stderr=subprocess.PIPE)
                interrupts.tell(process)
                with process, bar(self.steps, "step", self.whole.name, self.start or 0) as drawn:
                    try:
                        self.follow(process, drawn)
                    except BaseException:
                        process.terminate()
                        raise
            ended = process.returncode if process.returncode >= 0 else 128 - process.returncode
            return self.end(128 + interrupts.came if interrupts.came else ended)
        finally:
            self.beside.unlink(missing_ok=True)

    def follow(self, process: subprocess.Popen, drawn: Any) -> None:
        """Takes the report line by line. One that isn't whole is of a program that was ended. The lines of frames that stood before
        come first."""
        last, gauge = self.start or 0, None
        for line in process.stderr:
            self.line = line.decode("ascii", "replace").strip()
            if not (self.line.startswith("frame ") and line.endswith(b"\n")):
                continue
            step, *energies = (int(word) for word in self.line.split()[1::2])
            if not self.is_placed and (self.start is None or step > self.start):
                self.place()
                gauge = Gauge(self.out, step)
            if self.is_placed:
                drawn.set_postfix_str(gauge.shown(step, tuple(energies)), refresh=False)
                drawn.update(step - last)
                last = step

    def place(self) -> None:
        """The dump and its note take their places."""
        os.replace(self.beside, self.whole)
        self.is_placed = True
        self.note.setdefault("first", self.line)
        note.write(self.out, self.note)

    def is_whole(self) -> bool:
        """Whether the program came to its end, without a new frame: it stopped, or an earlier call lacked the end alone."""
        try:
            return not Dump(self.beside).cut
        except DumpError:
            return False

    def end(self, status: int) -> Ended:
        """The dump is made whole, and the note says how it ended. Where nothing new came, what an earlier call left stays."""
        seconds = time.monotonic() - self.began
        if self.start is not None and not self.is_placed and self.is_whole():
            self.place()
        if not self.is_placed:
            return Ended(status, self.line, None, False, seconds, self.start)
        cut = bool(Dump(self.out, partial=True).cut)
        dump = mend(self.out)
        self.note |= {"last": note.line_of(dump[-1]), "end": dump.end.text, "mended after": why(status) if cut else "",
                      "frames": len(dump), "bytes": os.path.getsize(self.out), "sha256": checksum(self.out),
                      "seconds": round(seconds, 1)}
        note.write(self.out, self.note)
        return Ended(status, dump.end.text, dump, cut, seconds, self.start)


def run(deck: str, out: str, workers: int = 1, named: str | None = None, text: bytes | None = None, anew: bool = False) -> Ended:
    """Runs a deck, by its file or by its text, into a dump. Ctrl-C ends it, and leaves the dump of the steps so far; a second call for
    the same deck goes on behind it, unless it is to begin anew."""
    text = Path(deck).read_bytes() if text is None else text
    return Run(deck, text, out, workers, named, anew).go()
