"""Files of the commands: dumps that may end early, reports, and files that are whole or not there at all."""

from __future__ import annotations

import fcntl
import os
import re
import sys
from collections.abc import Iterator
from contextlib import contextmanager, nullcontext
from pathlib import Path
from typing import BinaryIO

from pictools.dump import Dump, DumpError
from pictools.probe import ProbeError, Probes, is_lines
from pictools.thin import thinned

STOPPED = "stopped by Ctrl-C"


def opened(path: str) -> Dump:
    """A dump, whose error names its file. Where it ends early its whole frames are taken, and a line says so."""
    if is_lines(path):
        raise ValueError(f"{path}: it is no dump; if these are lines of `pic probe`, `plot` takes them, with their --deck")
    try:
        dump = Dump(path, partial=True)
    except DumpError as error:
        raise ValueError(f"{path}: {error}") from None
    if dump.cut:
        say_cut(path, dump.cut, "Taken", len(dump), int(dump.steps[-1]))
    return dump


def drawable(path: str, deck: str | None) -> Dump | Probes:
    """A dump, or the lines of `pic probe` for a deck."""
    if not is_lines(path):
        if deck:
            raise ValueError(f"--deck {deck}: {path} is no file of probe lines, which alone want a deck")
        return opened(path)
    if not deck:
        raise ValueError(f"{path}: these are lines of `pic probe`; --deck names the deck that says what their columns are")
    try:
        probes = Probes(path, deck, partial=True)
    except ProbeError as error:
        raise ValueError(f"{path}: {error}") from None
    if not probes.end:
        print(f"pictools: {path}: the text has no end; its call was ended, or still writes. Taken: {len(probes)} whole lines",
              file=sys.stderr)
    return probes


def say_cut(path: str, cut: str, did: str, frames: int, last: int) -> None:
    """The line of a dump that ends early, and what was done with how many frames."""
    print(f"pictools: {path}: {cut}; its run was cut, or still writes. {did}: {frames} whole frame{'s' * (frames > 1)}, the "
          f"last of step {last}", file=sys.stderr)


def thin(number: int, out: str | None) -> None:
    """Thins the dump of standard input to standard output or to a file, and says how many frames were kept."""
    if sys.stdin.isatty() or not out and sys.stdout.isatty():
        raise ValueError("a dump comes from a file or a pipe and goes to one: "
                         "./pic run < DECK | python3 -m pictools thin 5 > DUMP")
    if number < 1:
        raise ValueError(f"thin {number}: every {number}th frame can't be kept; the number is at least 1")
    with written(out) if out else nullcontext() as place:
        with open(place, "wb") if place else nullcontext(sys.stdout.buffer) as sink:
            kept, cut = copied(number, sink)
            sink.flush()
    if cut:
        say_cut("standard input", cut, "Kept", len(kept), kept[-1])
    else:
        print(f"kept {len(kept)} frames", file=sys.stderr)
    if cut == STOPPED:
        sys.exit(130)


def copied(number: int, sink: BinaryIO) -> tuple[list[int], str]:
    """Thins standard input to a sink: the steps of the frames kept, and what the dump lacks. Ctrl-C ends it after whole
    frames."""
    kept: list[int] = []
    try:
        stream = Dump.stream(sys.stdin.buffer, partial=True)
        for step in thinned(stream, sink, number):
            kept.append(step)
    except DumpError as error:
        raise ValueError(f"standard input: {error}") from None
    except KeyboardInterrupt:
        if not kept:
            raise
        return kept, STOPPED
    return kept, stream.cut


def report(path: str) -> str:
    """The text of a report."""
    with open(path, "rb") as file:
        data = file.read()
    if data[:7] == b"PICDUMP":
        raise ValueError(f"{path}: it is a dump; a report is what the program puts on standard error")
    if not re.search(rb"(?m)^frame \d+ kinetic \d+ electric \d+ magnetic \d+$", data):
        raise ValueError(f"{path}: it is no report: it has no line of a frame, as `frame 0 kinetic 0 electric 0 magnetic 0`")
    return data.decode("ascii", "replace")


def places(path: str) -> tuple[Path, Path]:
    """The file that a path stands for, links followed, and one beside it, with the same ending, to write to first."""
    whole = Path(os.path.realpath(path))
    if not whole.parent.is_dir():
        raise ValueError(f"{path}: there is no folder {Path(path).parent}")
    return whole, whole.with_name(f".{whole.stem}.{os.getpid()}{whole.suffix}")


def claim(file: BinaryIO) -> None:
    """Takes a dump's file for writing, until it is closed here and by the programs that it was handed on to. Where a run still has
    it, nothing is changed."""
    try:
        fcntl.flock(file, fcntl.LOCK_EX | fcntl.LOCK_NB)
    except BlockingIOError:
        raise ValueError(f"{file.name}: a run still writes it") from None
    except OSError:
        pass                # a file system that has no such locks


@contextmanager
def written(path: str) -> Iterator[str]:
    """A path beside this one to write to, with the same ending. It takes this one's place where all goes well, and goes away
    where not. What is no plain file, such as /dev/stdout, is written to at once."""
    if os.path.exists(path) and not os.path.isfile(path):
        yield path
        return
    whole, beside = places(path)
    try:
        yield str(beside)
        os.replace(beside, whole)
    finally:
        beside.unlink(missing_ok=True)
