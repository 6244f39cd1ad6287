"""The command of many runs: scan."""

from __future__ import annotations

import argparse
import signal
import sys
from concurrent.futures import Executor
from importlib import import_module

from pictools import choices, files, optional, views
from pictools.command_run import add_program
from pictools.limits import option
from pictools.program import program
from pictools.scan import GOES_ON, KINDS, Quantity, Scan, lines, processes


def executor_of(name: str) -> Executor:
    """What MODULE:NAME, called without a word, gives: an engine that offers a concurrent.futures.Executor."""
    module, _, made = name.partition(":")
    try:
        engine = getattr(import_module(module), made)()
    except (ImportError, AttributeError, ValueError) as error:
        raise ValueError(f"--executor {name}: {error}; it is MODULE:NAME of what makes an executor") from None
    if not callable(getattr(engine, "submit", None)):
        raise ValueError(f"--executor {name}: what it makes is no executor; it has no submit")
    return engine


def scan_of(words: argparse.Namespace) -> Scan:
    """The scan that was typed: what has several values is scanned over."""
    values = choices.chosen(words)
    if "cells" in values:
        flat = values["cells"]
        if len(flat) % 3:
            raise ValueError(f"--cells {' '.join(map(str, flat))}: there are three numbers, along x, y and z, for each run")
        values["cells"] = [tuple(flat[at : at + 3]) for at in range(0, len(flat), 3)]
    twice = [name for name, several in values.items() if len(set(several)) < len(several)]
    if twice:
        raise ValueError(f"{option(twice[0])}: a value is given twice")
    asked = Quantity(words.measure, words.of_wave, words.component, words.first, words.last)
    over = {name: several for name, several in values.items() if len(several) > 1}
    return Scan(over, {name: several[0] for name, several in values.items() if name not in over}, words.out, asked,
                program(words.program), words.keep)


def scan(words: argparse.Namespace) -> None:
    # The signal of a time limit is taken as Ctrl-C is.
    signal.signal(signal.SIGTERM, signal.default_int_handler)
    whole = scan_of(words)
    drawing = optional.module("scan_picture", "pictures") if words.picture else None
    engine = executor_of(words.executor) if words.executor else processes(words.processes)
    try:
        rows = whole.run(engine)
    except KeyboardInterrupt:
        print(f"pictools: {words.out}: {GOES_ON}", file=sys.stderr)
        raise
    print("\n".join(lines(whole.over, rows)))
    if drawing:
        with files.written(words.picture) as place:
            drawing.plots.save(drawing.figure(whole, rows, words.title), place)
    if not any(row.get("measured") for row in rows):
        sys.exit(1)


def add_scan(part: argparse.ArgumentParser) -> None:
    """The options of `deck`, each with one value or several, and those of the scan."""
    add = part.add_argument
    add("-o", "--out", required=True, help="the table, .csv; a scan that was cut off goes on from it. The decks stand beside it, "
                                           "in a folder of its name and _runs")
    add("--measure", choices=tuple(KINDS), default="growth",
        help=f"what is measured of each run: {', '.join(KINDS)} (default: growth)")
    add("--of-wave", type=int, metavar="WAVE", help="the wave that is measured (default: that of the start; 0, which is all "
                                                 "electrons together, with --displace)")
    add("--component", choices=views.COMPONENTS, help="of the wave (default: E along it; where electrons drift across it B)")
    views.add_window(part)
    add("--picture", help="the picture's file: what was measured beside theory")
    add("--title", default="", help="of the picture")
    add("--keep", action="store_true", help="keep the dumps, beside the decks")
    add("--processes", type=int, metavar="N", help="of this machine (default: one for each core)")
    add("--executor", metavar="MODULE:NAME",
        help="what makes an executor of another engine, in place of processes of this machine")
    add_program(part)
    choices.add_choices(part, several=True)
    part.set_defaults(call=scan)
