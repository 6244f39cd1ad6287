"""The commands: python3 -m pictools plot | energies | info | deck | run | mend | scan | thin | vtk | movie | page | explain, each
with --help."""

from __future__ import annotations

import argparse
import os
import sys
from types import ModuleType

try:
    from pictools import choices, command_export, command_run, command_scan, cost, explain, files, info, optional, views
    from pictools.deck import DeckError
    from pictools.limits import refuse
    from pictools.plasma import Plasma
    from pictools.probe import Probes
except ModuleNotFoundError as missing:
    if missing.name != "numpy":
        raise
    sys.exit("pictools: it needs numpy; on Debian it is python3-numpy")


def plots() -> ModuleType:
    """The pictures' module, which alone needs matplotlib."""
    return optional.module("plots", "pictures")


def plot(words: argparse.Namespace) -> None:
    decks, module = words.deck or [None], plots()
    if len(decks) not in (1, len(words.dump)):
        raise ValueError(f"--deck {' '.join(decks)}: there is one for all of {len(words.dump)} files, or one for each")
    runs = {path.removesuffix(".dump").removesuffix(".lines"): files.drawable(path, deck)
            for path, deck in zip(words.dump, decks * len(words.dump) if len(decks) == 1 else decks)}
    kinds = {isinstance(run, Probes) for run in runs.values()}
    if len(kinds) > 1:
        raise ValueError("dumps and probe lines aren't drawn in one picture")
    drawn = optional.module("probe_plots", "pictures").drawn if True in kinds else module.drawn
    picture, lines = drawn(runs, words.panels, views.view_from(words))
    with files.written(words.out) as place:
        module.save(picture, place)
    for line in lines:
        print(line)


def energies(words: argparse.Namespace) -> None:
    module = plots()
    with files.written(words.out) as place:
        module.save(module.report_figure(files.report(words.report)), place)


def show_info(words: argparse.Namespace) -> None:
    print("\n".join(info.info(files.opened(words.dump))))


def deck(words: argparse.Namespace) -> None:
    plasma = Plasma(**choices.chosen(words))
    made = plasma.deck()
    try:
        text = made.text()
    except DeckError as error:
        refuse("particles_a_cell", plasma.particles_a_cell, str(error))
    print("\n".join([*plasma.report(), cost.say(made)]), file=sys.stderr)
    if words.out:
        with files.written(words.out) as place, open(place, "w", encoding="utf-8") as file:
            file.write(text)
    else:
        print(text, end="")


def thin(words: argparse.Namespace) -> None:
    files.thin(words.number, words.out)


def explained(words: argparse.Namespace) -> None:
    lines = [" ".join(words.line)] if words.line else sys.stdin.read().splitlines()
    if not any(map(str.strip, lines)):
        raise ValueError("no line came to explain: give one behind `explain`, or a report on standard input")
    print("\n\n".join(explain.all_lines(lines)))


def add_plot(part: argparse.ArgumentParser) -> None:
    part.add_argument("dump", nargs="+", help="a dump, or several, whose panels are drawn side by side; or what `pic probe` puts, with "
                                              "--deck")
    part.add_argument("--deck", nargs="+", help="of probe lines: their deck, which says what their columns are; one for all, or one for each")
    part.add_argument("-o", "--out", required=True, help="the picture's file, .png or another kind that matplotlib knows")
    views.add_options(part)
    part.set_defaults(call=plot)


def add_deck(part: argparse.ArgumentParser) -> None:
    choices.add_choices(part)
    part.add_argument("-o", "--out", help="the deck's file; without it the deck goes to standard output")
    part.set_defaults(call=deck)


class Parser(argparse.ArgumentParser):
    """One whose errors are one line."""

    def error(self, message: str) -> None:
        self.exit(2, f"{self.prog}: {message} (--help says more)\n")


def parser() -> argparse.ArgumentParser:
    whole = Parser(prog="pictools", description="Pictures and decks for pic.")
    commands = whole.add_subparsers(required=True, metavar="COMMAND")
    add_plot(commands.add_parser("plot", help="a picture of a dump"))
    add_deck(commands.add_parser("deck", help="a deck from a plasma's numbers"))
    command_run.add_run(commands.add_parser("run", help="runs a deck, with a progress bar and a note beside the dump"))
    command_run.add_mend(commands.add_parser("mend", help="makes a dump whole that was cut: that of a run of so many steps"))
    command_scan.add_scan(commands.add_parser("scan", help="many runs, of options with several values, to a table"))
    part = commands.add_parser("energies", help="a picture of a report's energies")
    part.add_argument("report")
    part.add_argument("-o", "--out", required=True)
    part.set_defaults(call=energies)
    part = commands.add_parser("thin", help="a dump from standard input to standard output, with fewer frames")
    part.add_argument("number", type=int, help="every how many frames one is kept")
    part.add_argument("-o", "--out", help="the thinned dump's file, in place of standard output; a file that fails isn't there")
    part.set_defaults(call=thin)
    part = commands.add_parser("info", help="what a dump is of: its cells, frames, end, species, and what its multipliers mean")
    part.add_argument("dump")
    part.set_defaults(call=show_info)
    command_export.add_all(commands)
    part = commands.add_parser("explain", help="what a line of the program, or its exit status, means and what to change")
    part.add_argument("line", nargs=argparse.REMAINDER,
                      help="the line, or a number for a status (default: the lines of standard input)")
    part.set_defaults(call=explained)
    return whole


def main() -> int:
    words = parser().parse_args()
    try:
        words.call(words)
        sys.stdout.flush()
    except KeyboardInterrupt:
        print("pictools: stopped by Ctrl-C", file=sys.stderr)
        return 130
    except BrokenPipeError:
        # What took the output has ended; nothing is left to flush to it.
        os.dup2(os.open(os.devnull, os.O_WRONLY), sys.stdout.fileno())
        return 1
    except ModuleNotFoundError as missing:
        print(f"pictools: {missing}", file=sys.stderr)
        return 1
    except MemoryError:
        print("pictools: there isn't memory enough; thin the dump first", file=sys.stderr)
        return 1
    except OSError as error:
        print(f"pictools: {error.filename}: {error.strerror}" if error.filename else f"pictools: {error}", file=sys.stderr)
        return 1
    except (ValueError, LookupError, ArithmeticError) as error:
        print(f"pictools: {error}", file=sys.stderr)
        return 1
    return 0


if __name__ == "__main__":
    sys.exit(main())
