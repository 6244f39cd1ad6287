"""The commands that make something else of a dump, and their options. What each needs is imported when it is called."""

from __future__ import annotations

import argparse
import sys
from typing import Any

from pictools import command_run, files, optional, views
from pictools.views import COMPONENTS


def add_all(commands: Any) -> None:
    """Adds them to the others."""
    add_vtk(commands.add_parser("vtk", help="a dump for ParaView and VisIt: fields on their own nodes, and particles, in time"))
    add_movie(commands.add_parser("movie", help="a movie of a dump, on one scale for all frames"))
    add_page(commands.add_parser("page", help="a page of a run, one file: what it is, pictures, energies, verdict, how to repeat it"))


def add_vtk(part: argparse.ArgumentParser) -> None:
    part.add_argument("dump")
    part.add_argument("-o", "--out", required=True,
                      help="the list of all files in time, .pvd; the others come into a folder of its name beside it")
    part.add_argument("--parts", nargs="+", default=[], choices=(*COMPONENTS, "particles"), metavar="PART",
                      help=f"of {', '.join(COMPONENTS)} and particles (default: all)")
    part.add_argument("--steps", nargs="+", type=int, default=[], help="the frames of these steps (default: all frames)")
    part.add_argument("--units", choices=("steps", "plasma"), default="steps",
                      help="steps and cells, or the plasma frequency and the Debye length at the start (default: steps)")
    part.set_defaults(call=vtk)


def vtk(words: argparse.Namespace) -> None:
    from pictools import vtk as module
    number = module.export(files.opened(words.dump), words.out, words.parts, words.steps, words.units)
    print(f"{number} files in {words.out.removesuffix('.pvd')}/")


def add_movie(part: argparse.ArgumentParser) -> None:
    part.add_argument("dump")
    part.add_argument("-o", "--out", required=True, help=".mp4, by ffmpeg; where that isn't it becomes a .gif; or .gif")
    part.add_argument("--rate", type=views.above_0, default=12, help="pictures a second (default: 12)")
    views.add_options(part, steps="the frames nearest to them (default: all frames)",
                      panels="energies, and phase and field where there are some")
    part.set_defaults(call=movie)


def movie(words: argparse.Namespace) -> None:
    module = optional.module("movie", "movies")
    out = module.place_for(words.out)
    if out != words.out:
        print(f"pictools: {words.out} needs ffmpeg, on Debian ffmpeg; in its place there is {out}", file=sys.stderr)
    dump = files.opened(words.dump)
    made = module.Movie(dump, words.panels, views.view_from(words))
    with files.written(out) as place:
        module.save(made, place, words.rate)
    print("\n".join([*made.lines, f"{len(made.frames)} pictures in {out}"]))


def add_page(part: argparse.ArgumentParser) -> None:
    part.add_argument("dump")
    part.add_argument("-o", "--out", required=True, help="the page, .html; it needs no other file")
    part.add_argument("--deck", help="the dump's deck (default: that of the note beside it, where there is one)")
    command_run.add_program(part)
    part.add_argument("--movie", action="store_true", help="with a movie of what moves")
    views.add_options(part)
    part.set_defaults(call=page)


def page(words: argparse.Namespace) -> None:
    module = optional.module("page", "pages")
    if not words.out.endswith(".html"):
        raise ValueError(f"--out {words.out}: a page's name ends in .html")
    text = module.page(files.opened(words.dump), words.panels, views.view_from(words), words.deck, words.program, words.movie)
    with files.written(words.out) as place, open(place, "w", encoding="utf-8") as file:
        file.write(text)
