"""A page of one run: what it is, its pictures, its energies, the program's verdict on its dump, and how to repeat it. It is one
file of HTML that needs no other.
"""

from __future__ import annotations

import os
import re
import subprocess
import tempfile
from base64 import b64encode
from collections.abc import Iterable, Sequence
from dataclasses import dataclass, replace
from html import escape
from importlib.resources import files as resources
from pathlib import Path
from shlex import quote
from string import Template
from typing import Any

import numpy as np

from pictools import explain, info, movie, note, panels, plots, program, units
from pictools.dump import Dump, Header
from pictools.outline import SCALES, outline
from pictools.views import View

ROWS = 11                   # of the table of energies
RATE = 12                   # pictures a second of its movie
FEW = 3                     # differences that are named
SHOWN = 40                  # lines of a deck; all of it is behind a link


@dataclass(frozen=True)
class Verdict:
    """What the program answers to `verify`, what that means, and which program it was; `kind` is good, bad or open."""

    kind: str
    line: str
    meaning: str
    program: str


@dataclass(frozen=True)
class Deck:
    """The deck of a dump: its name and text, the command that made it, where one did, and what is told of its run."""

    name: str
    text: str
    made_by: str
    told: tuple[str, ...] = ()


def verdict(path: str, named: str | None) -> Verdict:
    """Has the program verify a dump."""
    try:
        found = program.program(named)
    except ValueError as reason:
        return Verdict("open", "not verified", str(reason), "")
    with open(path, "rb") as file:
        done = subprocess.run([found, "verify"], stdin=file, capture_output=True, text=True, errors="replace")
    line = ([*done.stdout.splitlines(), *done.stderr.splitlines()] or [f"status {done.returncode}"])[-1]
    return Verdict("bad" if done.returncode else "good", line, meaning(line), told_of(program.known(found)))


def meaning(line: str) -> str:
    """What a line of the program means, in one paragraph."""
    return " ".join(part.strip() for part in explain.explain(line).splitlines()[1:])


def told_of(known: dict[str, str]) -> str:
    """A program in words."""
    released = f"pic {known['version']}, of the commit {known['commit'][:12]}" if "version" in known else Path(known["path"]).name
    return f"{released}; SHA-256 {known['sha256']}"


def deck_of(dump: Dump, given: str | None) -> Deck | None:
    """The deck of a dump: the one that is given, which has to fit it, else that of the note beside it."""
    if given:
        data = Path(given).read_bytes()
        wrong = differences(data, dump.header)
        if wrong:
            raise ValueError(f"--deck {given}: it isn't the deck of {dump.path}: {'; '.join(wrong)}")
        return Deck(Path(given).name, data.decode(), note.made_by(data))
    kept = note.read(dump)
    if kept is None:
        return None
    told = [f"It ran on {kept['workers']} thread{'s' * (kept['workers'] != 1)}, by {told_of(kept['program'])}."]
    if earlier := [part.get("end", "a lost end") for part in kept.get("earlier calls", [])]:
        told.append(f"It went on behind {len(earlier)} earlier call{'s' * (len(earlier) > 1)}, which left: {', '.join(earlier)}.")
    if kept.get("mended after"):
        told.append(f"The run was cut ({kept['mended after']}); the dump was mended to what it had.")
    return Deck(Path(kept["deck"]["file"]).name, "\n".join(kept["deck text"]) + "\n", kept["deck"]["made by"], tuple(told))


def differences(text: bytes, header: Header) -> list[str]:
    """Where a deck isn't that of a dump's header, the first few; the run's steps and frames may have been changed later."""
    try:
        here, there = entries(outline(text.decode()).header), entries(header)
    except ValueError as error:
        return [str(error)]
    wrong = [path for path in here | there if here.get(path) != there.get(path)]
    return [f"{path} is {here.get(path)} in place of {there.get(path)}" for path in wrong[:FEW]]


def entries(header: Header) -> dict[str, Any]:
    """What a header has, by the paths of its deck."""
    found: dict[str, Any] = {"grid.cells": list(header.cells), "grid.sub": header.sub, "run.filter": header.filter}
    found |= {f"scale.{name}": list(getattr(header, name)) for name in SCALES}
    for number, kind in enumerate(header.species):
        found |= {f"species[{number}].{name}": getattr(kind, name) for name in ("name", "charge", "mass")}
        found |= {f"species[{number}].{name}": list(getattr(kind, name)) for name in ("kick", "turn")}
        found |= {f"the number of particles of species[{number}]": kind.count}
    return found | {f"drive[{number}].{name}": value for number, loop in enumerate(header.loops)
                    for name, value in loop._asdict().items()}


def element(name: str, text: str, **attributes: str) -> str:
    """An element around text that is HTML already."""
    said = "".join(f' {key.rstrip("_")}="{escape(value)}"' for key, value in attributes.items())
    return f"<{name}{said}>{text}</{name}>"


def paragraphs(lines: Iterable[str]) -> str:
    return "\n".join(element("p", escape(line)) for line in lines)


def table(rows: Sequence[Sequence[str]], head: Sequence[str] = (), **attributes: str) -> str:
    """A table whose rows have a name each, below a head."""
    lines = [element("tr", "".join(element("th", escape(cell), scope="col") for cell in head))] if head else []
    for first, *others in rows:
        cells = "".join(element("td", escape(cell)) for cell in others)
        lines.append(element("tr", element("th", escape(first), scope="row") + cells))
    return element("table", "\n".join(["", *lines, ""]), **attributes)


def data_of(kind: str, data: bytes) -> str:
    """Bytes as an address within the page."""
    return f"data:{kind};base64,{b64encode(data).decode()}"


def plain(title: str) -> str:
    """A panel's title without the signs of mathematics."""
    return re.sub(r"[$\\{}]|(?<=\w)_(?=\w)", "", title).replace("\n", ", ")


def pictures(dump: Dump, chosen: Iterable[str], view: View) -> str:
    """A picture of each panel, with what it has to say below."""
    found = []
    for panel in list(chosen) or plots.usual(dump, view.component or plots.strongest(dump)):
        picture, lines = plots.drawn({"": dump}, [panel], view)
        title = "; ".join(filter(None, (plain(axes.get_title()) for axes in picture.axes)))
        image = f'<img alt="{escape(title)}" src="{data_of("image/png", plots.bytes_of(picture, "png"))}">'
        found.append(element("figure", image + element("figcaption", "<br>".join(map(escape, lines))) * bool(lines)))
    return "\n".join(found)


def moving(dump: Dump, chosen: Iterable[str], view: View) -> str:
    """The same as a movie."""
    made = movie.Movie(dump, [panel for panel in chosen if panel in plots.MOVING], view)
    with tempfile.TemporaryDirectory() as folder:
        place = movie.place_for(os.path.join(folder, "movie.mp4"))
        movie.save(made, place, RATE)
        data = Path(place).read_bytes()
    said = f"{len(made.frames)} frames, steps {dump.steps[made.frames[0]]} to {dump.steps[made.frames[-1]]}, on one scale"
    shown = (f'<video controls loop muted aria-label="{said}" src="{data_of("video/mp4", data)}"></video>' if place.endswith(".mp4") else
             f'<img alt="{said}" src="{data_of("image/gif", data)}">')
    return element("figure", shown + element("figcaption", said), class_="moving")


def energies(dump: Dump) -> str:
    """A table of the energies in one unit, of some frames evenly apart, and what became of their sum."""
    uniform = panels.uniform_energy(dump)
    shown = units.energies(dump) - uniform
    sums = shown.sum(axis=1)
    whole, when = panels.whole_energy(sums)
    rows = [[str(dump.steps[n]), *(f"{value / whole:.6g}" for value in (*shown[n], sums[n]))]
            for n in np.unique(np.linspace(0, len(dump) - 1, ROWS).round().astype(int))]
    lines = [f"As shares of all energy {when}" + (", without that of the uniform B." if uniform.any() else ".")
             + " The kinetic one is of half a step before its frame, and so is B's."]
    if sums[0] > 0:
        worst = int(np.argmax(np.abs(sums / whole - 1)))
        lines.append(f"At the end all are {sums[-1] / whole:.4f} of those at the start; they are farthest from them at step "
                     f"{dump.steps[worst]}, with {sums[worst] / whole:.4f}.")
    return paragraphs(lines) + element("div", table(rows, ["step", "kinetic", "electric", "magnetic", "all"], class_="numbers"),
                                       class_="wide")


def repeat(dump: Dump, deck: Deck | None, sum_of_dump: str) -> str:
    """The commands of the run, with its deck, and what has to come out."""
    file = quote(Path(dump.path).name)
    if deck is None:
        lines = ["The dump doesn't name its deck, and no note stands beside it: python3 -m pictools run leaves one, and --deck "
                 "gives a page its deck."]
        return paragraphs([*lines, "What the run's dump has to be:"]) + element("pre", escape(f"sha256 {sum_of_dump}"))
    name, lines = quote(deck.name), list(deck.told)
    steps, every = (note.read_deck(deck.text.encode()).get("run", {}).get(key) for key in ("steps", "every"))
    if (steps, every) != (dump.header.steps, dump.header.every):
        lines.append(f"The deck has steps = {steps} and every = {every}, and the dump steps = {dump.header.steps} and every = "
                     f"{dump.header.every}: it was cut or thinned later, and a deck with these numbers gives it.")
    commands = [f"{deck.made_by} -o {name}"] if deck.made_by else []
    commands += [f"./pic run < {name} > {file}", f"sha256sum {file}", f"./pic verify < {file}"]
    lines.append("The dump is the same to the byte for any number of workers. Its checksum has to be the one below.")
    return (paragraphs(lines) + element("pre", escape("\n".join(commands)), class_="commands")
            + element("pre", escape(f"{sum_of_dump}  {Path(dump.path).name}")) + shown(deck))


def shown(deck: Deck) -> str:
    """A deck: a link that saves it, and its first lines."""
    link = element("a", escape(deck.name), download=deck.name, href=data_of("application/toml", deck.text.encode()))
    lines = deck.text.splitlines()
    first = "\n".join(lines[:SHOWN] + [f"... and {len(lines) - SHOWN} more lines"] * (len(lines) > SHOWN))
    return element("p", f"The deck: {link}") + element("details", element("summary", "Its first lines") +
                                                       element("pre", escape(first)))


def page(dump: Dump, chosen: Sequence[str], view: View, deck: str | None = None, named: str | None = None,
         with_movie: bool = False) -> str:
    """The page of a dump as a text."""
    known, name = deck_of(dump, deck), Path(dump.path).name
    answer, ended = verdict(dump.path, named), meaning(dump.end.text) if dump.end else f"It has no end: {dump.cut}."
    sum_of_dump = program.checksum(dump.path)
    title = view.title or name
    view = replace(view, title="")
    drawn = pictures(dump, chosen, view) + (moving(dump, chosen, view) if with_movie else "")
    lines = [answer.meaning] + [f"By {answer.program}."] * bool(answer.program)
    return Template(resources("pictools").joinpath("page.html").read_text(encoding="utf-8")).substitute(
        title=escape(title), dump=escape(name), version=note.versions()["pictools"],
        subtitle=escape(ended),
        summary=element("p", escape(answer.line), class_=answer.kind),
        facts=table([*info.facts(dump), ("bytes", str(os.path.getsize(dump.path))), ("SHA-256", sum_of_dump)]),
        pictures=drawn, energies=energies(dump), verdict=element("pre", escape(answer.line)) + paragraphs(lines),
        repeat=repeat(dump, known, sum_of_dump))
