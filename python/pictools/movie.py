"""A movie of a dump: phase space and fields frame by frame, on the scales of all frames, beside panels over time with a line at
the moment. It is an .mp4 by ffmpeg, where that is, else a .gif.
"""

from __future__ import annotations

import subprocess
from collections.abc import Callable, Iterable, Iterator
from io import BytesIO
from pathlib import Path

import matplotlib
from matplotlib.animation import FFMpegWriter
from matplotlib.axes import Axes
from PIL import Image

from pictools import panels, plots, views
from pictools.dump import Dump
from pictools.panels import PhaseEnds
from pictools.plots import MOVING, Part
from pictools.progress import bar
from pictools.views import View

OVER_TIME = ("energies", "growth", "damping", "heating")
MOMENT = {"color": "black", "linewidth": 0.8, "alpha": 0.5}


class Movie:
    """The figure of a movie and the lines that its panels have to say; `frames` are the numbers of its frames, and `turn` brings
    the figure to one of them."""

    def __init__(self, dump: Dump, chosen: Iterable[str], view: View):
        self.dump, self.view, self.name = dump, view, view.component or plots.strongest(dump)
        chosen = list(chosen) or [panel for panel in plots.usual(dump, self.name) if panel != "spectrum"]
        if not set(chosen) & set(MOVING):
            raise ValueError(f"--panels {' '.join(chosen)}: none of them moves; {' and '.join(MOVING)} do")
        self.frames = [plots.nearest(dump, step) for step in view.steps] or list(range(len(dump)))
        self.parts = [Part(panel, "", self.frames[0], self.scale(panel)) for panel in chosen]
        self.lines: list[str] = []
        self.moments: list[Callable] = []
        with matplotlib.rc_context(plots.STYLE):
            self.figure, self.places = plots.sheet(len(chosen), view, [dump])
            for number, (axes, part) in enumerate(zip(self.places, self.parts)):
                self.lines += self.draw(axes, part)
                plots.letter(axes, number, view)
                if part.panel in OVER_TIME:
                    self.moments.append(axes.axvline(self.time(part.frame), **MOMENT).set_xdata)
                elif part.panel == "history":
                    self.moments.append(axes.axhline(self.time(part.frame), **MOMENT).set_ydata)
            # What is laid out once stays where it is.
            self.figure.draw_without_rendering()
            self.figure.set_layout_engine("none")

    def scale(self, panel: str) -> float | PhaseEnds | None:
        """The scale of a panel for all frames, which are gone through one by one."""
        if panel == "phase":
            return panels.common(panels.phase_ends(self.dump[frame], self.dump, self.view) for frame in self.frames)
        if panel == "field":
            slices = (plots.shown(self.dump, frame, self.view, self.name) for frame in self.frames)
            return max((panels.top_of(values) for values in slices if values.any()), default=1.0)
        return None

    def draw(self, axes: Axes, part: Part) -> list[str]:
        return plots.draw(axes, {"": self.dump}, self.name, part, self.view)

    def time(self, frame: int) -> float:
        return float(self.dump.steps[frame] / views.scale_of(self.dump, self.view.units).time)

    def turn(self, frame: int) -> None:
        """Brings what moves, and the lines at the moment, to a frame."""
        for move in self.moments:
            move([self.time(frame)] * 2)
        for number, (axes, part) in enumerate(zip(self.places, self.parts)):
            if part.panel in MOVING:
                axes.clear()
                self.draw(axes, part._replace(frame=frame))
                plots.letter(axes, number, self.view)

    def turns(self) -> Iterator[int]:
        """Turns to each frame, one after the other, with a bar of them."""
        with bar(len(self.frames), "picture", "movie") as drawn:
            for frame in self.frames:
                self.turn(frame)
                yield frame
                drawn.update(1)


def place_for(out: str) -> str:
    """Where a movie goes: without ffmpeg the .gif of its name."""
    ending = Path(out).suffix
    if ending not in (".mp4", ".gif"):
        raise ValueError(f"--out {out}: a movie's name ends in .mp4 or .gif")
    return out if ending == ".gif" or FFMpegWriter.isAvailable() else str(Path(out).with_suffix(".gif"))


def save(movie: Movie, path: str, rate: float) -> None:
    """Writes a movie, so many frames a second."""
    with matplotlib.rc_context(plots.STYLE):
        (save_mp4 if path.endswith(".mp4") else save_gif)(movie, path, rate)


def save_mp4(movie: Movie, path: str, rate: float) -> None:
    writer = FFMpegWriter(rate)
    try:
        with writer.saving(movie.figure, path, movie.figure.dpi):
            for _ in movie.turns():
                writer.grab_frame()
    except (subprocess.CalledProcessError, BrokenPipeError) as error:
        if isinstance(error.__context__, KeyboardInterrupt):
            raise KeyboardInterrupt from None
        raise OSError(f"{path}: ffmpeg couldn't write it: {error}") from None


def save_gif(movie: Movie, path: str, rate: float) -> None:
    images = pictures(movie)
    next(images).save(path, save_all=True, append_images=images, duration=round(1000 / rate), loop=0)


def pictures(movie: Movie) -> Iterator[Image.Image]:
    """The pictures of a movie, one at a time."""
    for _ in movie.turns():
        data = BytesIO()
        movie.figure.savefig(data, format="png", dpi=movie.figure.dpi)
        yield Image.open(data).convert("RGB")
