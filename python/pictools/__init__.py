"""Reading, drawing and making runs of pic. The program's promises are proved; this package is tested, no more.

versions has what the two versions of decks and dumps allow; dump reads dumps, info says what one is of, tables hands them to
pandas and xarray, thin thins them, and mend makes one whole that was cut; units says what their multipliers mean; theory has the
waves of the scheme, measure those of a dump, and expect what theory has for it; plots draws, with the panels of panels and the
options of views; deck has decks in whole numbers, plasma makes them from a physicist's choices, with an antenna (antenna) and
probes (probing), advice says why, and cost what the run will take; outline says what a deck's text has, probe reads what `pic
probe` puts for one, and probe_plots draws that; program finds the program, running runs a deck, with a note beside the dump
(note), and scan many, to a table and a picture (scan_picture); vtk writes files for ParaView and VisIt, movie movies, and page a
page of a run; explain says what the program's lines mean.
"""

from importlib import import_module
from typing import TYPE_CHECKING, Any

if TYPE_CHECKING:
    from pictools.deck import Deck, DeckError
    from pictools.dump import Dump, DumpError, Frame, Header
    from pictools.plasma import Plasma
    from pictools.probe import Probes

__all__ = ["Deck", "DeckError", "Dump", "DumpError", "Frame", "Header", "Plasma", "Probes"]

PLACES = {"Deck": "deck", "DeckError": "deck", "Plasma": "plasma", "Probes": "probe"}


def __getattr__(name: str) -> Any:
    """A name is looked for when it is asked for, so that the commands can say that numpy is missing."""
    if name not in __all__:
        raise AttributeError(f"module 'pictools' has no attribute {name!r}")
    return getattr(import_module("pictools." + PLACES.get(name, "dump")), name)
