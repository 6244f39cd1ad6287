"""The choices of a plasma as options of a command: those of `deck`, and of `scan`, where each may have several values."""

from __future__ import annotations

import argparse
from dataclasses import MISSING, Field, fields

from pictools.limits import Limits, option
from pictools.plasma import Plasma


def allowed(field: Field) -> str:
    """What an option may be, and what it is where it isn't given."""
    said = [field.metadata["limits"].ends] if isinstance(field.metadata["limits"], Limits) else []
    if field.default not in (MISSING, None):
        said.append("default: " + (" ".join(map(str, field.default)) if field.name == "cells" else str(field.default)))
    return f" ({'; '.join(said)})"


def add_choices(part: argparse.ArgumentParser, several: bool = False) -> None:
    """The options are the fields of Plasma."""
    for field in fields(Plasma):
        needed = field.default is MISSING
        shape = {"nargs": 3, "type": int, "metavar": ("NX", "NY", "NZ")} if field.name == "cells" else {
            "type": {"float": float, "int": int, "str": str}[field.type.split()[0]], "metavar": field.type.split()[0].upper()}
        if several:
            shape |= {"nargs": "+"} | ({"metavar": "NX NY NZ"} if field.name == "cells" else {})
        part.add_argument(option(field.name), required=needed, **shape, help=field.metadata["text"] + allowed(field))


def chosen(words: argparse.Namespace) -> dict:
    """The choices that were typed."""
    return {f.name: getattr(words, f.name) for f in fields(Plasma) if getattr(words, f.name) is not None}
