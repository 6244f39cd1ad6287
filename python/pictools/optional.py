"""Modules that need a library which not everybody has."""

from __future__ import annotations

from importlib import import_module
from types import ModuleType


def module(name: str, what: str) -> ModuleType:
    """A module of this package; where its library is missing, a line says what for."""
    try:
        return import_module(f"pictools.{name}")
    except ModuleNotFoundError as missing:
        raise SystemExit(f"pictools: {what} need {missing.name}; on Debian it is python3-{missing.name}") from None
