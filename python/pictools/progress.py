"""Progress bars, by the library tqdm, which is asked for only here; on Debian it is python3-tqdm. Without it, and where standard
error is no terminal, nothing is drawn."""

from __future__ import annotations

import sys
from typing import Any


class Silent:
    """A bar that draws nothing."""

    def __enter__(self) -> Silent:
        return self

    def __exit__(self, *_: Any) -> None:
        pass

    def update(self, _: float) -> None:
        pass

    def set_postfix_str(self, _: str, refresh: bool = True) -> None:
        pass


def bar(total: int, unit: str, what: str, done: int = 0) -> Any:
    """A bar of so many units, of which some are done, whose `update` and `set_postfix_str` are tqdm's."""
    try:
        from tqdm import tqdm
    except ModuleNotFoundError:
        if sys.stderr.isatty():
            print("pictools: no progress is shown: that needs tqdm; on Debian it is python3-tqdm", file=sys.stderr)
        return Silent()
    return tqdm(total=total, initial=done, unit=unit, desc=what, disable=None, dynamic_ncols=True, leave=False)
