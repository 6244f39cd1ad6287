"""Commands that are called in this process."""

import contextlib
import io
from pathlib import Path
from unittest import mock

from pictools import __main__ as commands


def called(words: str, folder: Path) -> tuple[int, str, str]:
    """The exit status of a command in a folder, and what it says on both outputs."""
    with (mock.patch("sys.argv", ["pictools", *words.split()]), contextlib.chdir(folder),
          contextlib.redirect_stdout(io.StringIO()) as said, contextlib.redirect_stderr(io.StringIO()) as complained):
        status = commands.main()
    return status, said.getvalue(), complained.getvalue()
