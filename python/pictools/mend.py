"""Making a dump whole that was cut: its whole frames are kept, its header's steps become those of the last one, and it ends as
done. So it is, byte for byte, the dump of a run of so many steps.
"""

from __future__ import annotations

import os
import struct
from shutil import copyfile

from pictools import files
from pictools.dump import Dump, DumpError

STEPS_PLACE = 20
DONE = b"E\0"


def mend(path: str | os.PathLike) -> Dump:
    """Mends a dump where it stands. Stopped at any moment, it leaves one that can be mended. A dump that is whole stays as it
    is."""
    dump = cut_dump(path)
    if not dump.cut:
        return dump
    steps, length = struct.pack(">I", dump.steps[-1]), dump.header.length + dump.records.nbytes
    del dump
    with open(path, "r+b") as file:
        files.claim(file)
        file.truncate(length)
        file.seek(STEPS_PLACE)
        file.write(steps)
        file.seek(length)
        file.write(DONE + steps)
    return Dump(path)


def mended(path: str | os.PathLike, out: str | os.PathLike) -> Dump:
    """A mended copy of a dump."""
    cut_dump(path)
    with files.written(os.fspath(out)) as place:
        copyfile(path, place)
        mend(place)
    return Dump(out)


def cut_dump(path: str | os.PathLike) -> Dump:
    """A dump that may be cut. One whose first frame isn't whole can't be mended."""
    try:
        return Dump(path, partial=True)
    except DumpError as error:
        raise ValueError(f"{os.fspath(path)}: {error}; nothing can be mended, and nothing was written") from None
