"""Thinning a dump on its way from `pic run` to a file: every Nth frame and that of the last step are kept.

What comes out is a whole dump. Its header's `every` is N times as large, so the frames that it has are the ones that are
due. Where a step stopped, no frame is due at the end, and none is kept there. Of a dump that ends early, what comes out
ends early too.
"""

from __future__ import annotations

import struct
from collections.abc import Iterator
from dataclasses import replace
from typing import BinaryIO

from pictools.dump import Dump, DumpStream

MOST_EVERY = 10**6
EVERY_PLACE = 24


def thin(source: BinaryIO, sink: BinaryIO, number: int, partial: bool = False) -> int:
    """Copies a dump from `source` to `sink` with every `number`th frame, one frame at a time. The number of frames kept."""
    return len(list(thinned(Dump.stream(source, partial), sink, number)))


def thinned(stream: DumpStream, sink: BinaryIO, number: int) -> Iterator[int]:
    """The same of a stream, step by step: the steps of the frames kept, each when it is written."""
    if number < 1:
        raise ValueError(f"every {number}th frame can't be kept; the number is at least 1")
    # A greater one is not allowed, and not needed: there are at most 1000000 steps.
    header, place = replace(stream.header, every=min(stream.header.every * number, MOST_EVERY)), EVERY_PLACE
    sink.write(stream.header_bytes[:place] + struct.pack(">I", header.every) + stream.header_bytes[place + 4 :])
    for frame in stream:
        if header.due(frame.step):
            sink.write(frame.record.tobytes())
            yield frame.step
    sink.write(stream.end_bytes)
