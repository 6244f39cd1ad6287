"""The commands of one long run: run and mend."""

from __future__ import annotations

import argparse
import sys
from os.path import getsize

from pictools import explain, info, mend, running


def show_end(deck: str, out: str, ended: running.Ended) -> None:
    """Some lines on how a run ended."""
    if ended.dump is None:
        said = running.SIGNALS.get(ended.status) or explain.explain(ended.line or str(ended.status))
        stays = "" if ended.start is None else f"{out} stays the dump of a run of {ended.start} steps: "
        print(f"pictools: {deck}: no dump was written: {stays}{said}", file=sys.stderr)
        return
    frames = len(ended.dump)
    whole = (f"{frames} frame{'s' * (frames > 1)}, {info.size(getsize(out))}, in {ended.seconds:.1f} seconds; its note is "
             f"{out}.json")
    if ended.start is not None:
        whole = f"it went on behind step {ended.start}; {whole}"
    if ended.mended:
        print(f"pictools: {out}: {running.why(ended.status)}. It was mended, and is the dump of a run of {ended.dump.end.step} "
              f"steps: {whole}. The same command goes on behind them", file=sys.stderr)
    else:
        print(f"{out}: {ended.line}, {whole}", file=sys.stderr)
        if not ended.dump.end.done:
            print(explain.explain(ended.line), file=sys.stderr)


def run(words: argparse.Namespace) -> None:
    text = sys.stdin.buffer.read() if words.deck == "-" else None
    ended = running.run(words.deck, words.out, words.workers, words.program, text, words.anew)
    show_end(words.deck, words.out, ended)
    if ended.status:
        sys.exit(ended.status)


def mended(words: argparse.Namespace) -> None:
    whole = mend.mended(words.dump, words.out) if words.out else mend.mend(words.dump)
    frames = len(whole)
    print(f"{words.out or words.dump}: {whole.end.text}, {frames} frame{'s' * (frames > 1)}", file=sys.stderr)


def add_program(part: argparse.ArgumentParser) -> None:
    part.add_argument("--program", metavar="PIC", help="the program (default: what PIC_PROGRAM names, or ./pic runs)")


def add_run(part: argparse.ArgumentParser) -> None:
    part.add_argument("deck", help="the deck's file, or - for standard input")
    part.add_argument("-o", "--out", required=True, help="the dump's file; a note of deck, seed and program stands beside it, in "
                                                         "OUT.json")
    part.add_argument("--workers", type=int, default=1, metavar="N", help="threads of the program, 1 to 64 (default: 1)")
    part.add_argument("--anew", action="store_true", help="begin at step 0 though OUT has earlier steps of this deck, of a call that "
                                                          "was ended; without this the run goes on behind them")
    add_program(part)
    part.set_defaults(call=run)


def add_mend(part: argparse.ArgumentParser) -> None:
    part.add_argument("dump")
    part.add_argument("-o", "--out", help="a mended copy's file; without it the dump is mended where it stands")
    part.set_defaults(call=mended)
