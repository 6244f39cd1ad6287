"""Runs the built program against a hostile outside, and says what it answered.

    python3 tools/hostile.py [--program PROGRAM] [GROUP ..]

Without a group all of them: decks, dumps, changes, reads, takes, puts, pipes, disks, slow, growths, room, threads (the last three,
takes and puts are those of refused.py). A table is printed at the end, with a line for each test: what is done, how many cases there
are, how they ended, and the seconds. The exit status is 0 where each case ended as docs/FORMATS.md says, else 1, with the cases that
didn't. It needs Linux, Python 3.11 and a C compiler (cc).
"""

import argparse
import fcntl
import os
import random
import resource
import sys
import tempfile
import time
from pathlib import Path

import answers
from program import HOME, NEVER_SO_LONG, Program, Run, Test, chosen_program
from refused import PAGE, growths, puts, room, takes, threads
from verdicts import MOST_VERSION

SET_PIPE_SIZE = 1031


def check_all(program, test, cases):
    """Each deck of the cases is checked, and the answer has to be that of the model. `cases` are names and decks."""
    for (name, deck), ended in program.each(lambda case: program.call("check", given=case[1]), cases):
        fits = ended == answers.check(deck) or answers.is_newer(deck) and not answers.has_no_cause("check", ended)
        test.case(name, fits, ended)
    test.end()


def decks(program):
    for path in sorted((HOME / "decks").glob("*.toml")):
        deck = path.read_bytes()
        if len(deck) <= 4000:
            cuts = ((f"{length} bytes", deck[:length]) for length in range(len(deck) + 1))
            check_all(program, Test(f"check, {path.name} cut at every byte"), cuts)
    deck = (HOME / "decks" / "two_charges.toml").read_bytes()
    for value in b"\xff", b"\x00", b"9", b"[", b'"':
        changed = ((f"byte {place}", deck[:place] + value + deck[place + 1:]) for place in range(len(deck)))
        check_all(program, Test(f"check, two_charges.toml with each byte in turn {value!r}"), changed)


def verify_all(program, test, cases):
    """Each dump of the cases is verified, and the answer has to be that of the model."""
    for (name, dump), ended in program.each(lambda case: program.call("verify", given=case[1]), cases):
        test.case(name, ended == answers.verify(dump), ended)
    test.end()


def resume_all(program, test, cases):
    """Each dump of the cases is gone on with to three steps in all, and the answer has to be that of the model."""
    def call(case):
        return program.call("resume", "--steps", "3", given=case[1])

    for (name, dump), ended in program.each(call, cases):
        test.case(name, ended == answers.resume(dump, 3), ended)
    test.end()


def dumps(program):
    run = Run(program, "two_charges")
    test = Test("verify, the dump of two_charges.toml cut at every length")
    for length, ended in program.each(lambda length: program.call("verify", given=run.dump[:length]), range(len(run.dump))):
        test.case(f"{length} bytes", ended == (7, b"", b"bad dump %d 9\n" % length), ended)
    test.end()
    resume_all(program, Test("resume --steps 3, the same dump cut at every length"), (
        (f"{length} bytes", run.dump[:length]) for length in range(len(run.dump))))
    dice = random.Random(1)
    changed = [(place, dice.randint(1, 255)) for place in range(len(run.dump))]
    changed = [(f"byte {place}", run.dump[:place] + bytes([run.dump[place] ^ by]) + run.dump[place + 1:]) for place, by in changed]
    verify_all(program, Test("verify, the same dump with each byte in turn another"), changed)
    resume_all(program, Test("resume --steps 3, the same dump with each byte in turn another"), changed)


# By deck, changes of its dump: what is changed, the place, the bytes that stand there then, status and report.
CHANGES = {"two_charges": [
    ("65 cells on x", 8, b"\0\0\0\x41", 7, "bad dump 8 2"),
    ("E where a frame is due", 184, b"E", 7, "bad dump 184 3"),
    ("step 1 in frame 0", 185, b"\0\0\0\1", 7, "bad dump 185 4"),
    ("a value of E above 2^90", 189, b"\x7f", 7, "bad dump 189 5"),
    ("a value of E that is 1", 204, b"\1", 8, "broken frame 0 node 0 0 0 div 1 rho 0"),
    ("the ion's x at the end of the box", 6333, b"\0\0\x40\0", 7, "bad dump 6333 6"),
    ("one more kinetic energy", 6381, (70368744177665).to_bytes(16, "big"), 7, "bad dump 6381 7"),
    ("F where no frame is due", 12674, b"F", 7, "bad dump 12674 3"),
    ("a kind of end that is none", 12675, b"\3", 7, "bad dump 12675 8"),
    ("the electron's x in frame 1", 12602, b"\0\0\x0c\1", 8, "broken frame 1 node 0 0 0 div 412316860416 rho 412518187008"),
    ("another first byte", 0, b"\0", 7, "bad dump 0 1"),
    ("a byte more", 12680, b"\0", 7, "bad dump 12680 10"),
]}
if MOST_VERSION == 2:
    CHANGES["two_charges_fine"] = [
        ("version 3", 7, b"3", 7, "bad dump 7 1"),
        ("version 0", 7, b"0", 7, "bad dump 7 1"),
        ("129 cells on x", 8, b"\0\0\0\x81", 7, "bad dump 8 2"),
        ("a sub of 7", 60, b"\0\0\0\x07", 7, "bad dump 60 2"),
        ("a sub of 15", 60, b"\0\0\0\x0f", 7, "bad dump 60 2"),
        ("a filter of 1, where there was none", 64, b"\0\0\0\1", 8, "broken frame 1 node 0 0 0 div 100663296 rho 402653184"),
        ("a filter of 2", 64, b"\0\0\0\2", 7, "bad dump 64 2"),
        ("a filter of 2^24", 64, b"\1\0\0\0", 7, "bad dump 64 2"),
        ("a loop, where there was none", 68, b"\0\0\0\1", 7, "bad dump 196 2"),
        ("17 loops", 68, b"\0\0\0\x11", 7, "bad dump 68 2"),
        ("17 species", 72, b"\0\0\0\x11", 7, "bad dump 72 2"),
        ("the ion's x at the end of the box", 6345, b"\0\0\4\0", 7, "bad dump 6345 6"),
        ("the ion's vx above what a push leaves", 6357, b"\0\x10\x08\0", 7, "bad dump 6357 6"),
        ("one more kinetic energy", 6393, (274877906945).to_bytes(16, "big"), 7, "bad dump 6393 7"),
        ("a byte more", 12692, b"\0", 7, "bad dump 12692 10"),
    ]
    CHANGES["two_charges_filtered"] = [
        ("no filter, where there was one", 64, b"\0\0\0\0", 8, "broken frame 1 node 0 0 0 div 1649267441664 rho 412316860416"),
        ("a filter of 2", 64, b"\0\0\0\2", 7, "bad dump 64 2"),
        ("a loop, where there was none", 68, b"\0\0\0\1", 7, "bad dump 196 2"),
        ("a value of E that is 1", 216, b"\1", 8, "broken frame 0 node 0 0 0 div 1 rho 0"),
        ("the ion's x 1 further", 6345, b"\0\0\4\1", 8, "broken frame 0 node 0 0 0 div 0 rho -805306368"),
    ]
    CHANGES["antenna"] = [
        ("no loops, where there were four", 68, b"\0\0\0\0", 7, "bad dump 76 3"),
        ("17 loops", 68, b"\0\0\0\x11", 7, "bad dump 68 2"),
        ("five loops", 68, b"\0\0\0\5", 7, "bad dump 1180 2"),
        ("a loop across an axis that is none", 76, b"\0\0\0\3", 7, "bad dump 76 2"),
        ("a loop beyond the box", 84, b"\0\0\0\2", 7, "bad dump 84 2"),
        ("a wave without numbers", 92, b"\0\0\0\0", 7, "bad dump 92 2"),
        ("a wave of 65 numbers", 92, b"\0\0\0\x41", 7, "bad dump 92 2"),
        ("a wave's number above 2^60", 96, b"\x10\0\0\0\0\0\0\1", 7, "bad dump 96 2"),
    ]


def changes(program):
    for deck, listed in CHANGES.items():
        run = Run(program, deck)
        test = Test(f"verify and resume, the dump of {deck}.toml with one field another")
        for name, place, field, status, line in listed:
            changed = run.dump[:place] + field + run.dump[place + len(field):]
            ended = program.call("verify", given=changed)
            test.case(name, ended == (status, b"", f"{line}\n".encode()) == answers.verify(changed), ended)
            steps = max(3, run.number(20))
            ended = program.call("resume", "--steps", str(steps), given=changed)
            fits = (ended[0], ended[2].splitlines()[-1].decode()) == (status, line) and ended == answers.resume(changed, steps)
            test.case(f"{name}, resume", fits, ended)
        test.end()


def small_pipe():
    """A pipe that holds one page."""
    reader, writer = os.pipe()
    fcntl.fcntl(writer, SET_PIPE_SIZE, PAGE)
    return reader, writer


def closed_early(program, run, length):
    """A run whose dump is read up to a length, and its pipe then closed: status, what was read, report."""
    reader, writer = small_pipe()
    process = program.start("run", stdout=writer)
    os.close(writer)
    got = b""
    if length == 0:
        os.close(reader)
    process.stdin.write(run.deck)
    process.stdin.close()
    while len(got) < length and (piece := os.read(reader, length - len(got))):
        got += piece
    if length:
        os.close(reader)
    report = process.stderr.read()
    process.stderr.close()
    return process.wait(NEVER_SO_LONG), got, report


def pipes(program):
    run = Run(program, "demo_7")
    places = [0, 1, 63, 64, 183, 184, 185, *range(5000, len(run.dump), 150001)]
    places += [end + n for end in run.frame_ends for n in (-1, 0, 1)]
    test = Test("run, the pipe of the dump closed when so many bytes were read (head -c)")
    for length in sorted(places):
        ended = status, got, report = closed_early(program, run, length)
        # What stood in the pipe when it was closed isn't known: a page at the most.
        may = {run.lines_of(put) for put in range(length, length + PAGE + 1)}
        stopped = status == 5 and report in may or status == 0 and length + PAGE >= len(run.dump)
        test.case(f"{length} bytes", stopped and got == run.dump[:length], ended)
    test.end()
    test = Test("run, the pipe of the report closed; check, probe, verify, demo, resume, refusals, usage with their pipe closed")
    for name, words, given, stream, left in closed_calls(program, run):
        reader, writer = os.pipe()
        os.close(reader)
        ended = program.call(*words, given=given, **{stream: writer})
        os.close(writer)
        test.case(name, ended[0] == 5 and (ended[1] or b"") + (ended[2] or b"") == left, ended)
    test.end()


def closed_calls(program, run):
    """Calls with one of their streams shut: name, words, input, the stream, and what the other then holds."""
    part = Run.resumed(program, "two_charges")
    yield "resume, report", part.words, part.given, "stderr", part.dump[:part.frame_ends[0]]
    yield "resume, dump", part.words, part.given, "stdout", b""
    yield "resume, refused", ["resume", "--steps", "0"], part.given, "stderr", b""
    first = run.dump[:run.frame_ends[0]]
    yield "run, report", ["run"], run.deck, "stderr", first
    yield "run, dump", ["run"], run.deck, "stdout", b""
    yield "check", ["check"], run.deck, "stdout", b""
    yield "probe", ["probe"], run.deck, "stdout", b""
    yield "check, refused", ["check"], b"", "stderr", b""
    yield "verify", ["verify"], run.dump, "stdout", b""
    yield "verify, bad", ["verify"], b"", "stderr", b""
    yield "demo", ["demo", "7"], b"", "stdout", b""
    yield "usage", ["go"], b"", "stderr", b""


def limited_file(program, run, length, stream):
    """A call that writes a dump, with one stream a file that may grow to a length: status, dump, report."""
    def limit():
        resource.setrlimit(resource.RLIMIT_FSIZE, (length, length))

    with tempfile.TemporaryFile() as file:
        # Python ignores the signal that would come with the fault, and so does then its child.
        status, out, report = program.call(*run.words, given=run.given, preexec_fn=limit, restore_signals=False, **{stream: file})
        file.seek(0)
        return status, file.read() if out is None else out, file.read() if report is None else report


def disks(program):
    run = Run(program, "demo_7")
    test = Test("run, check, probe, verify, demo, resume, refusals, usage with a stream on /dev/full")
    for name, words, given, stream, left in closed_calls(program, run):
        with open("/dev/full", "wb") as full:
            ended = program.call(*words, given=given, **{stream: full})
        test.case(name, ended[0] == 5 and (ended[1] or b"") + (ended[2] or b"") == left, ended)
    test.end()
    test = Test("run, a disk that is full when the dump has so many bytes (a limit on the file)")
    places = [0, 1, 63, 64, 183, 184, 185, *range(5000, len(run.dump), 100003), len(run.dump) - 1, len(run.dump)]
    for length in sorted(places + [end + n for end in run.frame_ends for n in (-1, 0, 1)]):
        ended = limited_file(program, run, length, "stdout")
        whole = length >= len(run.dump)
        test.case(f"{length} bytes", ended == (0 if whole else 5, run.dump[:length], run.lines_of(length)), ended)
    test.end()
    part = Run.resumed(program, "two_charges")
    test = Test("resume, two_charges.toml, a disk that is full when the dump has so many bytes")
    for length in [*range(0, len(part.dump), 101), len(part.dump) - 1, len(part.dump)]:
        ended = limited_file(program, part, length, "stdout")
        test.case(f"{length} bytes", ended == (5 * (length < len(part.dump)), part.dump[:length], part.lines_of(length)), ended)
    test.end()
    for run in Run(program, "two_charges"), part:
        full_report(program, run)


def full_report(program, run):
    test = Test(f"{run.words[0]}, two_charges.toml, a disk that is full when the report has so many bytes")
    text = b"".join(run.report)
    for length in range(len(text) + 1):
        ended = limited_file(program, run, length, "stderr")
        whole = text[:length].count(b"\n")
        dump = run.dump if whole >= len(run.frame_ends) else run.dump[:run.frame_ends[whole]]
        test.case(f"{length} bytes", ended == (0 if length == len(text) else 5, dump, text[:length]), ended)
    test.end()


def slow(program):
    run = Run(program, "two_charges")
    test = Test("run, a reader slower than the writer: so many bytes at a time, a thousandth of a second between")
    for most in 13, 100, 1000:
        reader, writer = small_pipe()
        process = program.start("run", stdout=writer)
        os.close(writer)
        process.stdin.write(run.deck)
        process.stdin.close()
        got = b""
        while piece := os.read(reader, most):
            got += piece
            time.sleep(0.001)
        os.close(reader)
        report = process.stderr.read()
        ended = process.wait(NEVER_SO_LONG), got, report
        test.case(f"{most} bytes", ended == (0, run.dump, b"".join(run.report)), ended)
    test.end()
    test = Test("check, probe, verify and resume, a writer slower than the reader: pieces of random lengths, with pauses")
    dice, part = random.Random(2), Run.resumed(program, "two_charges")
    for words, given, answer in ((["check"], run.deck, (0, b"ok 2 particles\n", b"")), (["probe"], run.deck, (0, b"0\n1\ndone 1\n", b"")),
                                 (["verify"], run.dump, (0, b"verified 2 frames\n", b"")),
                                 (part.words, part.given, (0, part.dump, b"".join(part.report)))):
        for most in (1, 7, 100) if words == ["check"] else (7, 100, 4097):
            process = program.start(*words)
            place = 0
            while place < len(given):
                length = dice.randint(1, most)
                process.stdin.write(given[place:place + length])
                process.stdin.flush()
                place += length
                time.sleep(0.0005)
            process.stdin.close()
            ended = (None, process.stdout.read(), process.stderr.read())
            ended = process.wait(NEVER_SO_LONG), *ended[1:]
            test.case(f"{words[0]}, up to {most} bytes", ended == answer, ended)
    test.end()


def reads(program):
    test = Test("check, run, probe, verify, resume of a directory, and of a pipe that has nothing yet and doesn't block")
    for words in ["check"], ["run"], ["probe"], ["verify"], ["resume", "--steps", "1"]:
        folder = os.open("/", os.O_RDONLY)
        ended = program.call(*words, stdin=folder)
        os.close(folder)
        test.case(f"{words[0]} of a directory", ended == (4, b"", b"read fault\n"), ended)
        reader, writer = os.pipe()
        os.set_blocking(reader, False)
        ended = program.call(*words, stdin=reader)
        os.close(reader)
        os.close(writer)
        test.case(f"{words[0]} of an empty pipe", ended == (4, b"", b"read fault\n"), ended)
    test.end()


GROUPS = {f.__name__: f for f in (decks, dumps, changes, reads, takes, puts, pipes, disks, slow, growths, room, threads)}


def main():
    words = argparse.ArgumentParser(description=__doc__, formatter_class=argparse.RawDescriptionHelpFormatter)
    words.add_argument("--program", type=Path)
    words.add_argument("--jobs", default=2, type=int, help="calls at once (default: 2)")
    words.add_argument("groups", nargs="*", metavar="GROUP", help=", ".join(GROUPS))
    chosen = words.parse_args()
    if set(chosen.groups) - set(GROUPS):
        words.error(f"the groups are {', '.join(GROUPS)}")
    program = Program(chosen_program(chosen.program), chosen.jobs)
    for name in chosen.groups or GROUPS:
        GROUPS[name](program)
    return not Test.table()


if __name__ == "__main__":
    sys.exit(main())
