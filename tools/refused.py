"""Tests for hostile.py in which the system refuses something: memory, a thread, a read, a write. Most preload refuse.c."""

import os
import resource
import subprocess
import sys
import tempfile
from functools import cache
from pathlib import Path

from program import HOME, Run, Test

PAGE = 4096
MOST_LIMITS, MOST_TAKES = 200, 10000
SPREAD, AT_ENDS = 300, 150
FOLDER = tempfile.TemporaryDirectory()


@cache
def library():
    """The library that refuses, built once."""
    place = f"{FOLDER.name}/refuse.so"
    subprocess.run(["cc", "-O2", "-shared", "-fPIC", "-o", place, HOME / "tools" / "refuse.c"], check=True)
    return place


def refusing(program, *words, given=b"", stdin=None, **what):
    """A call in which something is refused: the variables of refuse.c. Its input is what is given, or a file."""
    surroundings = os.environ | {"LD_PRELOAD": library()} | {name: str(value) for name, value in what.items()}
    return program.call(*words, given=given, env=surroundings, **({"stdin": stdin} if stdin else {}))


def with_read_failing(program, run, number):
    """A call that writes a dump, with one read of its input failing: how it ended, and how many bytes it had taken."""
    with tempfile.TemporaryFile() as file:
        file.write(run.given)
        file.seek(0)
        ended = refusing(program, *run.words, stdin=file, FAIL_READ=number)
        return ended, os.lseek(file.fileno(), 0, os.SEEK_CUR)


def left_by_read(run, taken):
    """What `resume` has put when a read fails behind so many bytes of its dump: the header and the frames that it keeps, as far as they
    were whole. The frames stand in both dumps at the same places."""
    kept = [end for end in run.frame_ends if end <= taken and run.given[:end][24:] == run.dump[:end][24:]]
    put = kept[-1] if kept else run.header if run.header <= taken else 0
    return 4, run.dump[:put], run.lines_of(put) + b"read fault\n"


def resume_takes(program):
    for run in Run.resumed(program, "two_charges"), Run.resumed(program, "two_charges_filtered", "--workers", "3"):
        test = Test(f"{' '.join(run.words)}, {run.name}, with one read in turn that fails")
        for number in range(MOST_TAKES):
            ended, taken = with_read_failing(program, run, number)
            if ended[0] != 4:
                break
            test.case(f"read {number} behind {taken} bytes", ended == left_by_read(run, taken), ended)
        whole = (0, run.dump, b"".join(run.report)), len(run.given)
        test.case(f"{number} reads", number > 1 and (ended, taken) == whole, ended, "whole")
        test.end()


def takes(program):
    """The reads of standard input fail, one in turn, until one is named that never comes."""
    run = Run(program, "two_charges")
    for words, given in ((["check"], run.deck), (["run"], run.deck), (["run", "--workers", "3"], run.deck), (["probe"], run.deck),
                         (["verify"], run.dump)):
        test = Test(f"{' '.join(words)}, with one read in turn that fails")
        whole = program.call(*words, given=given)
        for number in range(MOST_TAKES):
            ended = refusing(program, *words, given=given, FAIL_READ=number)
            if ended == whole:
                break
            test.case(f"read {number}", ended == (4, b"", b"read fault\n"), ended)
        test.case(f"{number} reads", number > 1 and ended == whole, ended, "whole")
        test.end()
    test = Test("demo and usage, with the first read failing, which doesn't come")
    for words in ["demo", "7"], ["go"]:
        ended = refusing(program, *words, FAIL_READ=0)
        test.case(" ".join(words), ended == program.call(*words), ended)
    test.end()
    resume_takes(program)


def puts_on(program, run, words, stream, left_after):
    """The writes on a stream fail, one in turn, after 0, 1 and half of their bytes. `left_after` says what the two streams hold where
    the stream's text is cut so far and the failing write begins there. How a text is cut into writes is the program's own affair."""
    test = Test(f"{' '.join(words)}, {run.name}, with one write in turn on stream {stream} failing after 0, 1, half of its bytes")
    text, starts = program.call(*words, given=run.given)[stream], []

    def call(number, taken):
        return refusing(program, *words, given=run.given, FAIL_STREAM=stream, FAIL_WRITE=number, FAIL_TAKES=taken)

    while (ended := call(len(starts), 0))[0] == 5:
        starts.append(len(ended[stream]))
        test.case(f"write {len(starts) - 1} after 0 bytes", ended == (5, *left_after(starts[-1], starts[-1])), ended)
    test.case(f"{len(starts)} writes", len(starts) > 1 and ended == program.call(*words, given=run.given), ended, "whole")
    for number, (start, end) in enumerate(zip(starts, [*starts[1:], len(text)])):
        for taken in sorted({1, (end - start) // 2}):
            ended = call(number, taken)
            test.case(f"write {number} after {taken} bytes", ended == (5, *left_after(start, start + taken)), ended)
    test.end()


def puts_of(program, run):
    """The writes of a call that puts a dump and its report."""
    report, dump_before = b"".join(run.report), dict(run.lines())
    puts_on(program, run, run.words, 1, lambda start, length: (run.dump[:length], run.lines_of(start)))
    puts_on(program, run, run.words, 2, lambda start, length: (run.dump[:dump_before.get(start)], report[:length]))


def puts(program):
    for name, words in (("two_charges", ["run"]), ("two_charges", ["run", "--workers", "3"]), ("two_charges_filtered", ["run"]),
                        ("demo_7", ["run", "--workers", "3"])):
        puts_of(program, Run(program, name, words))
    for words in [], ["--workers", "3"]:
        puts_of(program, Run.resumed(program, "two_charges", *words))
    run = Run(program, "demo_7")
    report = b"".join(run.report)
    puts_on(program, run, ["demo", "7"], 1, lambda start, length: (report[:length], b""))
    for name, words in ("cold_oscillation", ["probe"]), ("antenna", ["probe", "--workers", "3"]):
        run = Run(program, name)
        puts_on(program, run, words, 1, lambda start, length: (run.probe_lines[:length], b""))
    run = Run(program, "two_charges")
    test = Test("check, verify, refusals, usage, with their one write failing after 0, 1, half of its bytes")
    for words, given, stream in (["check"], run.deck, 1), (["verify"], run.dump, 1), (["check"], b"", 2), (["verify"], b"", 2), (["go"], b"", 2):
        line = program.call(*words, given=given)[stream]
        for taken in 0, 1, len(line) // 2:
            ended = refusing(program, *words, given=given, FAIL_STREAM=stream, FAIL_WRITE=0, FAIL_TAKES=taken)
            test.case(f"{' '.join(words)} after {taken}", ended[0] == 5 and ended[1] + ended[2] == line[:taken], ended)
    test.end()


def is_short_of_memory(words, run, ended):
    """Whether the texts are those that a call leaves which finds no memory."""
    status, out, report = ended
    if status != 6:
        return False
    if words[0] in ("demo", "probe"):
        text = b"".join(run.report) if words[0] == "demo" else run.probe_lines
        return text.startswith(out) and (not out or out.endswith(b"\n")) and not report
    if words[0] in ("run", "resume") and out:
        return run.dump.startswith(out) and len(out) in (run.header, *run.frame_ends) and report == run.lines_of(len(out))
    return not out and not report


def has_no_start(ended):
    """Whether the loader found no memory before the program began: 127 is no status of the program."""
    return ended[0] == 127 and not ended[1]


def has_no_stack(words, run, ended):
    """Whether the system, which had no room to let the stack grow, ended the program with a signal: fronts of both texts stand."""
    status, out, report = ended
    text = {"run": run.dump, "resume": run.dump, "demo": b"".join(run.report), "probe": run.probe_lines}.get(words[0], b"")
    has_report = words[0] in ("run", "resume")
    return status == -11 and text.startswith(out) and (has_report or not report) and run.lines_of(len(out)).startswith(report)


def memory_calls(program):
    """Calls that take memory: name, words, the run that they are about, input."""
    for name, words in (
            ("empty", ["check"]), ("empty", ["run"]), ("two_charges", ["check"]), ("two_charges", ["run"]),
            ("two_charges", ["run", "--workers", "3"]), ("two_charges", ["run", "--workers", "64"]), ("two_charges", ["verify"]),
            ("two_charges_filtered", ["check"]), ("two_charges_filtered", ["run"]), ("two_charges_filtered", ["run", "--workers", "3"]),
            ("two_charges_filtered", ["verify"]), ("two_charges", ["probe"]), ("cold_oscillation", ["check"]), ("cold_oscillation", ["run"]),
            ("antenna", ["check"]), ("antenna", ["run"]), ("antenna", ["probe"]), ("antenna", ["verify"]),
            ("demo_7", ["run", "--workers", "4"]), ("demo_7", ["demo", "7"]), ("demo_7", ["demo", "7", "--workers", "64"])):
        run = Run(program, name)
        yield f"{' '.join(words)}, {run.name}", words, run, {"verify": run.dump, "demo": b""}.get(words[0], run.deck)
    for words in [], ["--workers", "64"], ["--workers", "3", "--tiles-x", "2", "--tiles-y", "2", "--tiles-z", "2"]:
        run = Run.resumed(program, "two_charges", *words)
        yield f"{' '.join(run.words)}, {run.name}", run.words, run, run.given
    run = Run.resumed(program, "two_charges_filtered", "--workers", "3")
    yield f"{' '.join(run.words)}, {run.name}", run.words, run, run.given


def room(program):
    for name, words, run, given in memory_calls(program):
        whole = program.call(*words, given=given)

        def call(pages):
            def limit():
                resource.setrlimit(resource.RLIMIT_AS, (pages * PAGE, pages * PAGE))
            return program.call(*words, given=given, preexec_fn=limit)

        test = Test(f"{name}, with room (ulimit -v) from the least that it starts with to enough")
        most = 1
        while call(most) != whole:
            most *= 2
        least = 1
        while call(least)[0] in (-9, -11, 127):         # the system kills what it can't begin
            least += 1
        for pages in range(least, most + 1, max(1, (most - least) // MOST_LIMITS)):
            ended = call(pages)
            if has_no_start(ended):
                test.case(f"{pages} pages", True, ended, "not started")
            elif has_no_stack(words, run, ended):
                test.case(f"{pages} pages", True, ended, "no stack")
            else:
                test.case(f"{pages} pages", ended == whole or is_short_of_memory(words, run, ended), ended)
        test.end()


def growths(program):
    for name, words, run, given in memory_calls(program):
        def call(number):
            count = Path(FOLDER.name) / f"count_{number}"
            count.write_bytes(bytes(8))
            ended = refusing(program, *words, given=given, REFUSE=number, REFUSE_COUNT=count)
            counted = int.from_bytes(count.read_bytes(), sys.byteorder)
            count.unlink()
            return ended, counted

        whole, number = call(0)
        is_each = number <= 2 * SPREAD or "--workers" not in words
        refused = {n for n in range(1, number + 1) if is_each or n <= AT_ENDS or n > number - AT_ENDS}
        refused |= {1 + n * number // SPREAD for n in range(SPREAD)}
        test = Test(f"{name}, with one of {number} requests for memory refused in turn")
        for n, (ended, _) in program.each(call, sorted(refused)):
            test.case(f"request {n}", ended == whole or is_short_of_memory(words, run, ended), ended)
        test.end()


def threads(program):
    tiles = [f"--tiles-{axis}=4" for axis in "xyz"]
    for run in Run(program, "demo_7"), Run.resumed(program, "demo_7", *tiles):
        test = Test(f"{run.words[0]}, {run.name}, on 1 to 64 workers, with all threads refused but the first so many")
        for workers in 1, 2, 3, 4, 63, 64:
            for most in 0, 1, 2, 3, 5, 70, 1000:
                ended = refusing(program, *run.words, "--workers", str(workers), given=run.given, REFUSE_THREADS=most)
                test.case(f"{workers} workers, {most} threads", ended == (0, run.dump, b"".join(run.report)), ended)
        test.end()
