#!/usr/bin/env python3
"""Proves and builds the program of a folder of sources: the crates below pic_prog alone, each once those that it stands on are built.

    release/build.py                                    this checkout's: what ./pic build calls
    release/build.py --sources FOLDER --work WORK --program PROGRAM

The toolchain's command locks a crate's folder and those of the crates below it, so that two of its calls in one checkout wait for each
other. So each crate has a room of its own in WORK: a folder of its sources and of those below it, which it is given as they were built.
WORK keeps what was proved for the next call, also where one was stopped; it may be removed at any time. The program is written beside
PROGRAM and renamed, so that an older one stays until there is a new one.
"""

import argparse
import fcntl
import hashlib
import os
import shutil
import signal
import subprocess
import sys
import time
from pathlib import Path

HOME = Path(__file__).resolve().parents[1]
TOP = "pic_prog"
KINDS = {"src": ".rt", "specs": ".antt", "proofs": ".antt"}
GIB_A_JOB = 3
MAX_JOBS = 4
MAX_KEPT_PROGRAMS = 4
NOT_BUILT = 70


class Crate:
    """A crate: its name, the crates right below it, the seconds that its proof is likely to take on one core, and those of the longest
    chain of crates that begins with it."""

    def __init__(self, name, below, lines):
        self.name, self.below, self.seconds = name, below, 10 + 0.09 * lines
        self.chain = 0.0

    def all_below(self):
        """The crates below it, each behind those that it stands on."""
        found = {}
        for crate in self.below:
            found.update(dict.fromkeys([*crate.all_below(), crate]))
        return list(found)


def read_crates(folder):
    """The program's crate and those below it, each behind those that it stands on."""
    uses = {}
    for line in (folder / "crates.txt").read_text().splitlines():
        name, _, words = line.partition(":")
        uses[name.strip()] = words.split()
    made = {}

    def make(name):
        if name not in made:
            below = [make(word) for word in uses[name] if word in uses]
            files = (folder / "crates" / name / "src").rglob("*.rt")
            made[name] = Crate(name, below, sum(file.read_bytes().count(b"\n") for file in files))
        return made[name]

    make(TOP)
    for crate in reversed(made.values()):
        crate.chain += crate.seconds
        for low in crate.below:
            low.chain = max(low.chain, crate.chain)
    return list(made.values())


def sum_of(sources):
    return subprocess.run([HOME / "pic", "sources", sources], check=True, stdout=subprocess.PIPE, text=True).stdout.strip()


def copy_sources(folder, to):
    """Copies what the program is built of, and the stored run of its crate: the folder may be edited while this works."""
    shutil.rmtree(to, ignore_errors=True)
    to.mkdir(parents=True)
    files = [Path("crates.txt"), Path("HANDLES"), Path("crates") / TOP / "stdin"]
    for crate in read_crates(folder):
        for part, kind in KINDS.items():
            files += [it.relative_to(folder) for it in (folder / "crates" / crate.name / part).rglob(f"*{kind}") if it.is_file()]
    for file in files:
        if not any(word.startswith(".") for word in file.parts):
            (to / file).parent.mkdir(parents=True, exist_ok=True)
            shutil.copy2(folder / file, to / file)


def give(file, to):
    """Gives a file a second name: nothing writes into such a file, since the toolchain removes its own before it makes them anew."""
    try:
        os.link(file, to)
    except OSError:
        shutil.copy2(file, to)


class Rooms:
    """The rooms of the crates in a folder, and the sources that they are given."""

    def __init__(self, work):
        self.work, self.sources = work, work / "sources"

    def place(self, crate, of=None):
        """The folder of a crate in its own room, or in that of another."""
        return self.work / "rooms" / (of or crate).name / "crates" / crate.name

    def lay_out(self, crate):
        """Gives a crate's room its sources, and the crates below it with what was built of them."""
        room, crates = self.work / "rooms" / crate.name, [*crate.all_below(), crate]
        names = {it.name for it in crates}
        room.mkdir(parents=True, exist_ok=True)
        lines = (self.sources / "crates.txt").read_text().splitlines(keepends=True)
        (room / "crates.txt").write_text("".join(line for line in lines if line.partition(":")[0].strip() in names))
        shutil.copy2(self.sources / "HANDLES", room / "HANDLES")
        for it in crates:
            self.give_sources(it, crate)
        for it in crates[:-1]:
            self.give_built(it, crate)

    def give_sources(self, crate, of):
        to = self.place(crate, of)
        to.mkdir(parents=True, exist_ok=True)
        for part in KINDS:
            shutil.rmtree(to / part, ignore_errors=True)
            if (self.sources / "crates" / crate.name / part).is_dir():
                shutil.copytree(self.sources / "crates" / crate.name / part, to / part, copy_function=give)

    def give_built(self, crate, of):
        """Gives a room what was built of a crate below, unless it has just that: the toolchain's stamp and format tell."""
        built, to = (self.place(crate, it) / "out" / "rlib" for it in (None, of))
        names = ("stamp", f"{crate.name}.rlib/format")
        if not all((to / it).is_file() and (to / it).read_bytes() == (built / it).read_bytes() for it in names):
            shutil.rmtree(to, ignore_errors=True)
            to.parent.mkdir(exist_ok=True)
            shutil.copytree(built, to, copy_function=give)


def plain():
    """The environment without the toolchain's own words, which choose another compiler, say: the same sources give the same program."""
    return {name: value for name, value in os.environ.items() if not name.startswith("RT_")}


def cores():
    return len(os.sched_getaffinity(0))


def lanes():
    """How many jobs there may be at once: one a core, where memory allows."""
    with open("/proc/meminfo") as file:
        kib = next(int(line.split()[1]) for line in file if line.startswith("MemAvailable:"))
    return max(1, min(cores(), kib // (GIB_A_JOB << 20)))


class Build:
    """A build: the crates that are left, those at work with their calls, jobs and since when, and those that are built."""

    def __init__(self, rooms, crates):
        self.rooms, self.crates, self.left = rooms, crates, sorted(crates, key=lambda it: -it.chain)
        self.running, self.built, self.lanes = {}, set(), lanes()
        self.since, self.said = time.monotonic(), None
        (rooms.work / "logs").mkdir(parents=True, exist_ok=True)

    def log(self, crate):
        return self.rooms.work / "logs" / crate.name

    def start(self, crate, jobs):
        self.rooms.lay_out(crate)
        folder, given = self.rooms.place(crate), os.devnull
        if crate.name == TOP:
            (folder / "out" / TOP).unlink(missing_ok=True)
            given = self.rooms.sources / "crates" / TOP / "stdin"
        words = ["rt", "run" if crate.name == TOP else "lib", "--jobs", str(jobs)]
        with self.log(crate).open("wb") as log, open(given, "rb") as file:
            call = subprocess.Popen(words, cwd=folder, env=plain(), stdin=file, stdout=log, stderr=subprocess.STDOUT)
        self.left.remove(crate)
        self.running[crate] = call, jobs, time.monotonic()

    def start_what_can(self):
        """Starts crates that wait for none, first those with the longest chain above them, with more jobs than one where cores are idle."""
        ready = [it for it in self.left if self.built.issuperset(it.below)]
        for at, crate in enumerate(ready):
            idle = self.lanes - sum(jobs for _, jobs, _ in self.running.values())
            if idle > 0:
                self.start(crate, max(1, min(MAX_JOBS, idle // (len(ready) - at))))

    def end_what_has(self):
        """Takes off the calls that have ended, and gives a crate that wasn't built, if there is one."""
        for crate, (call, _, _) in list(self.running.items()):
            if call.poll() is not None:
                del self.running[crate]
                if call.returncode:
                    return crate
                self.built.add(crate)
        return None

    def run(self):
        """Builds all, and gives a crate that wasn't built, if there is one."""
        lost = None
        try:
            while lost is None and (self.left or self.running):
                self.start_what_can()
                self.say()
                time.sleep(0.2)
                lost = self.end_what_has()
        finally:
            for call, _, _ in self.running.values():
                call.terminate()
            for call, _, _ in self.running.values():
                call.wait()
        return lost

    def say(self):
        """Says where it stands: in one line that is written over where that is a terminal, or else where a crate begins or ends."""
        names = ", ".join(crate.name for crate in self.running)
        passed = time.monotonic() - self.since
        line = f"pic: {len(self.built)} of {len(self.crates)} crates, {passed / 60:.0f} minutes, {self.minutes_left()} to go: {names}"
        if sys.stderr.isatty():
            print(f"\r{line[:110]:110}", end="\n" * (not names), file=sys.stderr, flush=True)
        elif names != self.said:
            print(line, file=sys.stderr, flush=True)
        self.said = names

    def minutes_left(self):
        """What is left by the cores' work or by the longest chain, as far as the lines of the crates tell."""
        now, begun = time.monotonic(), {it: since for it, (_, _, since) in self.running.items()}
        done = {it: min(now - since, 0.9 * it.seconds) for it, since in begun.items()}
        work = sum(it.seconds - done.get(it, 0) for it in [*self.left, *begun])
        chain = max((it.chain - done.get(it, 0) for it in [*self.left, *begun]), default=0)
        return f"some {max(work / self.lanes, chain) / 60:.0f}"


def say_why(build, crate):
    lines = build.log(crate).read_text(errors="replace").splitlines()
    wrong = [line for line in lines if "error" in line]
    print(*(wrong[:20] or lines[-20:]), f"pic: {crate.name} isn't proved, so nothing was built; its log is {build.log(crate)}",
          sep="\n", file=sys.stderr)
    return NOT_BUILT


def put(program, to):
    """Puts the program in its place in one step: what runs an older one there goes on."""
    to.parent.mkdir(parents=True, exist_ok=True)
    new = to.parent / f".{to.name}.{os.getpid()}"
    shutil.copy2(program, new)
    os.replace(new, to)


def keep_few(folder):
    """Removes all but the newest of the programs that were built here."""
    programs = sorted(folder.glob("pic-*"), key=lambda it: it.stat().st_mtime, reverse=True)
    for old in programs[MAX_KEPT_PROGRAMS:]:
        old.unlink()


def locked(work):
    """Waits until no other call works there, and gives the open file that keeps others out."""
    work.mkdir(parents=True, exist_ok=True)
    file = (work / "lock").open("w")
    try:
        fcntl.flock(file, fcntl.LOCK_EX | fcntl.LOCK_NB)
    except BlockingIOError:
        print("pic: another call builds this; waiting for it", file=sys.stderr)
        fcntl.flock(file, fcntl.LOCK_EX)
    return file


def work_here():
    """The folder for what is kept between builds of this checkout: outside it, since its own checks read each file in it."""
    cache = os.environ.get("XDG_CACHE_HOME") or Path.home() / ".cache"
    return Path(cache) / "pic" / f"{HOME.name}-{hashlib.sha256(os.fsencode(HOME)).hexdigest()[:8]}"


def build(sources, work, program):
    """Builds the program of the folder sources, and gives the exit status."""
    with locked(work):
        rooms = Rooms(work)
        copy_sources(sources, rooms.sources)
        to = program or HOME / "out" / f"pic-{sum_of(rooms.sources)[:16]}"
        if to.exists():
            print(f"pic: {to} is built", file=sys.stderr)
            return 0
        made = Build(rooms, read_crates(rooms.sources))
        lost = made.run()
        if lost:
            return say_why(made, lost)
        put(rooms.place(made.crates[-1]) / "out" / TOP, to)
        if not program:
            keep_few(to.parent)
        print(f"pic: {to} is built; {work} keeps what the next build begins with", file=sys.stderr)
        return 0


def main():
    words = argparse.ArgumentParser(description=__doc__, formatter_class=argparse.RawDescriptionHelpFormatter)
    words.add_argument("--sources", default=HOME, type=Path)
    words.add_argument("--work", default=work_here(), type=Path)
    words.add_argument("--program", type=Path)
    chosen = words.parse_args()
    signal.signal(signal.SIGTERM, lambda *_: sys.exit(128 + signal.SIGTERM))
    try:
        return build(chosen.sources.resolve(), chosen.work.resolve(), chosen.program)
    except KeyboardInterrupt:
        print("\npic: stopped; ./pic build goes on from here", file=sys.stderr)
        return 128 + signal.SIGINT


if __name__ == "__main__":
    sys.exit(main())
