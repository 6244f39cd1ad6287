"""A second model of the serial run, slow, after docs/SCHEME.md and docs/FORMATS.md. It shares no code with the program.

    python3 examples/compare.py DECK DUMP                      is DUMP byte for byte what the model gives for DECK?
    python3 examples/compare.py --random COUNT PROGRAM [KIND]  do PROGRAM and the model agree on COUNT random decks?

PROGRAM is the path of the built program. Dump, report and exit status are compared, and with the KIND `probe` what its `probe` puts
as well. The exit status here is 0 where all agree, 1 where something differs, 2 for other words. The model takes it that a deck has the
right form: of the refusals it knows those of a force value at the start and that of Gauss's law. Random decks are those of
random_decks.py, which says what KINDs there are; each is run on 1, 3 and 64 workers.
"""

import subprocess
import sys
import tomllib
from collections import Counter
from fractions import Fraction
from math import trunc
from struct import pack

from sources import particles, rounded, scaled

WORKERS = 1, 3, 64
CORNERS = [(dx, dy, dz) for dz in (0, 1) for dy in (0, 1) for dx in (0, 1)]
PHASES, BOUNDS, FAULTS = ("", "half1", "", "half2", "electric"), ("", "value", "force"), ("", "speed", "turn", "far")


class Halt(Exception):
    """The end of a run, with its exit status, last line of the report, and end record."""


def cross(u, w):
    return [u[1] * w[2] - u[2] * w[1], u[2] * w[0] - u[0] * w[2], u[0] * w[1] - u[1] * w[0]]


def wide(number, signed=True):
    return number.to_bytes(16, "big", signed=signed)


def differences(field, high, low):
    """The curl of a field. The tables `high` and `low` have the two places of a difference, for each axis."""
    return [[field[c][high[b][n]] - field[c][low[b][n]] - field[b][high[c][n]] + field[b][low[c][n]]
             for n in range(len(field[0]))] for b, c in ((1, 2), (2, 0), (0, 1))]


def pieces(start, move, side):
    """The straight pieces of a path, each with the cell that it lies in. Nothing is wrapped."""
    end, crossings = [p + d for p, d in zip(start, move)], []
    for a in range(3):
        before, after = start[a] // side, end[a] // side
        if before != after:
            crossings.append((Fraction(max(before, after) * side - start[a], move[a]), a, after - before))
    cell, here = [p // side for p in start], start
    for fraction, a, sign in sorted(crossings):
        there = [p + trunc(fraction * d) for p, d in zip(start, move)]
        yield cell, here, there
        cell, here = [c + sign * (b == a) for b, c in enumerate(cell)], there
    yield cell, here, end


class Model:
    """The state of a run: fields as three lists each, x fastest, and particles as (kind, position, velocity)."""

    def __init__(self, text):
        deck = tomllib.loads(text)
        self.version, self.cells, self.scale = deck["version"], deck["grid"]["cells"], deck["scale"]
        self.side = 2 ** deck["grid"]["sub"] if self.version == 2 else 4096
        self.steps, self.every, self.filter = deck["run"]["steps"], deck["run"]["every"], deck["run"].get("filter", 0)
        self.lay_out()
        field = deck.get("field", {})
        self.electric, self.magnetic = ([[v] * len(self.places) for v in field.get(name, [0, 0, 0])] for name in "eb")
        for part, name in (self.electric, "edges"), (self.magnetic, "faces"):
            for axis, i, j, k, value in field.get(name, []):
                part[axis][self.at(i, j, k)] += value
        self.kinds, self.loops, self.probes = deck.get("species", []), deck.get("drive", []), deck.get("probe", {})
        rows, box = {}, [n * self.side for n in self.cells]
        for kind in self.kinds:
            rows[kind["name"]] = particles(kind, box, rows)
        self.counts = [len(part) for part in rows.values()]
        self.particles = [(kind, row[:3], row[3:]) for kind in self.kinds for row in rows[kind["name"]]]
        self.displaced = [(kind, row[:3], kind["displace"]["by"]) for kind in self.kinds if "displace" in kind
                          for row in rows[kind["displace"]["of"]]]

    def lay_out(self):
        """The places of the grid with their neighbours, and two empty texts."""
        nx, ny, nz = self.cells
        self.places = [(i, j, k) for k in range(nz) for j in range(ny) for i in range(nx)]
        self.up = [[self.at(*(c + (b == a) for b, c in enumerate(p))) for p in self.places] for a in range(3)]
        self.down = [[self.at(*(c - (b == a) for b, c in enumerate(p))) for p in self.places] for a in range(3)]
        self.here = [range(len(self.places))] * 3
        self.dump, self.report = [], []

    def at(self, i, j, k):
        nx, ny, nz = self.cells
        return i % nx + nx * (j % ny + ny * (k % nz))

    def forces(self, field, name):
        return [[scaled(value, self.scale[name]) for value in part] for part in field]

    def test_start(self):
        """A force value of the deck's fields that is too large, or of the E of its displaced particles, and a charge that doesn't
        meet Gauss's law."""
        self.test_forces(self.electric, "e_force")
        self.test_forces(self.magnetic, "b_force")
        self.displace()
        self.test_forces(self.electric, "e_force")
        self.test_gauss()

    def test_forces(self, field, name):
        for value in sum(self.forces(field, name), []):
            if abs(value) > 2**44:
                raise Halt(3, f"refused 5 limit scale.{name} {value} {-2**44} {2**44}", b"")

    def displace(self):
        """E less the current of the displaced particles on their ways, each from the place that it is displaced from."""
        current = self.no_current()
        for kind, place, way in self.displaced:
            self.add_way(current, kind, place, way)
        self.electric = [[e - j for e, j in zip(part, self.filtered(flow))] for part, flow in zip(self.electric, current)]

    def weights(self, position):
        """The eight nodes around a position, and its weight at each."""
        for corner in CORNERS:
            x, y, z = (p % self.side if d else self.side - p % self.side for p, d in zip(position, corner))
            yield self.at(*(p // self.side + d for p, d in zip(position, corner))), x * y * z

    def filtered(self, values):
        """The binomial filter of a number at each place, axis by axis, which are weights of 64 in all; or with filter 0 the numbers."""
        for down, up in zip(self.down, self.up) if self.filter else ():
            values = [values[down[n]] + 2 * value + values[up[n]] for n, value in enumerate(values)]
        return values

    def charges(self):
        """12 times the charge of the particles at each node, filtered."""
        charge = [0] * len(self.places)
        for kind, position, _ in self.particles:
            for node, weight in self.weights(position):
                charge[node] += 12 * kind["charge"] * weight
        return self.filtered(charge)

    def test_gauss(self):
        """Div E at every node is the charge there."""
        for n, (place, charge) in enumerate(zip(self.places, self.charges())):
            divergence = sum(self.electric[a][n] - self.electric[a][self.down[a][n]] for a in range(3))
            if divergence != charge:
                raise Halt(3, "gauss %d %d %d div %d rho %d" % (*place, divergence, charge), b"")

    def write_header(self):
        self.dump.append(b"PICDUMP%d" % self.version + pack(">5I", *self.cells, self.steps, self.every))
        self.dump += [pack(">iI", *self.scale[name]) for name in ("e_to_b", "b_to_e", "e_force", "b_force")]
        # Version 2 has the sub-cells of a cell as a power of 2, the filter, and the number of loops.
        self.dump.append(pack(">3I", self.side.bit_length() - 1, self.filter, len(self.loops)) if self.version == 2 else b"")
        self.dump.append(pack(">I", len(self.kinds)))
        for kind, count in zip(self.kinds, self.counts):
            numbers = kind["charge"], kind["mass"], *kind["kick"], *kind["turn"], count
            self.dump.append(pack(">32siIiIiII", kind["name"].encode(), *numbers))
        for loop in self.loops:
            length = len(loop["wave"])
            self.dump.append(pack(f">5I{length}q", loop["axis"], *loop["cell"], length, *loop["wave"]))

    def write_frame(self, step):
        """A frame, and its line of the report. Gauss's law is tested anew, which the program doesn't do."""
        self.test_gauss()
        self.dump.append(b"F" + pack(">I", step))
        self.dump += [wide(value) for field in (self.electric, self.magnetic) for part in field for value in part]
        self.dump += [pack(">3I3i", *position, *velocity) for _, position, velocity in self.particles]
        kinetic = sum(kind["mass"] * sum(c * c for c in velocity) for kind, _, velocity in self.particles)
        electric = sum(f * f for part in self.forces(self.electric, "e_force") for f in part)
        magnetic = sum(f * f for part in self.forces(self.magnetic, "b_force") for f in part)
        self.dump += [wide(energy, False) for energy in (kinetic, electric, magnetic)]
        self.report.append(f"frame {step} kinetic {kinetic} electric {electric} magnetic {magnetic}")

    def write_probes(self, step):
        """The step, the values at the probed places, and where the probed particles are and how they move. Gauss's law is tested."""
        self.test_gauss()
        numbers = [(self.electric, self.magnetic)[field][axis][self.at(*cell)] for field, axis, *cell in self.probes.get("places", [])]
        for identity in self.probes.get("ids", []):
            _, position, velocity = self.particles[identity]
            numbers += [*position, *velocity]
        self.report.append(" ".join(map(str, [step, *numbers])))

    def test_field(self, step, phase, field, name):
        """No new value of a field phase, and no force value of it, is too large."""
        for axis, place, value in ((a, p, v) for a in range(3) for p, v in zip(self.places, field[a])):
            for bound, number, limit in (1, value, 2**90), (2, scaled(value, self.scale[name]), 2**44):
                if abs(number) > limit:
                    line = "stopped %d field %s %s %d %d %d %d %d"
                    words = step, PHASES[phase], BOUNDS[bound], axis, *place, number
                    record = pack(">cBIBBB3I", b"E", 1, step, phase, bound, axis, *place) + wide(number)
                    raise Halt(1, line % words, record)

    def half_step(self, step, phase):
        """B becomes B less the curl of the scaled E."""
        curl = differences(self.forces(self.electric, "e_to_b"), self.up, self.here)
        self.magnetic = [[b - c for b, c in zip(*parts)] for parts in zip(self.magnetic, curl)]
        self.test_field(step, phase, self.magnetic, "b_force")

    def electric_step(self, step, current):
        """E becomes E and the curl of the scaled B and the loops, less the filtered current."""
        current, scaled_b = [self.filtered(part) for part in current], self.forces(self.magnetic, "b_to_e")
        for loop in self.loops:
            scaled_b[loop["axis"]][self.at(*loop["cell"])] += loop["wave"][(step - 1) % len(loop["wave"])]
        curl = differences(scaled_b, self.here, self.down)
        self.electric = [[e + c - j for e, c, j in zip(*parts)] for parts in zip(self.electric, curl, current)]
        self.test_field(step, 4, self.electric, "e_force")

    def gather(self, forces, position, shifted):
        """The force at a position, on the lattice that is shifted by half a cell along the axes of `shifted`."""
        local = [p - self.side // 2 * (a in shifted) for a, p in enumerate(position)]
        return rounded(sum(forces[node] * weight for node, weight in self.weights(local)), self.side**3)

    def push(self, step, identity, electric, magnetic):
        """Boris's push of a particle: its new velocity and its move."""
        kind, _, velocity = self.particles[identity]

        def test(fault, numbers, limit):
            for axis, number in enumerate(numbers):
                if abs(number) > limit:
                    record = pack(">cBIIBB", b"E", 2, step, identity, fault, axis) + wide(number)
                    raise Halt(1, f"stopped {step} particle {identity} {FAULTS[fault]} {axis} {number}", record)

        kick = [scaled(c, kind["kick"]) for c in electric]
        middle = [v + h for v, h in zip(velocity, kick)]
        test(1, middle, 2**40)
        turn = [scaled(c, kind["turn"]) for c in magnetic]
        test(2, turn, 2**24)
        halfway = [v + rounded(c, 2**20) for v, c in zip(middle, cross(middle, turn))]
        whole = 2**40 + sum(t * t for t in turn)
        turned = [v + rounded(2**21 * c, whole) for v, c in zip(middle, cross(halfway, turn))]
        velocity = [v + h for v, h in zip(turned, kick)]
        move = [rounded(v, 4096) for v in velocity]
        test(3, move, self.side)
        return velocity, move

    def no_current(self):
        return [[0] * len(self.places) for _ in range(3)]

    def add_way(self, current, kind, place, way):
        """The current of a particle that goes this way from a place."""
        for cell, start, end in pieces(place, way, self.side):
            self.add_flux(current, kind["charge"], cell, start, end)

    def add_flux(self, current, charge, cell, start, end):
        """Villasenor and Buneman's current of one piece, times 12, on the twelve edges of its cell."""
        first, last = ([p - c * self.side for p, c in zip(point, cell)] for point in (start, end))
        assert all(0 <= p <= self.side for p in first + last), "a piece leaves its cell"
        for a in range(3):
            b, c = (a + 1) % 3, (a + 2) % 3
            for edge_b, edge_c in (0, 0), (1, 0), (0, 1), (1, 1):
                b0, b1 = (p[b] if edge_b else self.side - p[b] for p in (first, last))
                c0, c1 = (p[c] if edge_c else self.side - p[c] for p in (first, last))
                edge = [p + (i == b and edge_b) + (i == c and edge_c) for i, p in enumerate(cell)]
                mean = 3 * (b0 + b1) * (c0 + c1) + (b1 - b0) * (c1 - c0)
                current[a][self.at(*edge)] += charge * (last[a] - first[a]) * mean

    def push_all(self, step):
        """Moves all particles, and gives the current."""
        electric, magnetic = self.forces(self.electric, "e_force"), self.forces(self.magnetic, "b_force")
        current = self.no_current()
        for identity, (kind, position, _) in enumerate(self.particles):
            e = [self.gather(electric[a], position, [a]) for a in range(3)]
            b = [self.gather(magnetic[a], position, [(a + 1) % 3, (a + 2) % 3]) for a in range(3)]
            velocity, move = self.push(step, identity, e, b)
            self.add_way(current, kind, position, move)
            position = [(p + d) % (n * self.side) for p, d, n in zip(position, move, self.cells)]
            self.particles[identity] = kind, position, velocity
        return current

    def is_due(self, step):
        """Whether the run writes a frame of this step."""
        return step % self.every == 0 or step == self.steps

    def go_on(self, last):
        """The steps behind the step `last`, to the run's end."""
        for step in range(last + 1, self.steps + 1):
            self.half_step(step, 1)
            current = self.push_all(step)
            self.half_step(step, 3)
            self.electric_step(step, current)
            if self.is_due(step):
                self.write_frame(step)
        raise Halt(0, f"done {self.steps}", pack(">cBI", b"E", 0, self.steps))

    def texts(self, line, record=b""):
        """The dump and the report so far, with a last record and a last line."""
        return b"".join(self.dump) + record, "\n".join(self.report + [line, ""]).encode()

    def run(self):
        """The whole run: its exit status, dump and report."""
        try:
            self.test_start()
            self.write_header()
            self.write_frame(0)
            self.go_on(0)
        except Halt as end:
            status, line, record = end.args
            return status, *self.texts(line, record)

    def probe(self):
        """The same run with a line for each of its states in place of frames: exit status, lines and report."""
        self.every, self.write_frame = 1, self.write_probes
        try:
            self.test_start()
            self.write_frame(0)
            self.go_on(0)
        except Halt as end:
            text = self.texts(end.args[1])[1]
            return (end.args[0], text, b"") if end.args[0] < 3 else (end.args[0], b"", text)


def difference(model, other):
    """Where two byte strings first differ, in words, or nothing."""
    if model == other:
        return ""
    place = next((i for i, (a, b) in enumerate(zip(model, other)) if a != b), min(len(model), len(other)))
    return f"differs at byte {place} (the model has {len(model)} bytes, the other {len(other)})"


def call_difference(program, word, workers, text, wanted):
    """Where a call of the program with a deck, on so many workers, isn't what the model gave, in words, or nothing."""
    done = subprocess.run([program, word, "--workers", str(workers)], input=text.encode(), capture_output=True, timeout=600)
    status, out, report = wanted
    words = [difference(out, done.stdout), difference(report, done.stderr)]
    if any(words) or status != done.returncode:
        return (f"{word}, {workers} workers: output {words[0] or 'agrees'}; report {words[1] or 'agrees'}; "
                f"status {status} and {done.returncode}")
    return ""


def compare_random(count, program, kind):
    """Runs the program and the model on the decks 0, 1, .., and counts how they end."""
    from random_decks import random_deck        # which stands on this module

    ends, differ = Counter(), 0
    for number in range(count):
        text = random_deck(number, kind)
        wanted = {"run": Model(text).run()} | ({"probe": Model(text).probe()} if kind == "probe" else {})
        last = wanted["run"][2].decode().splitlines()[-1].split()
        ends[" ".join(word for word in last[:5] if word[0].isalpha())] += 1
        found = [line for word in wanted for workers in WORKERS if (line := call_difference(program, word, workers, text, wanted[word]))]
        if found:
            differ += 1
            print(f"deck {number}, {'; '.join(found)}. The deck:\n{text}")
    print(f"{count - differ} of {count} random decks agree. They end so:")
    for end, times in sorted(ends.items()):
        print(f"{times:6} {end}")
    return differ > 0


def main(words):
    from random_decks import KINDS

    if words[:1] == ["--random"] and len(words) in (3, 4) and words[1].isdecimal() and set(words[3:]) <= set(KINDS):
        return compare_random(int(words[1]), words[2], "".join(words[3:]))
    if len(words) != 2 or words[0].startswith("-"):
        print(__doc__, file=sys.stderr)
        return 2
    with open(words[0], encoding="utf-8") as deck, open(words[1], "rb") as dump:
        _, model, report = Model(deck.read()).run()
        found = difference(model, dump.read())
    print(f"the dump {found or 'agrees'}; the model's run ends with: {report.decode().splitlines()[-1]}")
    return found != ""


if __name__ == "__main__":
    sys.exit(main(sys.argv[1:]))
