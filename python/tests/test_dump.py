"""The reader against exact whole numbers, on random dumps and on cut and damaged ones."""

import importlib.util
import io
import random
import struct
import tempfile
import tracemalloc
import unittest
from pathlib import Path
from unittest import mock

import numpy as np

from pictools.dump import Dump, DumpError, exact, rounded
from pictools.header import WIDE, frame_length

CELLS, COUNTS = (3, 2, 4), (2, 1)


def random_dump(dice: random.Random, steps: int, every: int, end: bytes) -> tuple[bytes, list]:
    """The bytes of a dump with random numbers, and the numbers of its frames: step, fields, particles, energies."""
    data = b"PICDUMP1" + struct.pack(">5I", *CELLS, steps, every)
    data += struct.pack(">iIiIiIiI", -3, 1, 5, 2, 2**31 - 1, 62, 1, 20) + struct.pack(">I", len(COUNTS))
    for name, count in zip((b"ion", b"electron_2"), COUNTS):
        data += struct.pack(">32siIiIiII", name, -7, 1836, 1, 2, -3, 4, count)
    frames = []
    for step in [s for s in range(steps + 1) if s % every == 0 or s == steps]:
        fields = [dice.choice([1, -1]) * dice.getrandbits(dice.randint(1, 90)) for _ in range(6 * 24)]
        particles = [[dice.getrandbits(13) for _ in range(3)] + [dice.randint(-2**24, 2**24) for _ in range(3)]
                     for _ in range(sum(COUNTS))]
        energies = [dice.getrandbits(128) for _ in range(3)]
        data += b"F" + struct.pack(">I", step) + b"".join(f.to_bytes(16, "big", signed=True) for f in fields)
        data += b"".join(struct.pack(">3I3i", *p) for p in particles) + b"".join(e.to_bytes(16, "big") for e in energies)
        frames.append((step, fields, particles, tuple(energies)))
    return data + end, frames


DONE = b"E\0" + struct.pack(">I", 5)


class Reading(unittest.TestCase):
    def setUp(self):
        folder = tempfile.TemporaryDirectory()
        self.addCleanup(folder.cleanup)
        self.path = Path(folder.name) / "a.dump"

    def read(self, data: bytes) -> Dump:
        self.path.write_bytes(data)
        return Dump(self.path)

    def fault(self, data: bytes) -> DumpError:
        """The error of these bytes, which a file and a pipe give alike."""
        with self.assertRaises(DumpError) as file:
            self.read(data)
        with self.assertRaises(DumpError) as pipe:
            list(Dump.stream(io.BytesIO(data)))
        self.assertEqual(str(file.exception), str(pipe.exception))
        return file.exception

    def compare(self, frame, numbers):
        step, fields, particles, energies = numbers
        self.assertEqual((frame.step, frame.energies), (step, energies))
        for values, whole in (frame.e, frame.exact_e), (frame.b, frame.exact_b):
            self.assertEqual(values.shape, (3, 4, 2, 3))
            self.assertEqual(values.tolist(), np.vectorize(float)(whole).tolist())
        self.assertEqual(frame.exact_e.ravel().tolist() + frame.exact_b.ravel().tolist(), fields)
        self.assertEqual(np.hstack([frame.particles["position"], frame.particles["velocity"]]).tolist(), particles)

    def test_random_dumps(self):
        for number in range(5):
            data, frames = random_dump(random.Random(number), 5, 2, DONE)
            dump, stream = self.read(data), Dump.stream(io.BytesIO(data))
            self.assertEqual(dump.steps.tolist(), [0, 2, 4, 5])
            self.assertEqual(dump.header, stream.header)
            for frame, other, numbers in zip(dump, stream, frames, strict=True):
                self.compare(frame, numbers)
                self.compare(other, numbers)
            self.assertEqual(dump.end, stream.end)
            self.assertEqual(dump.end.text, "done 5")

    def test_header_and_species(self):
        dump = self.read(random_dump(random.Random(0), 0, 1, b"E" + bytes(5))[0])
        self.assertEqual(dump.header.cells, CELLS)
        self.assertEqual((dump.header.e_to_b.value, dump.header.b_to_e.value), (-1.5, 1.25))
        electron = dump.header.named("electron_2")
        self.assertEqual((electron.charge, electron.mass, electron.kick.value, electron.first), (-7, 1836, 0.25, 2))
        self.assertEqual(dump[0].particles["species"].tolist(), [0, 0, 1])
        self.assertEqual(len(dump[0].species("ion")), 2)
        self.assertEqual(dump.field("b", 2).shape, (1, 4, 2, 3))
        with self.assertRaisesRegex(KeyError, "there are ion, electron_2"):
            dump[0].species("muon")

    def test_stopped_runs(self):
        field = b"E\1" + struct.pack(">IBBB3I", 3, 4, 2, 1, 2, 0, 3) + (-2**50).to_bytes(16, "big", signed=True)
        push = b"E\2" + struct.pack(">IIBB", 4, 2, 3, 0) + (4097).to_bytes(16, "big")
        for end, line in (field, f"stopped 3 field electric force 1 2 0 3 {-2**50}"), (push, "stopped 4 particle 2 far 0 4097"):
            dump = self.read(random_dump(random.Random(1), 2, 2, b"")[0].replace(struct.pack(">II", 2, 2),
                                                                             struct.pack(">II", 9, 2), 1) + end)
            self.assertEqual((dump.end.done, dump.end.text), (False, line))

    def test_damaged_stops(self):
        front = random_dump(random.Random(1), 2, 2, b"")[0].replace(struct.pack(">II", 2, 2), struct.pack(">II", 9, 2), 1)
        push = b"E\2" + struct.pack(">IIBB", 4, 2, 3, 0) + (4097).to_bytes(16, "big")
        for place, new, reason in ((5, 5, "step"), (9, 3, "identity"), (10, 4, "fault"), (11, 3, "axis"), (27, 0, "pass")):
            error = self.fault(front + push[:place] + bytes([new]) + push[place + 1 :])
            self.assertIn(reason, str(error))
            self.assertLessEqual(abs(len(front) + place - error.place), 15 if place == 27 else 3)

    def test_every_cut(self):
        data, _ = random_dump(random.Random(2), 5, 2, DONE)
        for length in [*range(0, len(data), 97), *range(len(data) - 8, len(data))]:
            self.assertEqual(self.fault(data[:length]).place, length)

    def test_whole_frames_of_every_cut(self):
        data, frames = random_dump(random.Random(2), 5, 2, DONE)
        first = 184 + 53 + 96 * 24 + 24 * 3
        for length in [*range(first, len(data), 97), *range(len(data) - 8, len(data))]:
            self.path.write_bytes(data[:length])
            dump, stream = Dump(self.path, partial=True), Dump.stream(io.BytesIO(data[:length]), partial=True)
            count = min((length - 184) // (first - 184), 4)
            for one, frame, numbers in zip(dump, stream, frames[:count], strict=True):
                self.compare(one, numbers)
                self.compare(frame, numbers)
            self.assertEqual((dump.cut, dump.end), (stream.cut, stream.end))
            self.assertEqual(dump.cut[: 6 + len(str(length))], f"byte {length}:"[: 6 + len(str(length))])
            self.assertIsNone(dump.end)
        for length in 0, 63, 100, 184, first - 1:
            self.path.write_bytes(data[:length])
            with self.assertRaises(DumpError):
                Dump(self.path, partial=True)
            with self.assertRaises(DumpError):
                list(Dump.stream(io.BytesIO(data[:length]), partial=True))
        self.path.write_bytes(data)
        whole, stream = Dump(self.path, partial=True), Dump.stream(io.BytesIO(data), partial=True)
        self.assertEqual((whole.cut, whole.end.text, len(list(stream)), stream.cut, stream.end), ("", "done 5", 4, "", whole.end))

    def test_damage_is_no_cut(self):
        data, _ = random_dump(random.Random(3), 5, 2, DONE)
        size = 53 + 96 * 24 + 24 * 3
        for place, new in ((8, bytes(4)), (184, b"G"), (185 + size, b"\0\0\0\3"), (184 + 4 * size + 1, b"\1"),
                           (184 + 3 * size, b"X")):
            spoilt = data[:place] + new + data[place + len(new) :]
            self.path.write_bytes(spoilt)
            with self.assertRaises(DumpError):
                Dump(self.path, partial=True)
            with self.assertRaises(DumpError):
                list(Dump.stream(io.BytesIO(spoilt), partial=True))

    def test_parts_and_steps(self):
        data, frames = random_dump(random.Random(6), 9, 2, b"E\0" + struct.pack(">I", 9))
        dump = self.read(data)
        self.assertEqual(dump.steps.tolist(), [0, 2, 4, 6, 8, 9])
        self.compare(dump.at(6), frames[3])
        self.compare(dump[-2], frames[4])
        for one, other in ((dump[1:4], [1, 2, 3]), (dump[::2], [0, 2, 4]), (dump[-2:], [4, 5]), (dump[4:2], [])):
            self.assertEqual([frame.step for frame in one], [frames[i][0] for i in other])
            self.assertEqual((one.steps.tolist(), one.energies.shape[0]), ([frames[i][0] for i in other], len(other)))
        self.assertEqual(dump[1:4].field("b", 1).tolist(), dump.field("b", 1)[1:4].tolist())
        self.assertEqual((dump[::2].header.every, dump[1:].header.every), (4, 2))
        for step, near in (5, "4 and 6"), (-1, "0"), (10, "9"):
            with self.assertRaisesRegex(ValueError, f"no frame of step {step}; near it are {near}$"):
                dump.at(step)
        with self.assertRaisesRegex(ValueError, "forward"):
            dump[::-1]
        with self.assertRaises(IndexError):
            dump[6]

    def test_repr(self):
        data, _ = random_dump(random.Random(6), 5, 2, DONE)
        line = f"<Dump {self.path}: 3 x 2 x 4 cells, 3 particles, 4 frames of steps 0 to 5, done 5>"
        self.assertEqual(repr(self.read(data)), line)
        self.assertEqual(repr(self.read(data)[1]), "<Frame of step 2: 3 x 2 x 4 cells, 3 particles>")
        self.path.write_bytes(data[:-1])
        self.assertIn("without its end", repr(Dump(self.path, partial=True)))

    def test_numbers_of_the_header(self):
        header = self.read(random_dump(random.Random(6), 9, 2, b"E\0" + struct.pack(">I", 9))[0]).header
        self.assertEqual((header.frames, frame_length(header.cells, header.particles)), (6, header.frame_type.itemsize))

    def test_field_takes_the_memory_of_its_result_and_a_frame(self):
        dump = self.read(random_dump(random.Random(7), 400, 1, b"E\0" + struct.pack(">I", 400))[0])
        dump.field("e", 0)
        for call, result in (lambda: dump.field("e", 1), 401 * 24 * 8), (lambda: dump.profile("b", 2, "z"), 401 * 4 * 8):
            tracemalloc.start()
            values = call()
            most = tracemalloc.get_traced_memory()[1]
            tracemalloc.stop()
            self.assertEqual(values.nbytes, result)
            self.assertLess(most, result + 20000)
        for along, axes in ("x", (1, 2)), ("y", (1, 3)), ("z", (2, 3)):
            mean = dump.field("b", 2).mean(axis=axes)
            self.assertLess(abs(dump.profile("b", 2, along) / mean - 1).max(), 1e-12)

    def test_tables_without_their_libraries(self):
        dump = self.read(random_dump(random.Random(6), 5, 2, DONE)[0])
        for name, call in ("pandas", dump[0].table), ("xarray", dump.to_xarray):
            with mock.patch.dict("sys.modules", {name: None}), self.assertRaisesRegex(ModuleNotFoundError, f"it is python3-{name}$"):
                call()

    @unittest.skipUnless(importlib.util.find_spec("pandas"), "pandas isn't there")
    def test_pandas(self):
        frame = self.read(random_dump(random.Random(6), 5, 2, DONE)[0])[1]
        table = frame.table()
        self.assertEqual(table["species"].tolist(), ["ion", "ion", "electron_2"])
        self.assertEqual((table.index.name, table.columns.tolist()), ("identity", ["species", "x", "y", "z", "vx", "vy", "vz"]))
        self.assertEqual((table[["x", "y", "z"]].to_numpy() * 4096).tolist(), frame.particles["position"].tolist())
        self.assertEqual((table[["vx", "vy", "vz"]].to_numpy() * 2**24).tolist(), frame.particles["velocity"].tolist())
        self.assertEqual(table.groupby("species", observed=False)["x"].count().tolist(), [2, 1])

    def test_damage(self):
        data, _ = random_dump(random.Random(3), 5, 2, DONE)
        size = 53 + 96 * 24 + 24 * 3
        ends = 184 + 4 * size
        for place, new, seen, reason in (
                (0, b"X", 0, "begins"), (7, b"3", 7, "PICDUMP3"), (7, b"2", 60, "sub is 2"), (8, bytes(4), 8, "cells"),
                (24, bytes(4), 24, "every"),
                (32, b"\0\0\0\x3f", 32, "k of e_to_b"), (60, b"\0\0\0\x11", 60, "species"), (64, b"-", 64, "name"),
                (124, b"ion" + bytes(29), 124, "second"), (100, bytes(4), 100, "mass"), (120, b"\0\x10\0\1", 120, "particles"),
                (184, b"G", 184, "record"), (185 + size, b"\0\0\0\3", 185 + size, "due"),
                (184 + 3 * size, b"E", 185 + 3 * size, "kind"), (ends, b"F", len(data), "ends in a frame"),
                (ends + 1, b"\1", ends + 1, "kind"), (ends + 2, b"\0\0\0\4", ends + 2, "step"),
                (ends + 6, b"\0", ends + 6, "after")):
            error = self.fault(data[:place] + new + data[place + len(new) :])
            self.assertIn(reason, str(error))
            self.assertEqual(error.place, seen, str(error))

    def test_numbers_are_rounded_once(self):
        dice, numbers = random.Random(4), [0, 1, -1, -2**127, 2**127 - 1, 2**64, -2**64, 2**64 - 1, 2**63, -2**63]
        for bit in range(53, 127):
            numbers += [s * (2**bit + part * 2**bit // 2**54 + d) for part in (1, 2, 3) for d in (-1, 0, 1) for s in (1, -1)]
        numbers += [dice.choice([1, -1]) * dice.getrandbits(dice.randint(1, 127)) for _ in range(5000)]
        wide = np.frombuffer(b"".join(n.to_bytes(16, "big", signed=True) for n in numbers), WIDE)
        self.assertEqual(exact(wide).tolist(), numbers)
        self.assertEqual(rounded(wide).tolist(), [float(n) for n in numbers])


if __name__ == "__main__":
    unittest.main()
