"""The built program's `resume`: a run in parts is byte for byte the run in one, and each answer is that of the model. It needs only the
standard library; skipped where no program was built."""

import unittest

import answers
from compare import Model
from tests.test_program import HOME, TOO_FAST, USAGE, call, changed, needs_program


def deck(steps: int, every: int = 1, name: str = "two_charges") -> bytes:
    text = (HOME / "decks" / f"{name}.toml").read_text()
    return text.replace("steps = 1\n", f"steps = {steps}\n").replace("every = 1\n", f"every = {every}\n").encode()


def dump(*of, **named) -> bytes:
    return call("run", given=deck(*of, **named))[1]


def resume(steps: int, given: bytes, *words: str) -> tuple[int, bytes, bytes]:
    return call("resume", "--steps", str(steps), *words, given=given)


class ModelOfResume(unittest.TestCase):
    """The model itself: runs in parts are runs in one."""

    def test_parts(self):
        for every in 1, 2, 3, 7:
            whole = Model(deck(6, every).decode()).run()
            for first in range(7):
                part = Model(deck(first, every).decode()).run()[1]
                for second in range(first, 7):
                    other = answers.resume(part, second)[1]
                    self.assertEqual(answers.resume(other, 6), whole)

    def test_a_stop(self):
        whole = Model(TOO_FAST).run()
        self.assertEqual(answers.resume(whole[1], 5), whole)
        self.assertEqual(answers.resume(whole[1], 9)[2], whole[2])


@needs_program
class Resume(unittest.TestCase):
    def test_words(self):
        good = dump(1)
        for words in ([], ["--steps"], ["--steps", "1000001"], ["--steps", "-1"], ["--steps", "two"], ["--steps", "1", "--steps", "1"],
                      ["--steps", "1", "--workers", "0"], ["--steps", "1", "--workers", "65"], ["--steps", "1", "--tiles-x", "0"],
                      ["--steps", "1", "--tiles-y", "65"], ["--steps", "1", "--tiles-z"], ["--steps", "1", "--tiles-w", "1"],
                      ["--steps", "1", "dump"], ["1"], ["--step", "1"], ["--steps", "1", "--every", "1"]):
            with self.subTest(words=words):
                self.assertEqual(call("resume", *words, given=good), (2, b"", USAGE))
        whole = call("run", given=deck(2))
        for words in (["--steps", "2"], ["--steps=2"], ["--steps", "+2"], ["--steps", "002"], ["--workers=64", "--steps", "2"],
                      ["--steps", "2", "--tiles-z", "2", "--tiles-x=2"], ["--steps", "2", "--"]):
            with self.subTest(words=words):
                self.assertEqual(call("resume", *words, given=good), whole)

    def test_two_charges(self):
        status, out, report = resume(2, dump(1), "--workers", "3")
        self.assertEqual((status, len(out), out), (0, 18925, dump(2)))
        self.assertEqual(report, b"frame 0 kinetic 70368744177664 electric 0 magnetic 0\n"
                                 b"frame 1 kinetic 70368744177664 electric 154618822656 magnetic 0\n"
                                 b"frame 2 kinetic 70368744177664 electric 386547056640 magnetic 0\ndone 2\n")
        frame = 184 + 2 * 6245
        ex = [int.from_bytes(out[frame + 5 + 16 * n:frame + 21 + 16 * n], "big", signed=True) for n in range(2)]
        self.assertEqual(ex, [618475290624, 206158430208])
        electrons = [int.from_bytes(out[at:at + 4], "big") for at in (frame + 6149, frame + 6173)]
        self.assertIn(5120, electrons)

    def test_refusals(self):
        good = dump(1)
        for steps, words, line in (
                (0, [], "run.steps 0 1 1000000"), (2, ["--tiles-x", "3"], "grid.tiles[0] 3 1 2"), (1, ["--tiles-y", "64"], "grid.tiles[1] 64 1 2"),
                (0, ["--tiles-x", "3"], "run.steps 0 1 1000000"), (1, ["--tiles-z=3", "--tiles-y=4"], "grid.tiles[1] 4 1 2")):
            with self.subTest(line):
                self.assertEqual(resume(steps, good, *words), (3, b"", f"refused 5 limit {line}\n".encode()))
        # Behind the header nothing is read before; a header with a fault comes first.
        self.assertEqual(resume(0, good[:184])[2], b"refused 5 limit run.steps 0 1 1000000\n")
        self.assertEqual(resume(0, good[:183]), (7, b"", b"bad dump 183 9\n"))
        self.assertEqual(resume(2, b""), (7, b"", b"bad dump 0 9\n"))

    def test_the_last_frame(self):
        """The frames of four steps, every third: 0, 3 and 4. That of step 4 stays where it is the last one again, and else goes; the
        run goes on from it all the same."""
        given = dump(4, 3)
        for steps, frames in (4, (0, 3, 4)), (5, (0, 3, 5)), (6, (0, 3, 6)), (9, (0, 3, 6, 9)):
            ended = resume(steps, given)
            self.assertEqual(ended, call("run", given=deck(steps, 3)))
            self.assertEqual([int(line.split()[1]) for line in ended[2].splitlines()[:-1]], list(frames))
        self.assertEqual(resume(4, given)[1], given)

    def test_it_starts_from_the_last_frame(self):
        """A dump whose last frame is another one that is good: what follows is of that one. Here nothing moves any more in it."""
        given, still = dump(4, 3), dump(0)
        ended = resume(6, given[:184] + given[184:184 + 2 * 6245] + still[184:185] + given[184 + 2 * 6245 + 1:184 + 2 * 6245 + 5]
                       + still[189:184 + 6245] + given[-6:])
        self.assertEqual((ended[0], ended[2].splitlines()[-1]), (0, b"done 6"))
        self.assertEqual(ended[1][-6 - 6245 + 5:-6], dump(2)[-6 - 6245 + 5:-6])

    def test_a_run_that_stopped(self):
        whole = call("run", given=TOO_FAST.encode())
        self.assertEqual(resume(5, whole[1]), whole)
        ended = resume(7, whole[1], "--tiles-x", "2", "--workers", "2")
        self.assertEqual((ended[0], ended[2], ended[1][24:]), (1, whole[2], whole[1][24:]))
        self.assertEqual(ended[1][20:24], (7).to_bytes(4, "big"))

    def test_version_2(self):
        fine = dump(3, 2, name="two_charges_fine")
        for steps in 3, 4, 7:
            self.assertEqual(resume(steps, fine, "--tiles-y", "2"), call("run", given=deck(steps, 2, "two_charges_fine")))
        # A dump keeps its version; one of version 1 that was upgraded goes on as the other does.
        old = dump(3)
        new = call("upgrade", given=old)[1]
        self.assertEqual(resume(5, new)[1], call("upgrade", given=resume(5, old)[1])[1])

    def test_cut_and_changed(self):
        """Bad and broken dumps, also in the middle: what is before stands, with its lines."""
        given = dump(4, 3)
        cases = [given[:length] for length in range(0, len(given), 331)] + [given + b"x"]
        cases += [changed(given, place, bytes([given[place] ^ 1])) for place in range(0, len(given), 409)]
        cases.append(changed(given, 184 + 6245 + 20, b"\1"))
        ends = set()
        for case in cases:
            ended = resume(6, case)
            ends.add(ended[0])
            self.assertEqual(ended, answers.resume(case, 6))
        self.assertEqual(ended, (8, given[:20] + (6).to_bytes(4, "big") + given[24:184 + 6245], ended[2]))
        self.assertRegex(ended[2], rb"^frame 0 .*\nbroken frame 1 node 0 0 0 div \d+ rho \d+\n$")
        self.assertEqual(ends, {0, 7, 8})


if __name__ == "__main__":
    unittest.main()
