"""The thinner against the second model of the scheme: a thinned dump is what the model gives for a larger `every`."""

import io
import re
import unittest

from compare import Model
from random_decks import random_deck

from pictools.dump import DumpError
from pictools.thin import thin


class Thinning(unittest.TestCase):
    def test_as_the_model_with_a_larger_every(self):
        ends = set()
        for number in range(0, 30, 3):
            text = random_deck(number)
            status, dump, _ = Model(text).run()
            if status == 3:
                continue
            every = int(re.search(r"every = (\d+)", text)[1])
            for times in 1, 2, 10**6:
                sink = io.BytesIO()
                thin(io.BytesIO(dump), sink, times)
                larger = text.replace(f"every = {every}\n", f"every = {min(every * times, 10**6)}\n")
                self.assertEqual(sink.getvalue(), Model(larger).run()[1], f"deck {number}, {times} times")
            ends.add(status)
        self.assertEqual(ends, {0, 1})

    def test_refusals(self):
        dump = Model(random_deck(0)).run()[1]
        with self.assertRaisesRegex(ValueError, "at least 1"):
            thin(io.BytesIO(dump), io.BytesIO(), 0)
        with self.assertRaises(DumpError):
            thin(io.BytesIO(dump[:-1]), io.BytesIO(), 2)


if __name__ == "__main__":
    unittest.main()
