"""Each option of the deck maker against its limits: a refusal is one line with the option, its value and what it may be."""

import unittest
from dataclasses import fields
from math import inf, nan

from pictools import cost
from pictools.deck import DeckError
from pictools.limits import option
from pictools.plasma import Plasma

SMALL = {"plasma_frequency": 0.1, "cells": (8, 2, 2), "particles_a_cell": 8}
LONG = {"cells": (8, 8, 8)}
WAVE = {"wave": 1, "wave_speed": 0.01}

# What is chosen, the option that is to blame, its value, and the limits as they are said.
REFUSED = (
    ({"plasma_frequency": 0}, "plasma_frequency", "0", "above 0 to below 2"),
    ({"plasma_frequency": 3}, "plasma_frequency", "3", "above 0 to below 2 \\(from 2 on leapfrog is unstable\\)"),
    ({"plasma_frequency": 5.6e9}, "plasma_frequency", "5.6e\\+09", "below 2"),
    ({"plasma_frequency": nan}, "plasma_frequency", "nan", "below 2"),
    ({"plasma_frequency": -0.1}, "plasma_frequency", "-0.1", "above 0"),
    ({"light_speed": 0}, "light_speed", "0", "above 0 to 1"),
    ({"light_speed": 1.2}, "light_speed", "1.2", "above 0 to 1"),
    ({"thermal_speed": -0.05}, "thermal_speed", "-0.05", "from 0 to 1 \\(a particle moves at most a cell a step\\)"),
    ({"thermal_speed": inf}, "thermal_speed", "inf", "from 0 to 1"),
    ({"thermal_speed": 0.05, "thermal_speed_x": 0.1}, "thermal_speed", "0.05", "each axis .* has a speed of its own"),
    ({"thermal_speed": 0.05, "cells": (2, 2, 2)}, "thermal_speed", "0.05", "along no axis of this box; .* as --thermal-speed-x"),
    ({"thermal_speed_y": -1}, "thermal_speed_y", "-1", "from 0 to 1"),
    ({"drift": -0.3}, "drift", "-0.3", "from 0 to 1"),
    ({"drift": 1.1}, "drift", "1.1", "from 0 to 1"),
    ({"drift": nan}, "drift", "nan", "from 0 to 1"),
    ({"drift": 0.1, "drift_axis": "w"}, "drift_axis", "w", "x, y or z"),
    ({"drift": 0.1, "beam_share": 0}, "beam_share", "0", "above 0 to 1"),
    ({"drift": 0.1, "beam_share": 1e-9}, "beam_share", "1e-09", "of 256 electrons it is none"),
    ({"gyration": 3.1}, "gyration", "3.1", "above -3 to below 3"),
    ({"gyration": nan}, "gyration", "nan", "above -3"),
    ({"gyration": 0.1, "gyration_axis": "t"}, "gyration_axis", "t", "x, y or z"),
    ({"cross_drift": 0.1}, "cross_drift", "0.1", "wants --gyration, a uniform B"),
    ({"gyration_axis": "x"}, "gyration_axis", "x", "wants --gyration"),
    ({"drift_axis": "y"}, "drift_axis", "y", "wants --drift, streams"),
    ({"beam_share": 0.1}, "beam_share", "0.1", "wants --drift"),
    ({"seed": 7}, "seed", "7", "quiet start draws nothing"), ({"seed": 7, "start": "lattice"}, "seed", "7", "wants a thermal speed$"),
    ({"seed": 7, "start": "random", "cells": (2, 2, 2)}, "seed", "7", "wants a thermal speed, or a long axis$"),
    ({"cross_drift": 1.1, "gyration": 0.1}, "cross_drift", "1.1", "from 0 to 1"),
    (LONG | {"cross_drift": 0.6, "gyration": 0.1, "start": "random"}, "cross_drift", "0.6", "at most 1/2 cell a step"),
    (WAVE | {"cross_drift": 0.1, "gyration": 0.1}, "wave", "1", "no wave in an E across B"),
    ({"particles_a_cell": 0}, "particles_a_cell", "0", "from 1 to 4194304"),
    ({"particles_a_cell": -5}, "particles_a_cell", "-5", "from 1 to 4194304"),
    (LONG | {"particles_a_cell": 2048, "start": "random"}, "particles_a_cell", "2048",
     "at most 1048576 particles, so here at most 1024 electrons a cell"),
    ({"particles_a_cell": 2188}, "particles_a_cell", "2188", "70016 particles can't be listed; .* some 30000.* --start lattice"),
    ({"gyration": 0.1, "plasma_frequency": 1e-4}, "gyration", "0.1", "at most 2\\^63"),
    ({"particles_a_cell": 40000}, "particles_a_cell", "40000", "so here at most 32768"),
    ({"mass_ratio": -1836}, "mass_ratio", "-1836", "from 0 to 65536"),
    ({"mass_ratio": 1000000}, "mass_ratio", "1000000", "from 0 to 65536"),
    ({"wave": 5, "wave_speed": 0.01}, "wave", "5", "8 cells along x hold waves 1 to 4"),
    ({"wave": -1, "wave_speed": 0.01}, "wave", "-1", "from 0 to 32"),
    ({"wave": 33, "wave_speed": 0.01}, "wave", "33", "from 0 to 32"),
    ({"wave": 1, "wave_speed": 0.01, "wave_axis": "y"}, "wave", "1", "2 cells along y hold none"),
    ({"wave": 2}, "wave", "2", "wants --wave-speed above 0"),
    ({"wave_speed": 0.1}, "wave_speed", "0.1", "wants --wave"),
    ({"wave": 1, "wave_speed": -0.1}, "wave_speed", "-0.1", "from 0 to 1"),
    ({"wave_axis": "u"}, "wave_axis", "u", "x, y or z"),
    ({"cells": (128, 2, 2)}, "cells", "128 2 2", "128 cells along x; an axis has 2 to 64"),
    ({"cells": (8, 1, 2)}, "cells", "8 1 2", "1 cells along y"),
    ({"cells": (8, 2)}, "cells", "8 2", "three numbers"),
    ({"sub": 7}, "sub", "7", "from 8 to 14"), ({"sub": 15}, "sub", "15", "from 8 to 14"),
    ({"filter": 2}, "filter", "2", "from 0 to 1"),
    ({"wave": 4, "wave_speed": 0.01, "filter": 1}, "wave", "4", "two cells long, and the filter leaves no current"),
    ({"displace": 1.5}, "displace", "1.5", "from -1 to 1"), ({"displace": 1e-5}, "displace", "1e-05", "less than half a sub-cell"),
    ({"displace_axis": "y"}, "displace_axis", "y", "wants --displace"),
    (WAVE | {"displace": 0.1}, "displace", "0.1", "which is no wave"),
    ({"displace": 0.1, "start": "lattice", "thermal_speed": 0.05}, "displace", "0.1", "have one speed"),
    ({"displace": 0.1, "start": "lattice", "drift": 0.1}, "displace", "0.1", "have one speed"),
    ({"antenna": 2}, "antenna", "2", "from 0 to 1"), (LONG | {"antenna": 0.01, "cells": (8, 8, 4)}, "antenna", "0.01", "32 places, and .* at most 16"),
    ({"antenna": 1, "plasma_frequency": 1e-5, "filter": 1}, "antenna", "1", "at most 2\\^60"),
    ({"antenna_period": 8}, "antenna_period", "8", "wants --antenna"), ({"antenna": 0.01, "antenna_period": 65}, "antenna_period", "65", "from 3 to 64"),
    ({"antenna": 0.01, "antenna_place": 8}, "antenna_place", "8", "the cells 0 to 7"),
    ({"antenna": 0.01, "antenna_axis": "y"}, "antenna_axis", "y", "more than two cells"),
    ({"probe": "ey,q"}, "probe", "ey,q", "each once"), ({"probe": "ey,ey"}, "probe", "ey,ey", "each once"),
    ({"probe_axis": "y"}, "probe_axis", "y", "wants --probe"), ({"trace": 65}, "trace", "65", "from 0 to 64"),
    ({"trace": 9, "cells": (2, 2, 2), "particles_a_cell": 1}, "trace", "9", "there are 8 electrons"),
    ({"cells": (129, 2, 2), "sub": 12}, "cells", "129 2 2", "129 cells along x; an axis has 2 to 128"),
    (LONG | {"particles_a_cell": 8192, "start": "random", "sub": 8}, "particles_a_cell", "8192",
     "at most 4194304 particles, so here at most 4096 electrons a cell"),
    ({"steps": -1}, "steps", "-1", "from 0 to 1000000"),
    ({"steps": 2000000}, "steps", "2000000", "from 0 to 1000000"),
    ({"every": 0}, "every", "0", "from 1 to 1000000"),
    ({"start": "loud"}, "start", "loud", "quiet, lattice or random"),
    ({"seed": -1}, "seed", "-1", "from 0 to 9223372036854775807"),
    ({"seed": 2**63}, "seed", "9223372036854775808", "from 0 to 9223372036854775807"),
    (LONG | {"start": "random", "thermal_speed": 0.08}, "thermal_speed", "0.08", "1/16 = 0.0625 .*--start quiet"),
    (LONG | {"start": "random", "thermal_speed_z": 0.0626}, "thermal_speed", "0.0626", "along z"),
    ({"start": "lattice", "thermal_speed": 0.07}, "thermal_speed", "0.07", "1/16"),
    (LONG | {"start": "random", "drift": 0.6}, "drift", "0.6", "at most 1/2 cell a step"),
    (LONG | {"start": "random", "drift": 0.2, "beam_share": 0.75}, "drift", "0.2", "a stream drifts by 0.6"),
    ({"start": "lattice", "gyration": 0.1}, "start", "lattice", "move along x?y?, which has 2 cells"),
    ({"start": "lattice", "drift": 0.1, "beam_share": 0.25}, "beam_share", "0.25", "choose 0.5 or 1"),
    ({"start": "lattice", "particles_a_cell": 6}, "particles_a_cell", "6", "power of 2 .* not 24"),
    ({"start": "lattice", "particles_a_cell": 8192, "cells": (8, 2, 2)}, "particles_a_cell", "8192",
     "at most 4096 on a cell"),
    ({"start": "lattice", "drift": 0.1, "mass_ratio": 65536, "cells": (8, 8, 8)}, "mass_ratio", "65536", "mass of 2"),
    ({"start": "lattice"} | WAVE, "start", "lattice", "begins no wave"),
    ({"start": "lattice", "cells": (2, 2, 2)}, "start", "lattice", "more than two cells, and the box has none"),
    (WAVE | {"drift": 0.1, "gyration": 0.1}, "wave", "1", "no wave of streams in a magnetic field"),
    (WAVE | {"drift": 0.1, "drift_axis": "y", "beam_share": 0.25}, "wave", "1", "no filament of unequal streams"),
    (WAVE | {"drift": 0.1, "drift_axis": "y", "beam_share": 1}, "wave", "1", "no filament of unequal streams"),
    ({"thermal_speed": 0.05, "wave": 3, "wave_speed": 0.01}, "wave", "3", "too short"),
)

# The same where no single option is to blame: what is chosen, and words of the line.
TOO_MUCH = (
    ({"drift": 0.9, "thermal_speed": 0.2}, "would begin with 1.* choose a lower --drift"),
    ({"cells": (64, 2, 2), "particles_a_cell": 256}, "at most 1048576, which some 30000 listed"),
    ({"plasma_frequency": 1e-17}, "^kick -.* is outside its limits"),
)


class Refusals(unittest.TestCase):
    def test_each_names_the_option_its_value_and_the_limits(self):
        for chosen, name, value, limits in REFUSED:
            with self.subTest(chosen):
                with self.assertRaises(DeckError) as refusal:
                    Plasma(**SMALL | chosen).deck().text()
                self.assertRegex(str(refusal.exception), rf"^{option(name)} {value}: .*{limits}")
                self.assertNotIn("\n", str(refusal.exception))

    def test_each_option_is_refused_for_something(self):
        blamed = {name for _, name, _, _ in REFUSED} | {"thermal_speed_x", "thermal_speed_z"}
        self.assertEqual(blamed, {f.name for f in fields(Plasma)})

    def test_too_much(self):
        for chosen, words in TOO_MUCH:
            with self.subTest(chosen), self.assertRaisesRegex(DeckError, words):
                Plasma(**SMALL | chosen).deck().text()

    def test_ends_of_the_limits_are_taken(self):
        for chosen in ({"plasma_frequency": 1.999}, {"light_speed": 1}, {"mass_ratio": 65536},
                       {"seed": 2**63 - 1, "start": "random"},
                       {"steps": 0, "every": 10**6}, {"steps": 10**6}, {"gyration": -2.999}, {"wave": 4, "wave_speed": 0.01},
                       LONG | {"start": "random", "thermal_speed": 0.0625, "seed": 2**63 - 1},
                       LONG | {"start": "random", "drift": 0.5},
                       {"cells": (64, 64, 64), "particles_a_cell": 2, "mass_ratio": 1, "start": "random", "thermal_speed": 0.01}):
            Plasma(**SMALL | chosen).deck().text()


class Costs(unittest.TestCase):
    def test_the_dump_and_the_seconds(self):
        deck = Plasma(**SMALL | {"cells": (64, 64, 64), "particles_a_cell": 2, "mass_ratio": 1, "start": "random", "steps": 200,
                                 "every": 10}).deck()
        self.assertEqual(cost.dump_bytes(deck), 64 + 2 * 60 + 21 * (53 + 96 * 64**3 + 24 * 2**20) + 6)
        self.assertLess(abs(cost.seconds(deck) - 54), 3)
        self.assertRegex(cost.say(deck), "about 5. seconds on one thread. Its dump has 21 frames, 1.06 GB.$")
        probed = cost.say(Plasma(**SMALL | {"probe": "ey", "trace": 2, "steps": 99}).deck())
        self.assertRegex(probed, r" `pic probe` puts 100 lines, about 21\.4 kB\.$")
        for time, words in (0.1, "1 second"), (90, "90 seconds"), (600, "10 minutes"), (10**5, "28 hours"):
            self.assertEqual(cost.spoken(time), words)


if __name__ == "__main__":
    unittest.main()
