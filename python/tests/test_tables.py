"""Dumps as xarray and pandas have them: where each number stands, in which unit, and that a frame is read when it is looked into."""

import importlib.util
import tempfile
import tracemalloc
import unittest
from pathlib import Path
from unittest import mock

import numpy as np
from tests import made

from pictools import dump as dumps
from pictools import units
from pictools.dump import Dump

CELLS, FRAMES = (6, 4, 2), 5
DICE = np.random.default_rng(3)
PLACES, SPEEDS = DICE.random((40, 3)) * CELLS, DICE.normal(0, 0.05, (40, 3))


def there(name: str):
    return unittest.skipUnless(importlib.util.find_spec(name), f"{name} isn't there")


class Tables(unittest.TestCase):
    @classmethod
    def setUpClass(cls):
        folder = tempfile.TemporaryDirectory()
        cls.addClassCleanup(folder.cleanup)
        path = Path(folder.name) / "a.dump"
        e, b = DICE.normal(size=(2, FRAMES, 3, *reversed(CELLS)))
        path.write_bytes(made.dump(CELLS, e, b, 4, lambda number: (PLACES + 0.1 * number, SPEEDS), [("electron", -1, 40)]))
        cls.dump = Dump(path)

    @there("xarray")
    def test_each_component_stands_on_its_own_nodes(self):
        whole = self.dump.to_xarray()
        for name, axes in (("ex", ("z", "y", "x_half")), ("ey", ("z", "y_half", "x")), ("bz", ("z", "y_half", "x_half")),
                           ("by", ("z_half", "y", "x_half"))):
            self.assertEqual(whole[name].dims, ("step", *axes))
            self.assertEqual(whole[name].values.tolist(), self.dump.field(name[0], "xyz".index(name[1])).tolist())
        self.assertEqual((len(whole), whole.step.values.tolist()), (6, [0, 4, 8, 12, 16]))
        self.assertEqual((whole.x.values[:2].tolist(), whole.x_half.values[:2].tolist()), ([0, 1], [0.5, 1.5]))
        self.assertEqual((whole.ex.attrs["units"], whole.x.attrs["units"]), ("the dump's unit", "cells"))
        self.assertEqual((whole.ex.attrs["steps_after_its_step"], whole.bx.attrs["steps_after_its_step"]), (0, -0.5))
        self.assertEqual((whole.y_half.attrs["axis"], whole.y_half.attrs["c_grid_axis_shift"]), ("Y", 0.5))
        self.assertNotIn("z_half", self.dump.to_xarray("ex", "bz").coords)

    @there("xarray")
    def test_units(self):
        wp, thermal = units.plasma_frequency(self.dump.header), units.thermal_speed(self.dump[0])
        steps, plasma = self.dump.to_xarray(units="steps"), self.dump.to_xarray(units="plasma")
        kick = abs(self.dump.header.species[0].kick.value) * self.dump.header.e_force.value
        self.assertTrue(np.allclose(steps.ey, 2 * kick * self.dump.field("e", 1) / self.dump.header.fast, 1e-9))
        turns = [units.gyration(self.dump.header, self.dump.header.species[0], float(b)) for b in self.dump[2].b[2].ravel()]
        self.assertTrue(np.allclose(steps.bz[2].values.ravel(), -2 * np.tan(np.array(turns) / 2), 1e-6))
        self.assertTrue(np.allclose(plasma.ey, steps.ey / (wp * thermal), 1e-9))
        self.assertTrue(np.allclose(plasma.bz, steps.bz / wp, 1e-9))
        self.assertTrue(np.allclose(plasma.x_half, steps.x_half * wp / thermal) and np.allclose(plasma.time, steps.step * wp))
        self.assertEqual([plasma[name].attrs["units"] for name in ("ey", "bz", "x_half", "time")],
                         ["m ωp vth / e", "m ωp / e", "λD", "1 / ωp"])
        with self.assertRaisesRegex(ValueError, "no units 'si'; there are dump, steps, plasma"):
            self.dump.to_xarray(units="si")
        with self.assertRaisesRegex(ValueError, "'jx' is no component"):
            self.dump.to_xarray("jx")

    @there("xarray")
    def test_parts_are_those_of_numpy(self):
        import xarray
        lazily = self.dump.to_xarray("bz").bz
        table = xarray.DataArray(self.dump.field("b", 2), dims=lazily.dims)
        for key in ({"step": [0, 3], "z": [1, 0], "y_half": slice(1, 4, 2), "x_half": 3}, {"step": slice(3, None, -1)},
                    {"z": slice(None, None, -1)}, {"step": slice(0, 0), "x_half": 2}, {"step": -1}, {"z": 0, "x_half": [5, 1]},
                    {"step": xarray.DataArray([1, 2], dims="way"), "x_half": xarray.DataArray([0, 4], dims="way")}):
            self.assertTrue(np.array_equal(lazily.isel(key), table.isel(key)), key)
        self.assertEqual(lazily.sel(step=8, z=1, y_half=2.5, x_half=0.5).item(), self.dump.at(8).b[2, 1, 2, 0])

    @there("xarray")
    def test_frames_are_read_when_they_are_looked_into(self):
        with mock.patch("pictools.lazy.rounded", side_effect=dumps.rounded) as read:
            some = self.dump.to_xarray("ex", "bz")
            late = some.isel(step=slice(3, None)).ex
            self.assertEqual(read.call_count, 0)
            self.assertEqual((late.shape[0], late.values.shape[0], read.call_count), (2, 2, 2))
            repr(some)
            self.assertEqual(read.call_count, 2)

    @there("xarray")
    @there("dask")
    def test_dask_goes_frame_by_frame(self):
        """Of a long dump not more than some frames are in memory at once."""
        with tempfile.TemporaryDirectory() as folder:
            path = Path(folder) / "long.dump"
            path.write_bytes(made.dump((16, 16, 16), np.zeros((1, 3, 16, 16, 16))))
            dump = Dump(path)
            dump.records = np.lib.stride_tricks.as_strided(dump.records, (400,), (0,))
            dump.steps = np.arange(400)
            means = dump.to_xarray("ex").ex.chunk(step=1).mean(["z", "y", "x_half"])
            means[:1].compute(scheduler="synchronous")
            tracemalloc.start()
            means.compute(scheduler="synchronous")
            most = tracemalloc.get_traced_memory()[1]
            tracemalloc.stop()
        self.assertLess(most, 400 * 16**3 * 8 / 4)

    @there("pandas")
    def test_tracks(self):
        table = self.dump.to_pandas(7, 3)
        self.assertEqual((table.index.names, len(table)), (["step", "identity"], 2 * FRAMES))
        self.assertEqual(table.loc[(8, 3), ["x", "vz"]].tolist(),
                         [self.dump.at(8).particles["position"][3, 0] / 4096, self.dump.at(8).particles["velocity"][3, 2] / 2**24])
        self.assertEqual(table.attrs["units"] | {}, dict(zip("xyz", ["cells"] * 3)) | dict.fromkeys(("vx", "vy", "vz"), "cells / step"))
        self.assertTrue((self.dump[-1:].to_pandas().loc[16] == self.dump[-1].table()).all(axis=None))
        scaled, thermal = self.dump.to_pandas(7, 3, units="plasma"), units.thermal_speed(self.dump[0])
        self.assertTrue(np.allclose(scaled.vx, table.vx / thermal))
        self.assertTrue(np.allclose(scaled.y, table.y / thermal * units.plasma_frequency(self.dump.header)))
        with self.assertRaisesRegex(ValueError, "no particle 40; identities are 0 to 39"):
            self.dump.to_pandas(40)


if __name__ == "__main__":
    unittest.main()
