"""Files for ParaView and VisIt, as VTK's own readers have them."""

import importlib.util
import tempfile
import unittest
from pathlib import Path
from unittest import mock
from xml.etree import ElementTree

import numpy as np
from tests import made
from tests.called import called

from pictools import units, vtk
from pictools.dump import Dump

CELLS, DICE = (5, 4, 3), np.random.default_rng(5)
PLACES, SPEEDS = DICE.random((30, 3)) * CELLS, DICE.normal(0, 0.05, (30, 3))
NODES = {"ex": (0.5, 0, 0), "ey": (0, 0.5, 0), "ez": (0, 0, 0.5), "bx": (0, 0.5, 0.5), "by": (0.5, 0, 0.5), "bz": (0.5, 0.5, 0)}


class Files(unittest.TestCase):
    @classmethod
    def setUpClass(cls):
        folder = tempfile.TemporaryDirectory()
        cls.addClassCleanup(folder.cleanup)
        cls.folder = Path(folder.name)
        e, b = DICE.normal(size=(2, 3, 3, *reversed(CELLS)))
        (cls.folder / "a.dump").write_bytes(made.dump(CELLS, e, b, 4, lambda number: (PLACES + number / 4, SPEEDS),
                                                      [("forward", -1, 10), ("backward", -1, 12), ("ion", 2, 8)]))
        cls.dump = Dump(cls.folder / "a.dump")

    def setUp(self):
        if not importlib.util.find_spec("vtkmodules"):
            self.skipTest("VTK isn't there")

    def export(self, words: str) -> list[dict]:
        """The files that a command lists, as they stand in its .pvd."""
        status, said, _ = called("vtk a.dump -o a.pvd " + words, self.folder)
        listed = [dict(one.attrib) for one in ElementTree.parse(self.folder / "a.pvd").iter("DataSet")]
        self.assertEqual((status, said), (0, f"{len(listed)} files in a/\n"))
        return listed

    def read(self, file: str):
        """What VTK's own reader has of a file, which isn't compressed."""
        from vtkmodules import vtkIOXML
        self.assertNotIn(b"compressor", (self.folder / file).read_bytes()[:400])
        reader = vtkIOXML.vtkXMLImageDataReader() if file.endswith(".vti") else vtkIOXML.vtkXMLPolyDataReader()
        self.assertTrue(reader.CanReadFile(str(self.folder / file)))
        reader.SetFileName(str(self.folder / file))
        reader.Update()
        self.assertEqual(reader.GetErrorCode(), 0)
        return reader.GetOutput()

    def numbers(self, array) -> np.ndarray:
        from vtkmodules.util.numpy_support import vtk_to_numpy
        return vtk_to_numpy(array)

    def test_fields_stand_on_their_own_nodes(self):
        from vtkmodules.vtkCommonCore import vtkDataArray
        header, electron = self.dump.header, self.dump.header.species[0]
        factors = {"e": 2 * abs(electron.kick.value) * header.e_force.value / 2**24,
                   "b": 2 * abs(electron.turn.value) * header.b_force.value / 2**20}
        listed = self.export("--parts ex ey ez bx by bz")
        self.assertEqual([(one["timestep"], one["part"], one["name"]) for one in listed],
                         [(step, str(part), name) for step in "048" for part, name in enumerate(NODES)])
        for one in listed:
            data, name, frame = self.read(one["file"]), one["name"], self.dump.at(int(one["timestep"]))
            self.assertEqual((data.GetDimensions(), data.GetOrigin(), data.GetSpacing()), (CELLS, NODES[name], (1, 1, 1)))
            values = (frame.e if name[0] == "e" else frame.b)["xyz".index(name[1])]
            found = self.numbers(data.GetPointData().GetArray(name)).reshape(values.shape)
            self.assertTrue(np.allclose(found, values * factors[name[0]], 1e-9))
            unit = data.GetPointData().GetArray(name).GetInformation().Get(vtkDataArray.UNITS_LABEL())
            self.assertEqual(unit.strip(), "m cells / (e step²)" if name[0] == "e" else "m / (e step)")
        # The value of one node, by its place.
        data = self.read("a/ey_0000004.vti")
        point = data.FindPoint(3, 2.5, 1)
        self.assertAlmostEqual(data.GetPointData().GetArray("ey").GetValue(point) / (self.dump.at(4).e[1, 1, 2, 3] * factors["e"]), 1, 9)

    def test_particles(self):
        listed = self.export("--parts particles --steps 8")
        self.assertEqual([(one["timestep"], one["file"]) for one in listed], [("8", "a/particles_0000008.vtp")])
        data, table = self.read(listed[0]["file"]), self.dump.at(8).particles
        self.assertEqual((data.GetNumberOfPoints(), data.GetNumberOfVerts(), data.GetNumberOfCells()), (30, 30, 30))
        self.assertTrue(np.array_equal(self.numbers(data.GetPoints().GetData()) * 4096, table["position"]))
        arrays = {name: self.numbers(data.GetPointData().GetArray(name)) for name in ("species", "identity", "velocity")}
        self.assertTrue(np.array_equal(arrays["velocity"] * 2**24, table["velocity"]))
        self.assertEqual((arrays["identity"].tolist(), arrays["species"].tolist()), (list(range(30)), table["species"].tolist()))
        names = data.GetFieldData().GetAbstractArray("names of species")
        self.assertEqual([names.GetValue(number) for number in range(3)], ["forward", "backward", "ion"])
        self.assertEqual([data.GetCell(number).GetPointId(0) for number in (0, 29)], [0, 29])

    def test_plasma_units(self):
        wp, thermal = units.plasma_frequency(self.dump.header), units.thermal_speed(self.dump[0])
        listed = self.export("--units plasma --steps 4")
        self.assertEqual(len(listed), 7)
        self.assertAlmostEqual(float(listed[0]["timestep"]), 4 * wp, 6)
        image, points = self.read("a/bz_0000004.vti"), self.read("a/particles_0000004.vtp")
        self.assertTrue(np.allclose(image.GetSpacing(), wp / thermal))
        self.assertTrue(np.allclose(image.GetOrigin(), np.array([0.5, 0.5, 0]) * wp / thermal))
        self.assertTrue(np.allclose(self.numbers(points.GetPoints().GetData()),
                                    self.dump.at(4).particles["position"] / 4096 * wp / thermal))

    def test_refusals(self):
        with self.assertRaisesRegex(ValueError, r"--out a.vti: its name ends in .pvd"):
            vtk.export(self.dump, "a.vti")
        with self.assertRaisesRegex(ValueError, "no frame of step 3; near it are 0 and 4"):
            vtk.export(self.dump, str(self.folder / "b.pvd"), steps=[3])
        with mock.patch.dict("sys.modules", {"vtkmodules.vtkIOXML": None}), self.assertRaisesRegex(
                ModuleNotFoundError, "files for ParaView and VisIt need vtkmodules; on Debian it is python3-vtk9"):
            vtk.export(self.dump, str(self.folder / "b.pvd"))
        self.assertEqual(list(self.folder.glob("*b*")), [])


if __name__ == "__main__":
    unittest.main()
