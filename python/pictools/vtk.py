"""Dumps for ParaView and VisIt, by VTK's own writers: an image (.vti) for each component of each frame, on the nodes on which it
stands, a file of its particles (.vtp), and a list of them all in time (.pvd). Nothing is compressed; a frame at a time is read.
"""

from __future__ import annotations

import os
from collections.abc import Iterator, Sequence
from pathlib import Path
from typing import Any
from xml.etree import ElementTree

import numpy as np
from numpy.typing import NDArray

from pictools import files, measure, tables
from pictools.dump import Dump, Frame, rounded
from pictools.tables import Units
from pictools.views import COMPONENTS

PARTICLES = "particles"


def wanted(module: str) -> Any:
    return tables.wanted("vtkmodules." + module, "python3-vtk9", "files for ParaView and VisIt need")


def array(values: NDArray, name: str, unit: str = "") -> Any:
    """Numbers as VTK has them, with their name and unit."""
    kept = wanted("util.numpy_support").numpy_to_vtk(np.ascontiguousarray(values), deep=True)
    kept.SetName(name)
    if unit:
        kept.GetInformation().Set(wanted("vtkCommonCore").vtkDataArray.UNITS_LABEL(), unit)
    return kept


def image(dump: Dump, frame: Frame, name: str, units: Units) -> Any:
    """A component of a frame on its own nodes."""
    field, axis = measure.component(name)
    factor, unit = tables.factor_of(dump, name, units)
    data = wanted("vtkCommonDataModel").vtkImageData()
    data.SetDimensions(*dump.header.cells)
    data.SetOrigin(*(measure.offsets(name) / units.length))
    data.SetSpacing(*[1 / units.length] * 3)
    data.GetPointData().SetScalars(array(rounded(frame.record[field][axis]).ravel() * factor, name, unit))
    return data


def cloud(frame: Frame, units: Units) -> Any:
    """The particles of a frame, a point and a vertex each, with the number of its species, its identity and its velocity; and the
    species' names."""
    model, columns, number = wanted("vtkCommonDataModel"), tables.columns(frame, slice(None), units), frame.header.particles
    points, cells, data = wanted("vtkCommonCore").vtkPoints(), model.vtkCellArray(), model.vtkPolyData()
    points.SetData(array(np.stack([columns[a] for a in "xyz"], axis=1), "place", units.place))
    cells.SetData(array(np.arange(number + 1), "ends"), array(np.arange(number), "points"))
    data.SetPoints(points)
    data.SetVerts(cells)
    for values, name, unit in ((frame.particles["species"], "species", ""), (np.arange(number, dtype=np.int32), "identity", ""),
                               (np.stack([columns["v" + a] for a in "xyz"], axis=1), "velocity", units.speed)):
        data.GetPointData().AddArray(array(values, name, unit))
    names = wanted("vtkCommonCore").vtkStringArray()
    names.SetName("names of species")
    for species in frame.header.species:
        names.InsertNextValue(species.name)
    data.GetFieldData().AddArray(names)
    return data


def write(data: Any, path: str) -> None:
    """Writes an image or points, uncompressed."""
    kinds = wanted("vtkIOXML")
    writer = kinds.vtkXMLImageDataWriter() if data.IsA("vtkImageData") else kinds.vtkXMLPolyDataWriter()
    writer.SetFileName(path)
    writer.SetInputData(data)
    writer.SetCompressorTypeToNone()
    writer.SetHeaderTypeToUInt64()
    writer.SetDataModeToAppended()
    writer.EncodeAppendedDataOff()
    if not writer.Write() or writer.GetErrorCode():
        raise OSError(f"{path}: VTK couldn't write it; is the disk full?")


def parts(dump: Dump, frame: Frame, chosen: Sequence[str], units: Units) -> Iterator[tuple[str, str, Any]]:
    """The files of a frame, in turn: what it is of, its ending, and VTK's data."""
    for name in chosen:
        if name == PARTICLES:
            yield name, "vtp", cloud(frame, units)
        else:
            yield name, "vti", image(dump, frame, name, units)


def export(dump: Dump, out: str, chosen: Sequence[str] = (), steps: Sequence[int] = (), name: str = "steps") -> int:
    """Writes the frames of these steps, or all, to a .pvd and a folder beside it with what is chosen of the components and the
    particles, or all. How many files the folder got."""
    if Path(out).suffix != ".pvd":
        raise ValueError(f"--out {out}: its name ends in .pvd; the other files come into a folder of its name beside it")
    units, folder = tables.units_of(dump, name), Path(out).with_suffix("")
    chosen = chosen or [*COMPONENTS, *[PARTICLES] * (dump.header.particles > 0)]
    whole = ElementTree.Element("VTKFile", type="Collection", version="0.1", byte_order="LittleEndian")
    listed = ElementTree.SubElement(whole, "Collection")
    frames = [dump.at(step) for step in steps] or dump
    with files.written(out) as place:
        wanted("vtkIOXML")
        folder.mkdir(exist_ok=True)
        for frame in frames:
            for number, (what, ending, data) in enumerate(parts(dump, frame, chosen, units)):
                file = f"{what}_{frame.step:07}.{ending}"
                write(data, os.fspath(folder / file))
                ElementTree.SubElement(listed, "DataSet", timestep=f"{frame.step / units.time:.9g}", part=str(number), name=what,
                                       file=f"{folder.name}/{file}")
        ElementTree.indent(whole)
        ElementTree.ElementTree(whole).write(place, "utf-8", xml_declaration=True)
    return len(listed)
