"""Dumps, and the lines of `pic probe`, for pandas and xarray, which are asked for only here; on Debian they are python3-pandas and
python3-xarray."""

from __future__ import annotations

from collections.abc import Sequence
from importlib import import_module
from typing import TYPE_CHECKING, Any, NamedTuple

import numpy as np
from numpy.typing import NDArray

from pictools import measure
from pictools.dump import Dump, Frame
from pictools.probe import Probes
from pictools.views import COMPONENTS, STEPS, scale_of, slope

if TYPE_CHECKING:
    import pandas
    import xarray

NAMES = ("dump", "steps", "plasma")
OF_THE_DUMP = "the dump's unit"


class Units(NamedTuple):
    """What numbers of places, times, speeds and fields are divided by (`length` in cells, `time` in steps), and the names of the
    units that they are then in."""

    length: float
    time: float
    place: str
    step: str
    speed: str
    electric: str
    magnetic: str


IN_STEPS = Units(1, 1, "cells", "steps", "cells / step", "m cells / (e step²)", "m / (e step)")
IN_THE_DUMP = IN_STEPS._replace(electric=OF_THE_DUMP, magnetic=OF_THE_DUMP)
IN_PLASMA = Units(0, 0, "λD", "1 / ωp", "vth", "m ωp vth / e", "m ωp / e")


def wanted(name: str, debian: str = "", what: str = "tables need") -> Any:
    """A library that only a part of the package needs."""
    try:
        return import_module(name)
    except ModuleNotFoundError:
        library = name.partition(".")[0]
        raise ModuleNotFoundError(f"{what} {library}; on Debian it is {debian or 'python3-' + library}", name=name) from None


def units_of(dump: Dump | Probes, name: str) -> Units:
    """Units by name: "steps" and cells, with fields as an electron feels them; "dump", the same with fields in the dump's own
    numbers; "plasma", by the plasma frequency and by the Debye length along x in the dump's first frame."""
    if name not in NAMES:
        raise ValueError(f"there are no units {name!r}; there are {', '.join(NAMES)}")
    if name == "plasma" and isinstance(dump, Probes):
        raise ValueError("probe lines have no units 'plasma': their deck doesn't say the Debye length; they have dump and steps")
    if name != "plasma":
        return IN_STEPS if name == "steps" else IN_THE_DUMP
    scale = scale_of(dump, "plasma")
    return IN_PLASMA._replace(length=scale.length, time=scale.time)


def factor_of(dump: Dump | Probes, name: str, units: Units) -> tuple[float, str]:
    """What the values of a component are multiplied by, and the name of their unit then. A B is in proportion to itself: it is 2
    tan of half the angle by which a step turns an electron."""
    factor, label = slope(dump.header, name, STEPS._replace(length=units.length, time=units.time))
    unit = units.electric if name[0] == "e" else units.magnetic
    return (1.0, OF_THE_DUMP) if OF_THE_DUMP in (label, unit) else (factor, unit)


def columns(frame: Frame, rows: NDArray | slice, units: Units) -> dict[str, NDArray]:
    """Places and velocities of some particles of a frame, by the names of columns."""
    table, header = frame.record["particles"][rows], frame.header
    found = {axis: table["position"][:, a] / (header.side * units.length) for a, axis in enumerate("xyz")}
    speed = units.time / units.length / header.fast
    return found | {"v" + axis: table["velocity"][:, a] * speed for a, axis in enumerate("xyz")}


def labelled(table: pandas.DataFrame, units: Units) -> pandas.DataFrame:
    """A table of particles with the names of its units, as its `attrs`."""
    table.attrs["units"] = {axis: units.place for axis in "xyz"} | {"v" + axis: units.speed for axis in "xyz"}
    return table


def kinds(frame: Frame | Probes) -> Any:
    """The name of each particle's species, as pandas has names."""
    species = frame.header.species
    return wanted("pandas").Categorical.from_codes(np.repeat(np.arange(len(species)), [s.count for s in species]),
                                                   [s.name for s in species])


def particles(frame: Frame) -> pandas.DataFrame:
    """A row for each particle of a frame, by identity."""
    pandas, species = wanted("pandas"), kinds(frame)
    return labelled(pandas.DataFrame({"species": species} | columns(frame, slice(None), IN_STEPS),
                                     index=pandas.RangeIndex(len(species), name="identity")), IN_STEPS)


def tracks(dump: Dump, identities: Sequence[int], name: str) -> pandas.DataFrame:
    """A row for each step and each of these particles, frame by frame."""
    pandas, units = wanted("pandas"), units_of(dump, name)
    for identity in identities:
        if not 0 <= identity < dump.header.particles:
            raise ValueError(f"there is no particle {identity}; identities are 0 to {dump.header.particles - 1}")
    rows = np.array(identities or range(dump.header.particles), np.int64)
    species = kinds(dump[0])[rows]
    parts = [pandas.DataFrame({"species": species} | columns(frame, rows, units),
                              index=pandas.MultiIndex.from_product([[frame.step], rows], names=["step", "identity"]))
             for frame in dump]
    return labelled(pandas.concat(parts), units)


def orbits(probes: Probes, identities: Sequence[int], name: str) -> pandas.DataFrame:
    """The same of probe lines: a row for each step and each of these particles, or of all that are traced."""
    pandas, units, rows = wanted("pandas"), units_of(probes, name), list(dict.fromkeys(identities or probes.ids))
    if not rows:
        raise ValueError(f"{probes.path}: its deck traces no particle")
    places, velocities = (np.stack(parts, axis=1).reshape(-1, 3) for parts in zip(*map(probes.orbit, rows)))
    found = {axis: places[:, a] / probes.header.side for a, axis in enumerate("xyz")}
    found |= {"v" + axis: velocities[:, a] / probes.header.fast for a, axis in enumerate("xyz")}
    index = pandas.MultiIndex.from_product([probes.steps, rows], names=["step", "identity"])
    return labelled(pandas.DataFrame({"species": kinds(probes)[np.tile(rows, len(probes))]} | found, index=index), units)


def fields(dump: Dump, components: Sequence[str], name: str) -> xarray.Dataset:
    """Each component over step, z, y and x. Where it stands half a cell further on along an axis, that is the axis x_half, y_half
    or z_half, with the attributes of COMODO's conventions. Nothing is read before it is looked into."""
    xarray, units = wanted("xarray"), units_of(dump, name)
    from pictools.lazy import lazily
    variables, places = {}, {}
    for one in components or COMPONENTS:
        factor, unit = factor_of(dump, one, units)
        axes = [axis + "_half" * bool(half) for axis, half in zip("xyz", measure.offsets(one))][::-1]
        places |= {axis: place_of(dump, axis, units) for axis in axes}
        variables[one] = (("step", *axes), lazily(dump, one, factor), {
            "long_name": f"{one[0].upper()} along {one[1]}", "units": unit,
            "steps_after_its_step": 0.0 if one[0] == "e" else -0.5})
    time = ("step", dump.steps / units.time, {"long_name": "time", "units": units.step})
    return xarray.Dataset(variables, {"step": dump.steps, "time": time} | dict(sorted(places.items())), {
        "dump": dump.path, "cells_in_a_length": units.length, "steps_in_a_time": units.time})


def signals(probes: Probes, components: Sequence[str], name: str) -> xarray.Dataset:
    """Of probe lines each component over step and its places, as ey over ey_place, whose ey_x, ey_y and ey_z are in cells."""
    xarray, units, variables, places = wanted("xarray"), units_of(probes, name), {}, {}
    for one in components or dict.fromkeys(place.component for place in probes.places):
        (factor, unit), numbers = factor_of(probes, one, units), probes.of(one)
        variables[one] = (("step", f"{one}_place"), np.stack([probes.signal(number) for number in numbers], axis=1) * factor, {
            "long_name": f"{one[0].upper()} along {one[1]}", "units": unit, "steps_after_its_step": 0.0 if one[0] == "e" else -0.5})
        cells = np.array([probes.places[number].cell for number in numbers]) + measure.offsets(one)
        places |= {f"{one}_{axis}": (f"{one}_place", cells[:, a], {"units": units.place}) for a, axis in enumerate("xyz")}
    return xarray.Dataset(variables, {"step": probes.steps} | places, {"lines": probes.path, "deck": probes.deck})


def place_of(dump: Dump, axis: str, units: Units) -> tuple[str, NDArray, dict[str, Any]]:
    """The places of nodes along an axis, or of the middles between them."""
    half = 0.5 * axis.endswith("_half")
    attributes = {"axis": axis[0].upper(), "long_name": axis[0], "units": units.place}
    return axis, (np.arange(dump.header.cells["xyz".index(axis[0])]) + half) / units.length, attributes | (
        {"c_grid_axis_shift": 0.5} if half else {})
