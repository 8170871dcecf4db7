"""The shared library libquailribbon.so, with the answers and the functions of quailribbon.h in its order."""

import ctypes
import os
from ctypes import c_double, c_size_t, c_uint32, c_void_p
from pathlib import Path
from typing import NamedTuple

from ._arguments import BYTES, REFLECTANCES, SAMPLES, Kind

MOST_SAMPLES = 531
LONGEST_RECORD = 1331
LONGEST_REPORT = 99


def _load():
    """The library that QUAILRIBBON_LIBRARY names, else that beside this file, that of make install, or the system's."""
    here = Path(__file__).resolve().parent
    named = os.environ.get("QUAILRIBBON_LIBRARY")
    near = [here / "libquailribbon.so", here.parents[1] / "lib" / "libquailribbon.so"]
    found = [named] if named else [str(path) for path in near if path.exists()]
    # A PyDLL's calls keep the interpreter's lock, which they can for their few microseconds: so no Python
    # code of another thread changes a lent row between its check and its sum.
    return ctypes.PyDLL(found[0] if found else "libquailribbon.so")


def _answer(name, *words, floats=()):
    """A flat answer: number and place, then 32-bit words, then floats."""
    fields = [(word, c_uint32) for word in ("number", "place", *words)]
    return type(name, (ctypes.Structure,), {"_fields_": fields + [(word, c_double) for word in floats]})


_Reading = _answer("_Reading", "value")
_Xyz = _answer("_Xyz", "x", "y", "z")
_Xy = _answer("_Xy", "x", "y")
_Uv = _answer("_Uv", "u", "v")
_Chart = _answer("_Chart", floats=("x", "y", "u", "v"))
_Record = _answer("_Record", "start", "step", "count")
_Written = _answer("_Written", "length")
_Figures = _answer("_Figures", "photopic", "scotopic", "X", "Y", "Z", "xy_number", "x", "y")
_PanelFigures = _answer("_PanelFigures", "X", "Y", "Z", "xy_number", "x", "y")


class Room(NamedTuple):
    """A row that C writes."""

    kind: Kind


_GRID = {"start": c_uint32, "step": c_uint32}
_LIGHT = {**_GRID, "samples": SAMPLES}
_PANEL = {"observer": c_uint32, "illuminant": c_uint32, **_GRID, "reflectances": REFLECTANCES}

_library = _load()


def _function(name, answer, **parameters):
    """A function by its parameters, each a number's type, the kind of the row that is read, or the room for another."""
    function = getattr(_library, name)
    function.restype = answer
    function.parameters = parameters
    function.argtypes = [
        word
        for parameter in parameters.values()
        for word in ((c_void_p, c_size_t) if isinstance(parameter, (Kind, Room)) else (parameter,))
    ]
    function.reads = next(kind for kind in parameters.values() if isinstance(kind, Kind))
    return function


photopic = _function("qr_photopic", _Reading, **_LIGHT)
scotopic = _function("qr_scotopic", _Reading, **_LIGHT)
photopic_10 = _function("qr_photopic_10", _Reading, **_LIGHT)
mesopic = _function("qr_mesopic", _Reading, k=c_uint32, **_LIGHT)
research = _function("qr_research", _Reading, observer=c_uint32, **_LIGHT)
xyz = _function("qr_xyz", _Xyz, observer=c_uint32, **_LIGHT)
xy = _function("qr_xy", _Xy, observer=c_uint32, **_LIGHT)
uv = _function("qr_uv", _Uv, observer=c_uint32, **_LIGHT)
chart = _function("qr_chart", _Chart, observer=c_uint32, **_LIGHT)
panel_xyz = _function("qr_panel_xyz", _Xyz, **_PANEL)
panel_xy = _function("qr_panel_xy", _Xy, **_PANEL)
panel_uv = _function("qr_panel_uv", _Uv, **_PANEL)
panel_chart = _function("qr_panel_chart", _Chart, **_PANEL)
figures = _function("qr_figures", _Figures, **_LIGHT)
panel_figures = _function("qr_panel_figures", _PanelFigures, **_PANEL)
read_record = _function("qr_read_record", _Record, bytes=BYTES, samples=Room(SAMPLES))
write_record = _function("qr_write_record", _Written, **_LIGHT, bytes=Room(BYTES))
report = _function("qr_report", _Written, bytes=BYTES, text=Room(BYTES))
