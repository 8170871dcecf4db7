"""Exact light readings from a sampled spectrum: the Quailribbon library for Python.

    >>> import quailribbon
    >>> samples = [0] * 401
    >>> samples[80] = 1_000_000
    >>> quailribbon.photopic(380, 1, samples)
    40980

What is taken. Start, step, observer, illuminant and k are whole numbers: whatever `operator.index` takes. Samples,
reflectances and records are rows of such numbers: a list, a tuple or another sequence, or anything with a buffer of one
dimension that holds whole numbers, such as bytes, an array.array or a numpy array. A contiguous buffer of unsigned
numbers of the right width (32 bits for samples, 16 for reflectances, 8 for records) is read where it is, writable or
not; everything else is copied first, which takes longer.

How it is read. A spectrum or a panel counts from 360 to 830 nm: on straight lines between the samples, and where
nothing was measured as the first or the last sample.

What is raised. `Refused`, with the number, name and place of the refusal, where the rules refuse what was asked,
however large its numbers are; a negative start, step, observer or illuminant is refused like any other wrong one.
`ValueError` where k or a number of a row is negative, or a record's byte is above 255. `TypeError` where something is
no whole number or no such row: a float, a text, a dict, a set, an iterator, a buffer of floats or of two dimensions.
The message says which argument it is, or which place of the row, counted from 0.

The shared library libquailribbon.so is looked for beside this file, in the folder lib of an installation by make
install, and where the system's loader looks; the environment variable QUAILRIBBON_LIBRARY names another one.
"""

from collections.abc import Sequence
from ctypes import c_uint32, create_string_buffer
from typing import NamedTuple, Protocol, SupportsIndex, Union

from . import _c
from ._arguments import grid, row, setting, thousandths
from ._c import LONGEST_RECORD, LONGEST_REPORT, MOST_SAMPLES

__all__ = [
    "LONGEST_RECORD",
    "LONGEST_REPORT",
    "MOST_SAMPLES",
    "NAMES",
    "Buffer",
    "ChartPoint",
    "Figures",
    "PanelFigures",
    "Record",
    "Refused",
    "Row",
    "Uv",
    "Xy",
    "Xyz",
    "chart",
    "figures",
    "mesopic",
    "panel_chart",
    "panel_figures",
    "panel_uv",
    "panel_xy",
    "panel_xyz",
    "photopic",
    "photopic_10",
    "read_record",
    "report",
    "research",
    "scotopic",
    "uv",
    "write_record",
    "xy",
    "xyz",
]

NAMES: dict[int, str] = {
    1: "STEP",
    2: "START",
    3: "COUNT",
    4: "SAMPLE",
    5: "MESOPIC",
    6: "OBSERVER",
    7: "ILLUMINANT",
    8: "REFLECTANCE",
    9: "DARK",
    10: "EDITION",
    11: "RESERVED",
    12: "LENGTH",
    13: "PADDING",
    14: "ROOM",
    # 15 is not used
}


class Refused(Exception):
    """A call that was refused, with the refusal's number, name and place (0 but for SAMPLE and REFLECTANCE)."""

    def __init__(self, number: int, place: int) -> None:
        super().__init__(number, place)
        self.number = number
        self.name = NAMES[number]
        self.place = place

    def __str__(self) -> str:
        where = f" at {self.place}" if self.name in ("SAMPLE", "REFLECTANCE") else ""
        return f"refused {self.number} ({self.name}){where}"


class Buffer(Protocol):
    """Anything that lends its memory, as bytes, array.array, memoryview and numpy's arrays do."""

    def __buffer__(self, flags: int, /) -> memoryview: ...


Row = Union[Sequence[SupportsIndex], Buffer]


class Xyz(NamedTuple):
    """X, Y and Z: of a light in millilux, of a panel in thousandths."""

    x: int
    y: int
    z: int


class Xy(NamedTuple):
    """x and y in hundred-thousandths."""

    x: int
    y: int


class Uv(NamedTuple):
    """u′ and v′ in hundred-thousandths."""

    u: int
    v: int


class ChartPoint(NamedTuple):
    """x, y, u′ and v′ as floats."""

    x: float
    y: float
    u: float
    v: float


class Figures(NamedTuple):
    """The report's figures; `xy` is None where the three exact sums are 0."""

    photopic: int
    scotopic: int
    X: int
    Y: int
    Z: int
    xy: Union[Xy, None]


class PanelFigures(NamedTuple):
    """A panel's X, Y and Z in thousandths; `xy` is None where its three sums are 0."""

    X: int
    Y: int
    Z: int
    xy: Union[Xy, None]


class Record(NamedTuple):
    """The spectrum that a packed record holds."""

    start: int
    step: int
    samples: list[int]


def _ask(function, settings, values, *room):
    """The answer of C to the settings, the row of values and the room for what is written."""
    view, address = row(function.reads, values)  # the view holds the row where it is until C has answered
    answer = function(*settings, address, len(view), *room)
    if answer.number:
        raise Refused(answer.number, answer.place)
    return answer


def _light(function, start, step, samples):
    return _ask(function, grid(start, step), samples)


def _seen_light(function, observer, start, step, samples):
    return _ask(function, (setting(observer, "observer"), *grid(start, step)), samples)


def _panel(function, observer, illuminant, start, step, reflectances):
    settings = (setting(observer, "observer"), setting(illuminant, "illuminant"), *grid(start, step))
    return _ask(function, settings, reflectances)


def photopic(start: SupportsIndex, step: SupportsIndex, samples: Row) -> int:
    """Photopic illuminance in millilux."""
    return _light(_c.photopic, start, step, samples).value


def scotopic(start: SupportsIndex, step: SupportsIndex, samples: Row) -> int:
    """Scotopic illuminance in millilux."""
    return _light(_c.scotopic, start, step, samples).value


def photopic_10(start: SupportsIndex, step: SupportsIndex, samples: Row) -> int:
    """10° photopic illuminance in millilux."""
    return _light(_c.photopic_10, start, step, samples).value


def mesopic(k: SupportsIndex, start: SupportsIndex, step: SupportsIndex, samples: Row) -> int:
    """Mesopic illuminance in millilux, at k thousandths, from 0 (scotopic) to 1000 (photopic)."""
    return _ask(_c.mesopic, (thousandths(k), *grid(start, step)), samples).value


def research(observer: SupportsIndex, start: SupportsIndex, step: SupportsIndex, samples: Row) -> int:
    """Illuminance in millilux by a cone-fundamental curve, of 2° for observer 32 or of 10° for observer 40."""
    return _seen_light(_c.research, observer, start, step, samples).value


def xyz(observer: SupportsIndex, start: SupportsIndex, step: SupportsIndex, samples: Row) -> Xyz:
    """X, Y and Z in millilux, for observer 2 or 10."""
    answer = _seen_light(_c.xyz, observer, start, step, samples)
    return Xyz(answer.x, answer.y, answer.z)


def xy(observer: SupportsIndex, start: SupportsIndex, step: SupportsIndex, samples: Row) -> Xy:
    """x and y in hundred-thousandths, for observer 2 or 10; `Refused` with number 9 where its three sums are 0."""
    answer = _seen_light(_c.xy, observer, start, step, samples)
    return Xy(answer.x, answer.y)


def uv(observer: SupportsIndex, start: SupportsIndex, step: SupportsIndex, samples: Row) -> Uv:
    """u′ and v′ in hundred-thousandths, for observer 2 or 10; `Refused` with number 9 where its three sums are 0."""
    answer = _seen_light(_c.uv, observer, start, step, samples)
    return Uv(answer.u, answer.v)


def chart(observer: SupportsIndex, start: SupportsIndex, step: SupportsIndex, samples: Row) -> ChartPoint:
    """The chart's point, for observer 2 or 10; `Refused` with number 9 where its three sums are 0."""
    answer = _seen_light(_c.chart, observer, start, step, samples)
    return ChartPoint(answer.x, answer.y, answer.u, answer.v)


def panel_xyz(
    observer: SupportsIndex, illuminant: SupportsIndex, start: SupportsIndex, step: SupportsIndex, reflectances: Row
) -> Xyz:
    """A panel's X, Y and Z in thousandths, for observer 2 or 10 under illuminant 1 (A) or 2 (D65)."""
    answer = _panel(_c.panel_xyz, observer, illuminant, start, step, reflectances)
    return Xyz(answer.x, answer.y, answer.z)


def panel_xy(
    observer: SupportsIndex, illuminant: SupportsIndex, start: SupportsIndex, step: SupportsIndex, reflectances: Row
) -> Xy:
    """A panel's x and y in hundred-thousandths; `Refused` with number 9 where its three sums are 0."""
    answer = _panel(_c.panel_xy, observer, illuminant, start, step, reflectances)
    return Xy(answer.x, answer.y)


def panel_uv(
    observer: SupportsIndex, illuminant: SupportsIndex, start: SupportsIndex, step: SupportsIndex, reflectances: Row
) -> Uv:
    """A panel's u′ and v′ in hundred-thousandths; `Refused` with number 9 where its three sums are 0."""
    answer = _panel(_c.panel_uv, observer, illuminant, start, step, reflectances)
    return Uv(answer.u, answer.v)


def panel_chart(
    observer: SupportsIndex, illuminant: SupportsIndex, start: SupportsIndex, step: SupportsIndex, reflectances: Row
) -> ChartPoint:
    """A panel's point on the chart; `Refused` with number 9 where its three sums are 0."""
    answer = _panel(_c.panel_chart, observer, illuminant, start, step, reflectances)
    return ChartPoint(answer.x, answer.y, answer.u, answer.v)


def _colour(answer):
    return None if answer.xy_number else Xy(answer.x, answer.y)


def figures(start: SupportsIndex, step: SupportsIndex, samples: Row) -> Figures:
    """The report's figures at observer 2. Where the three exact sums are 0 they are given all the same, and `xy` is None."""
    answer = _light(_c.figures, start, step, samples)
    return Figures(answer.photopic, answer.scotopic, answer.X, answer.Y, answer.Z, _colour(answer))


def panel_figures(
    observer: SupportsIndex, illuminant: SupportsIndex, start: SupportsIndex, step: SupportsIndex, reflectances: Row
) -> PanelFigures:
    """A panel's X, Y, Z and x, y in one call. Where its three sums are 0, so are X, Y, Z, and `xy` is None."""
    answer = _panel(_c.panel_figures, observer, illuminant, start, step, reflectances)
    return PanelFigures(answer.X, answer.Y, answer.Z, _colour(answer))


def read_record(record: Row) -> Record:
    """The start, step and samples of a packed record."""
    samples = (c_uint32 * MOST_SAMPLES)()
    answer = _ask(_c.read_record, (), record, samples, MOST_SAMPLES)
    return Record(answer.start, answer.step, samples[: answer.count])


def write_record(start: SupportsIndex, step: SupportsIndex, samples: Row) -> bytes:
    """The packed record of a spectrum."""
    record = create_string_buffer(LONGEST_RECORD)
    answer = _ask(_c.write_record, grid(start, step), samples, record, LONGEST_RECORD)
    return record.raw[: answer.length]


def report(record: Row) -> str:
    """The report of a packed record, as text. A refused record has a report too."""
    text = create_string_buffer(LONGEST_REPORT)
    answer = _ask(_c.report, (), record, text, LONGEST_REPORT)
    return text.raw[: answer.length].decode("ascii")
