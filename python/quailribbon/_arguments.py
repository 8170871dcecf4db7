"""What a caller gives, as C takes it: settings of 32 bits, and rows of numbers by their address.

A number that is too large for C is passed on as the largest of its width, which every rule refuses as it would refuse
the number itself. A row that lies in memory as C wants it is lent, not copied.
"""

import ctypes
import struct
import sys
from array import array
from collections.abc import Sequence
from ctypes import POINTER, byref, c_int, c_ssize_t, c_void_p, py_object
from operator import index
from typing import NamedTuple

_LARGEST_SETTING = 2**32 - 1


def _whole(value, what):
    try:
        return index(value)
    except TypeError:
        raise TypeError(f"{what} must be a whole number, not {type(value).__name__}") from None


def _natural(value, what):
    number = _whole(value, what)
    if number < 0:
        raise ValueError(f"{what} must not be negative")
    return number


def setting(value, name):
    """A start, step, observer or illuminant. A negative one is refused like a too large one: so it becomes that."""
    number = _whole(value, name)
    return number if 0 <= number <= _LARGEST_SETTING else _LARGEST_SETTING


def grid(start, step):
    return setting(start, "start"), setting(step, "step")


def thousandths(k):
    return min(_natural(k, "k"), _LARGEST_SETTING)


class Kind(NamedTuple):
    """What a row is made of: the name of one number, and its type as array and struct write it."""

    name: str
    letter: str
    width: int
    largest: int


SAMPLES = Kind("sample", "I", 4, 2**32 - 1)
REFLECTANCES = Kind("reflectance", "H", 2, 2**16 - 1)
BYTES = Kind("byte", "B", 1, 2**8 - 1)


def row(kind, values):
    """A view that holds the row for as long as it lives, and the address of the row's first number."""
    try:
        view = memoryview(values)
    except (TypeError, ValueError, BufferError) as reason:
        numbers = _sequence(kind, values, reason)
    else:
        if _is_row(kind, view):
            address = _address(view)
            if address % kind.width == 0:
                return view, address
        numbers = _numbers(kind, view)
    copy = memoryview(_copy(kind, numbers))
    return copy, _address(copy)


def _sequence(kind, values, reason):
    """Values that have no buffer. A text is a sequence too, but never one of numbers."""
    if isinstance(values, Sequence) and not isinstance(values, str):
        return values
    what = f"a row of {kind.name}s must be a list, a tuple, another sequence or a buffer"
    raise TypeError(f"{what}, not {type(values).__name__}") from reason


# How struct writes the type of an item: the byte order, which may be left out, and a letter.
_ORDERS = ("", *"@=<>!")
_NATIVE = "@=<" if sys.byteorder == "little" else "@=>!"
_UNSIGNED = frozenset("BHILQN")
_WHOLE = _UNSIGNED | frozenset("bhilqn?")


def _is_row(kind, view):
    """Whether the buffer is a row as C takes it, but for the alignment of its address."""
    unsigned = view.format.lstrip(_NATIVE) in _UNSIGNED
    return unsigned and view.itemsize == kind.width and view.ndim == 1 and view.c_contiguous


def _numbers(kind, view):
    """The numbers of a buffer with whole numbers of any width, sign, byte order or stride."""
    what = f"a buffer of {kind.name}s must have"
    if view.ndim != 1:
        raise TypeError(f"{what} one dimension, not {view.ndim}")
    order, letter = view.format[:-1], view.format[-1:]
    if order not in _ORDERS or letter not in _WHOLE:
        raise TypeError(f"{what} whole numbers, not items of format {view.format!r}")
    return struct.unpack(f"{order}{len(view)}{letter}", view.tobytes())


def _copy(kind, numbers):
    try:
        return array(kind.letter, numbers)
    except (TypeError, OverflowError):
        return array(kind.letter, [_fitted(kind, number, place) for place, number in enumerate(numbers)])


def _fitted(kind, value, place):
    what = f"the {kind.name} at place {place}"
    number = _natural(value, what)
    if number > kind.largest and kind is BYTES:  # no rule refuses a byte for being the largest
        raise ValueError(f"{what} must not be above {kind.largest}")
    return min(number, kind.largest)


class _Buffer(ctypes.Structure):
    """Python's Py_buffer."""

    _fields_ = [
        ("buf", c_void_p),
        ("obj", c_void_p),
        ("len", c_ssize_t),
        ("itemsize", c_ssize_t),
        ("readonly", c_int),
        ("ndim", c_int),
        ("format", c_void_p),
        ("shape", c_void_p),
        ("strides", c_void_p),
        ("suboffsets", c_void_p),
        ("internal", c_void_p),
    ]


_get_buffer = ctypes.pythonapi.PyObject_GetBuffer
_get_buffer.argtypes = (py_object, POINTER(_Buffer), c_int)
_release_buffer = ctypes.pythonapi.PyBuffer_Release
_release_buffer.argtypes = (POINTER(_Buffer),)
_release_buffer.restype = None
_SIMPLE = 0  # PyBUF_SIMPLE: contiguous, and it may be read-only, which ctypes' own from_buffer doesn't take


def _address(view):
    """Where a contiguous view's memory is, for as long as the view lives."""
    buffer = _Buffer()
    _get_buffer(view, byref(buffer), _SIMPLE)
    address = buffer.buf
    _release_buffer(byref(buffer))
    return address or 0  # ctypes has None for null, at which an empty row may be
