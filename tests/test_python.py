"""Every function of the Python package: its values, its refusals, what it takes and what it raises."""

import ctypes
import doctest
import itertools
import pickle
import shutil
import subprocess
import sys
import typing
import unittest
from array import array
from collections import UserList, deque
from decimal import Decimal
from fractions import Fraction
from importlib.util import find_spec
from pathlib import Path
from tempfile import TemporaryDirectory
from unittest import mock

import quailribbon
from quailribbon import _arguments, _c

try:
    import numpy
except ImportError:
    numpy = None

ROOT = Path(__file__).resolve().parents[1]
REPORT = "photopic 40980\nscotopic 963972\nX 198617\nY 40980\nZ 1140066\nx 0.14396\ny 0.02970\n"
DARK = [0] * 401
WHITE = [10_000] * 471
BLACK = [0] * 471
NO_WHOLE_NUMBERS = (1.0, "1", b"1", None, 1 + 0j, Decimal(1), Fraction(1), [1])


def example():
    """All dark but for 460 nm: photopic 40980."""
    samples = [0] * 401
    samples[80] = 1_000_000
    return samples


def changed(row, place, value):
    return [*row[:place], value, *row[place + 1 :]]


class Whole:
    """A whole number by its `__index__` alone."""

    def __init__(self, number):
        self.number = number

    def __index__(self):
        return self.number


class Case(unittest.TestCase):
    def assertRefused(self, number, call, *arguments, place=0):
        with self.assertRaises(quailribbon.Refused) as caught:
            call(*arguments)
        self.assertEqual((caught.exception.number, caught.exception.place), (number, place))


class Lights(Case):
    def test_illuminances(self):
        self.assertEqual(quailribbon.photopic(380, 1, example()), 40980)
        self.assertEqual(quailribbon.scotopic(380, 1, example()), 963972)
        self.assertEqual(quailribbon.photopic_10(380, 1, example()), 87638)
        self.assertEqual([quailribbon.mesopic(k, 380, 1, example()) for k in (0, 500, 1000)], [963972, 305508, 40980])

    def test_research(self):
        self.assertEqual([quailribbon.research(observer, 380, 1, example()) for observer in (32, 40)], [58187, 96637])
        full = [1_000_000] * 471
        self.assertEqual([quailribbon.research(observer, 360, 1, full) for observer in (32, 40)], [77248855, 80965642])

    def test_light_as_at_555_017_nm_has_683_lumens_a_watt(self):
        samples = changed(changed(DARK, 175, 983_000), 176, 17_000)
        for reading in (quailribbon.photopic, quailribbon.scotopic, quailribbon.photopic_10):
            self.assertEqual(reading(380, 1, samples), 683_000)
        self.assertEqual(quailribbon.mesopic(500, 380, 1, samples), 683_000)
        self.assertEqual([quailribbon.xyz(observer, 380, 1, samples).y for observer in (2, 10)], [683_000] * 2)
        self.assertEqual([quailribbon.research(observer, 380, 1, samples) for observer in (32, 40)], [683_000] * 2)

    def test_colour(self):
        self.assertEqual(quailribbon.xyz(2, 380, 1, example()), (198617, 40980, 1140066))
        self.assertEqual(quailribbon.xy(2, 380, 1, example()), (14396, 2970))
        self.assertEqual(quailribbon.xy(10, 380, 1, example()), (13892, 5892))
        self.assertEqual(quailribbon.uv(2, 380, 1, example()), (18766, 8712))
        self.assertEqual(quailribbon.uv(10, 380, 1, example()), (16205, 15464))
        self.assertEqual(quailribbon.uv(2, 380, 1, example()).v, 8712)
        point = quailribbon.chart(2, 380, 1, example())
        self.assertEqual(point, (14396 / 100000, 2970 / 100000, 18766 / 100000, 8712 / 100000))
        self.assertEqual((point.y, point.u, point.v), (0.0297, 0.18766, 0.08712))

    def test_figures(self):
        figures = quailribbon.figures(380, 1, example())
        self.assertEqual(figures, (40980, 963972, 198617, 40980, 1140066, (14396, 2970)))
        self.assertEqual((figures.X, figures.xy.y), (198617, 2970))

    def test_figures_of_no_light_have_no_xy(self):
        self.assertEqual(quailribbon.figures(380, 1, DARK), (0, 0, 0, 0, 0, None))


class Panels(Case):
    def test_white(self):
        self.assertEqual(quailribbon.panel_xyz(2, 1, 360, 1, WHITE), (109850, 100000, 35585))
        self.assertEqual(quailribbon.panel_xy(2, 2, 360, 1, WHITE), (31273, 32902))
        for step in (1, 2, 5, 10):
            narrow = WHITE[: 400 // step + 1]
            self.assertEqual(quailribbon.panel_xyz(2, 1, 380, step, narrow), (109850, 100000, 35585))
        whites = ((2, 1, 25597, 52429), (2, 2, 19784, 46834), (10, 1, 25896, 52425), (10, 2, 19786, 46955))
        for observer, illuminant, u, v in whites:
            self.assertEqual(quailribbon.panel_uv(observer, illuminant, 360, 1, WHITE), (u, v))
        point = quailribbon.panel_chart(2, 2, 360, 1, WHITE)
        self.assertEqual(point, (31273 / 100000, 32902 / 100000, 19784 / 100000, 46834 / 100000))

    def test_figures(self):
        figures = quailribbon.panel_figures(2, 2, 360, 1, WHITE)
        self.assertEqual(figures, (95047, 100000, 108883, (31273, 32902)))
        self.assertEqual((figures.Z, figures.xy.x), (108883, 31273))

    def test_black(self):
        self.assertEqual(quailribbon.panel_xyz(10, 2, 360, 1, BLACK), (0, 0, 0))
        self.assertEqual(quailribbon.panel_figures(10, 2, 360, 1, BLACK), (0, 0, 0, None))


class Records(Case):
    def test_there_and_back(self):
        samples = [37 * place**2 % 1_000_001 for place in range(101)]
        record = quailribbon.write_record(300, 5, samples)
        self.assertIs(type(record), bytes)
        self.assertEqual(len(record), 256)
        self.assertEqual(quailribbon.read_record(record), (300, 5, samples))

    def test_header_of_the_example(self):
        record = quailribbon.write_record(380, 1, example())
        self.assertEqual((len(record), record[:3].hex()), (1006, "128322"))

    def test_longest(self):
        record = quailribbon.write_record(300, 1, [1_000_000] * 531)
        self.assertEqual(len(record), quailribbon.LONGEST_RECORD)
        self.assertEqual(quailribbon.read_record(record), (300, 1, [1_000_000] * quailribbon.MOST_SAMPLES))

    def test_whatever_holds_the_bytes(self):
        record = quailribbon.write_record(380, 1, example())
        padded = b"\0" + record
        holders = (bytearray(record), memoryview(record), memoryview(padded)[1:], list(record), tuple(record))
        for holder in (record, *holders, array("B", record), array("i", list(record))):
            with self.subTest(type(holder).__name__):
                self.assertEqual(quailribbon.read_record(holder), (380, 1, example()))
                self.assertEqual(quailribbon.report(holder), REPORT)

    def test_report_of_a_refused_record(self):
        self.assertEqual(quailribbon.report(b""), "refused 12\n")
        self.assertEqual(quailribbon.report([0x12, 0x83, 0x23]), "refused 11\n")

    def test_byte_that_is_none(self):
        for call in (quailribbon.read_record, quailribbon.report):
            with self.assertRaisesRegex(ValueError, "^the byte at place 2 must not be above 255$"):
                call([0x12, 0x83, 256])
            with self.assertRaisesRegex(ValueError, "^the byte at place 1 must not be negative$"):
                call(array("b", [0x12, -1, 0]))
            with self.assertRaisesRegex(TypeError, "^the byte at place 0 must be a whole number, not str$"):
                call(["1"])


class Refusals(Case):
    """Each number that a caller can meet. The room (14) always suffices here, and 15 is not used."""

    def test_step(self):
        self.assertRefused(1, quailribbon.photopic, 380, 3, example())
        self.assertRefused(1, quailribbon.write_record, 380, 0, example())

    def test_start(self):
        self.assertRefused(2, quailribbon.scotopic, 299, 1, example())
        self.assertRefused(2, quailribbon.figures, 381, 1, example())

    def test_count(self):
        self.assertRefused(3, quailribbon.photopic_10, 380, 1, [0] * 400)
        self.assertRefused(3, quailribbon.panel_xyz, 2, 1, 360, 1, [0] * 472)

    def test_sample(self):
        for call, settings in ((quailribbon.photopic, ()), (quailribbon.uv, (2,))):
            self.assertRefused(4, call, *settings, 380, 1, changed(DARK, 7, 1_000_001), place=7)

    def test_mesopic(self):
        self.assertRefused(5, quailribbon.mesopic, 1001, 380, 1, example())

    def test_observer(self):
        self.assertRefused(6, quailribbon.xyz, 3, 380, 1, example())
        self.assertRefused(6, quailribbon.uv, 3, 380, 3, example())
        for observer in (2, 10, 31, 41, -1, 2**32 + 32):
            self.assertRefused(6, quailribbon.research, observer, 380, 3, example())
        for observer in (32, 40):
            for colour in (quailribbon.xyz, quailribbon.xy, quailribbon.uv, quailribbon.chart):
                self.assertRefused(6, colour, observer, 380, 1, example())
        self.assertRefused(6, quailribbon.panel_xy, 0, 3, 360, 1, WHITE)
        self.assertRefused(6, quailribbon.panel_figures, 3, 3, 360, 1, WHITE)

    def test_illuminant(self):
        for call in (quailribbon.panel_chart, quailribbon.panel_uv):
            self.assertRefused(7, call, 2, 3, 360, 1, WHITE)

    def test_reflectance(self):
        for call in (quailribbon.panel_xyz, quailribbon.panel_uv, quailribbon.panel_figures):
            self.assertRefused(8, call, 2, 1, 360, 1, changed(WHITE, 470, 10_001), place=470)

    def test_dark(self):
        for call in (quailribbon.xy, quailribbon.uv, quailribbon.chart):
            self.assertRefused(9, call, 2, 380, 1, DARK)
            self.assertRefused(9, call, 10, 380, 1, DARK)
        for call in (quailribbon.panel_xy, quailribbon.panel_uv, quailribbon.panel_chart):
            self.assertRefused(9, call, 2, 1, 360, 1, BLACK)
            self.assertRefused(9, call, 10, 2, 360, 1, BLACK)

    def test_records(self):
        record = bytearray(quailribbon.write_record(380, 1, example()))
        for number, place, byte in (
            (10, 0, 0x22),  # edition 2
            (11, 2, record[2] | 1),
            (2, 1, record[1] | 0xF8),  # start 395
            (12, 2, record[2] + 2),  # one sample more
            (13, -1, record[-1] | 1),
        ):
            with self.subTest(number):
                faulty = bytearray(record)
                faulty[place] = byte
                self.assertRefused(number, quailribbon.read_record, faulty)

    def test_records_of_a_wrong_length(self):
        record = quailribbon.write_record(300, 1, [0] * 531)
        for wrong in (b"", record[:2], record[:-1], record + b"\0", record * 1000):
            with self.subTest(len(wrong)):
                self.assertRefused(12, quailribbon.read_record, wrong)

    def test_record_without_samples(self):
        self.assertRefused(3, quailribbon.read_record, b"\x12\x80\x00")

    def test_record_with_a_sample_too_large(self):
        record = bytearray(quailribbon.write_record(380, 1, DARK))
        record[8:11] = b"\xff\xff\xf0"
        self.assertRefused(4, quailribbon.read_record, record, place=2)

    def test_what_is_raised(self):
        refused = quailribbon.Refused(4, 7)
        self.assertEqual((refused.number, refused.name, refused.place), (4, "SAMPLE", 7))
        self.assertEqual(str(refused), "refused 4 (SAMPLE) at 7")
        self.assertEqual(str(quailribbon.Refused(1, 0)), "refused 1 (STEP)")
        self.assertEqual(str(pickle.loads(pickle.dumps(refused))), "refused 4 (SAMPLE) at 7")


class TooLargeForC(Case):
    """Numbers past C's width are refused by the rule, and in the order, that smaller ones are."""

    def test_settings(self):
        for wrong in (2**32, 2**32 + 380, 2**64 + 1, 2**70, -1, 1 - 2**32, -(2**70)):
            with self.subTest(wrong):
                self.assertRefused(1, quailribbon.photopic, 380, wrong, example())
                self.assertRefused(2, quailribbon.photopic, wrong, 1, example())
                self.assertRefused(6, quailribbon.chart, wrong, 380, 1, example())
                self.assertRefused(7, quailribbon.panel_xyz, 2, wrong, 360, 1, WHITE)

    def test_k(self):
        for wrong in (2**32, 2**32 + 500, 2**70):
            self.assertRefused(5, quailribbon.mesopic, wrong, 380, 1, example())

    def test_samples(self):
        for wrong in (2**32, 2**32 + 1, 2**40, 2**70):
            with self.subTest(wrong):
                self.assertRefused(4, quailribbon.photopic, 380, 1, changed(DARK, 7, wrong), place=7)
                self.assertRefused(4, quailribbon.write_record, 380, 1, changed(DARK, 400, wrong), place=400)

    def test_reflectances(self):
        for wrong in (2**16, 2**16 + 1, 2**32, 2**70):
            with self.subTest(wrong):
                self.assertRefused(8, quailribbon.panel_xy, 2, 1, 360, 1, changed(WHITE, 9, wrong), place=9)

    def test_first_of_several(self):
        samples = changed(changed(DARK, 9, 2**32), 5, 1_000_001)
        self.assertRefused(4, quailribbon.photopic, 380, 1, samples, place=5)

    def test_order(self):
        huge = [2**32] * 401
        self.assertRefused(1, quailribbon.photopic, 380, 3, huge)
        self.assertRefused(1, quailribbon.photopic, 2**32, -1, huge)
        self.assertRefused(2, quailribbon.photopic, 2**32, 1, huge)
        self.assertRefused(3, quailribbon.photopic, 380, 1, huge[1:])
        self.assertRefused(4, quailribbon.photopic, 380, 1, huge)
        self.assertRefused(5, quailribbon.mesopic, 2**32, 2**32, 2**32, huge)
        self.assertRefused(6, quailribbon.panel_xyz, -1, 2**70, 2**32, 2**32, huge)
        self.assertRefused(7, quailribbon.panel_xyz, 10, 2**70, 2**32, 2**32, huge)


class NoNumbers(Case):
    """A ValueError or a TypeError names the argument, or the place in the row."""

    def test_settings_that_are_no_whole_numbers(self):
        light = {"observer": 2, "start": 380, "step": 1}
        panel = {"observer": 2, "illuminant": 1, "start": 360, "step": 1}
        for call, settings, row in ((quailribbon.xy, light, DARK), (quailribbon.panel_xyz, panel, WHITE)):
            for name, wrong in itertools.product(settings, NO_WHOLE_NUMBERS):
                message = f"^{name} must be a whole number, not {type(wrong).__name__}$"
                with self.subTest(name, wrong=wrong), self.assertRaisesRegex(TypeError, message):
                    call(*{**settings, name: wrong}.values(), row)

    def test_k(self):
        with self.assertRaisesRegex(TypeError, "^k must be a whole number, not float$"):
            quailribbon.mesopic(500.0, 380, 1, example())
        with self.assertRaisesRegex(ValueError, "^k must not be negative$"):
            quailribbon.mesopic(-1, 380, 1, example())

    def test_samples(self):
        for wrong in NO_WHOLE_NUMBERS:
            message = f"^the sample at place 5 must be a whole number, not {type(wrong).__name__}$"
            with self.subTest(wrong), self.assertRaisesRegex(TypeError, message):
                quailribbon.photopic(380, 1, changed(DARK, 5, wrong))
        for negative in (-1, -(2**32), 1 - 2**32, -(2**70)):
            message = "^the sample at place 400 must not be negative$"
            with self.subTest(negative), self.assertRaisesRegex(ValueError, message):
                quailribbon.write_record(380, 1, changed(DARK, 400, negative))

    def test_reflectances(self):
        with self.assertRaisesRegex(TypeError, "^the reflectance at place 3 must be a whole number, not NoneType$"):
            quailribbon.panel_xyz(2, 1, 360, 1, changed(WHITE, 3, None))
        with self.assertRaisesRegex(ValueError, "^the reflectance at place 0 must not be negative$"):
            quailribbon.panel_chart(2, 1, 360, 1, changed(WHITE, 0, -1))

    def test_whole_numbers_by_their_index(self):
        samples = [Whole(number) for number in example()]
        self.assertEqual(quailribbon.mesopic(Whole(500), Whole(380), True, samples), 305508)
        self.assertRefused(4, quailribbon.photopic, 380, 1, changed(DARK, 7, Whole(2**40)), place=7)


class Sequences(Case):
    def test_taken(self):
        samples = example()
        for row in (samples, tuple(samples), UserList(samples), deque(samples)):
            with self.subTest(type(row).__name__):
                self.assertEqual(quailribbon.photopic(380, 1, row), 40980)
        record = quailribbon.write_record(380, 1, range(401))
        self.assertEqual(quailribbon.read_record(record).samples, list(range(401)))

    def test_not_taken(self):
        samples = dict.fromkeys(range(401), 0)
        iterators = ((0 for _ in range(401)), iter(DARK), map(int, DARK))
        for row in (samples, samples.keys(), set(samples), frozenset(), *iterators, "0" * 401, "", None, 5):
            message = f"^a row of samples must be a list, a tuple, .* not {type(row).__name__}$"
            with self.subTest(type(row).__name__), self.assertRaisesRegex(TypeError, message):
                quailribbon.photopic(380, 1, row)
        with self.assertRaisesRegex(TypeError, "^a row of reflectances must be .* not dict$"):
            quailribbon.panel_xyz(2, 1, 360, 1, {})
        with self.assertRaisesRegex(TypeError, "^a row of bytes must be .* not str$"):
            quailribbon.read_record("")


class Empty(Case):
    """An empty row is refused 3 after 1 and 2, wherever it is."""

    def assertOrder(self, row):
        self.assertRefused(1, quailribbon.photopic, 380, 3, row)
        self.assertRefused(2, quailribbon.panel_xyz, 2, 1, 299, 1, row)
        self.assertRefused(3, quailribbon.photopic, 380, 1, row)
        self.assertRefused(3, quailribbon.panel_xyz, 2, 1, 360, 1, row)
        self.assertRefused(12, quailribbon.read_record, row)

    def test_order(self):
        for row in ([], (), b"", bytearray(), array("I"), array("q"), memoryview(b""), (ctypes.c_uint32 * 0)()):
            with self.subTest(type(row).__name__):
                self.assertOrder(row)

    def test_order_at_null(self):
        with mock.patch.multiple(_arguments, _get_buffer=mock.DEFAULT, _release_buffer=mock.DEFAULT):
            self.assertEqual(_arguments.row(_arguments.SAMPLES, array("I"))[1], 0)
            self.assertOrder(array("I"))


class Buffers(Case):
    def assertLent(self, kind, buffer, address):
        view, lent = _arguments.row(kind, buffer)
        self.assertEqual((lent, len(view)), (address, len(buffer)))

    def assertCopied(self, kind, buffer, address):
        view, copy = _arguments.row(kind, buffer)
        self.assertNotEqual(copy, address)
        self.assertEqual(view.tolist(), list(buffer))

    def test_lent_where_it_is(self):
        for kind in (_arguments.SAMPLES, _arguments.REFLECTANCES, _arguments.BYTES):
            row = array(kind.letter, range(100))
            address = row.buffer_info()[0]
            with self.subTest(kind.name):
                self.assertLent(kind, row, address)
                self.assertLent(kind, memoryview(row), address)
                self.assertLent(kind, memoryview(row).toreadonly(), address)
                self.assertLent(kind, memoryview(row)[1:], address + kind.width)

    def test_record_of_bytes_is_lent(self):
        record = quailribbon.write_record(380, 1, example())
        self.assertLent(_arguments.BYTES, record, ctypes.cast(ctypes.c_char_p(record), ctypes.c_void_p).value)

    def test_row_of_ctypes_is_lent(self):
        samples = (ctypes.c_uint32 * 401)(*example())
        self.assertLent(_arguments.SAMPLES, samples, ctypes.addressof(samples))
        self.assertEqual(quailribbon.photopic(380, 1, samples), 40980)

    def test_read_only_reads_as_writable(self):
        samples = array("I", example())
        self.assertEqual(quailribbon.photopic(380, 1, samples), 40980)
        self.assertEqual(quailribbon.photopic(380, 1, memoryview(samples).toreadonly()), 40980)
        self.assertEqual(quailribbon.photopic(380, 1, memoryview(samples.tobytes()).cast("I")), 40980)

    def test_held_while_c_reads(self):
        samples = array("I", example())

        def grow_meanwhile(start, step, address, count):
            with self.assertRaises(BufferError):
                samples.append(0)
            return mock.Mock(number=0, value=count)

        grow_meanwhile.reads = _arguments.SAMPLES
        with mock.patch.object(_c, "photopic", grow_meanwhile):
            self.assertEqual(quailribbon.photopic(380, 1, samples), 401)
        samples.append(0)  # and no longer
        self.assertEqual(len(samples), 402)

    def test_other_widths_and_signs(self):
        for letter in "iqQlL":
            with self.subTest(letter):
                self.assertEqual(quailribbon.photopic(380, 1, array(letter, example())), 40980)
                self.assertEqual(quailribbon.panel_xyz(2, 1, 360, 1, array(letter, WHITE)).y, 100000)
        self.assertEqual(quailribbon.write_record(380, 1, bytes(401)), quailribbon.write_record(380, 1, DARK))

    def test_other_widths_follow_the_rules_of_lists(self):
        self.assertRefused(4, quailribbon.photopic, 380, 1, array("Q", changed(DARK, 7, 2**40)), place=7)
        self.assertRefused(8, quailribbon.panel_xyz, 2, 1, 360, 1, array("I", changed(WHITE, 9, 2**16)), place=9)
        with self.assertRaisesRegex(ValueError, "^the sample at place 5 must not be negative$"):
            quailribbon.photopic(380, 1, array("i", changed(DARK, 5, -1)))
        with self.assertRaisesRegex(ValueError, "^the byte at place 1 must not be above 255$"):
            quailribbon.read_record(array("H", [0x12, 256]))

    def test_strided(self):
        row = array("I", [number for pair in zip(example(), [5] * 401) for number in pair])
        self.assertEqual(quailribbon.photopic(380, 1, memoryview(row)[::2]), 40980)
        self.assertCopied(_arguments.SAMPLES, memoryview(row)[::-1], row.buffer_info()[0])

    def test_other_byte_order(self):
        samples = (ctypes.c_uint32.__ctype_be__ * 401)(*example())
        self.assertEqual(quailribbon.photopic(380, 1, samples), 40980)

    def test_unaligned(self):
        row = bytearray(1) + array("I", example()).tobytes()
        samples = memoryview(row)[1:].cast("I")
        self.assertCopied(_arguments.SAMPLES, samples, _arguments.row(_arguments.BYTES, row)[1] + 1)
        self.assertEqual(quailribbon.photopic(380, 1, samples), 40980)

    def test_floats_and_pointers(self):
        pointers = (ctypes.POINTER(ctypes.c_uint32) * 401)()
        for row in (array("f", DARK), array("d", DARK), pointers):
            message = f"^a buffer of samples must have whole numbers, not items of format '{memoryview(row).format}'$"
            with self.subTest(message), self.assertRaisesRegex(TypeError, message):
                quailribbon.photopic(380, 1, row)

    def test_other_dimensions_than_one(self):
        table = memoryview(array("I", example()).tobytes()).cast("B").cast("I", (1, 401))
        with self.assertRaisesRegex(TypeError, "^a buffer of samples must have one dimension, not 2$"):
            quailribbon.photopic(380, 1, table)
        with self.assertRaisesRegex(TypeError, "^a buffer of bytes must have one dimension, not 0$"):
            quailribbon.read_record(ctypes.c_uint8(5))


@unittest.skipUnless(numpy, "numpy is missing")
class Numpy(Case):
    def test_lent_where_it_is(self):
        for kind in (_arguments.SAMPLES, _arguments.REFLECTANCES, _arguments.BYTES):
            row = numpy.arange(100, dtype=f"u{kind.width}")
            for writeable in (True, False):
                row.flags.writeable = writeable
                with self.subTest(kind.name, writeable=writeable):
                    self.assertEqual(_arguments.row(kind, row)[1], row.ctypes.data)

    def test_readings(self):
        for dtype in ("u4", ">u4", "i4", "i8", "u8"):
            samples = numpy.array(example(), dtype)
            with self.subTest(dtype):
                self.assertEqual(quailribbon.photopic(380, 1, samples), 40980)
                self.assertEqual(quailribbon.photopic(380, 1, samples.repeat(2)[::2]), 40980)

    def test_numbers_of_numpy(self):
        samples = list(numpy.array(example()))
        self.assertEqual(quailribbon.photopic(numpy.int64(380), numpy.uint8(1), samples), 40980)

    def test_row_of_a_table(self):
        table = numpy.zeros((3, 401), numpy.uint32)
        table[1, 80] = 1_000_000
        self.assertEqual(quailribbon.photopic(380, 1, table[1]), 40980)
        with self.assertRaisesRegex(TypeError, "must have one dimension, not 2$"):
            quailribbon.photopic(380, 1, table)
        with self.assertRaisesRegex(TypeError, "must have one dimension, not 0$"):
            quailribbon.photopic(380, 1, table[1, 80])

    def test_no_whole_numbers(self):
        for dtype, letter in (("f8", "d"), ("f2", "e"), ("O", "O")):
            with self.assertRaisesRegex(TypeError, f"whole numbers, not items of format '{letter}'$"):
                quailribbon.photopic(380, 1, numpy.zeros(401, dtype))
        with self.assertRaisesRegex(TypeError, "^a row of samples must be .* not ndarray$"):
            quailribbon.photopic(380, 1, numpy.zeros(401, "M8[s]"))

    def test_rules_of_lists(self):
        self.assertRefused(4, quailribbon.photopic, 380, 1, numpy.array(changed(DARK, 7, 2**40)), place=7)
        with self.assertRaisesRegex(ValueError, "^the sample at place 5 must not be negative$"):
            quailribbon.photopic(380, 1, numpy.array(changed(DARK, 5, -1)))

    def test_empty(self):
        self.assertRefused(3, quailribbon.photopic, 380, 1, numpy.zeros(0, numpy.uint32))


class Shown(Case):
    """What the documents show is what is printed."""

    def assertPrinted(self, text):
        shown = doctest.DocTestParser().get_doctest(text, {}, "shown", None, 0)
        self.assertGreater(len(shown.examples), 0)
        self.assertEqual(doctest.DocTestRunner().run(shown), (0, text.count(">>> ")))

    def test_package(self):
        self.assertPrinted(quailribbon.__doc__)

    def test_readme(self):
        readme = (ROOT / "README.md").read_text(encoding="utf-8")
        self.assertPrinted(readme.replace("```", ""))


@unittest.skipUnless(find_spec("setuptools"), "setuptools is missing")
class Package(Case):
    def test_says_what_to_do_where_the_library_is_missing(self):
        with TemporaryDirectory() as folder:
            setup = Path(folder, "python", "setup.py")
            setup.parent.mkdir()
            shutil.copy(ROOT / "python" / "setup.py", setup)
            built = subprocess.run([sys.executable, setup, "build"], capture_output=True, text=True)
        self.assertEqual(built.returncode, 1)
        self.assertRegex(built.stderr, "^.*/libquailribbon.so is not there yet: run make in .*, .*\n$")


class Hints(Case):
    def test_everything_public_has_them(self):
        functions = [getattr(quailribbon, name) for name in quailribbon.__all__ if name.islower()]
        self.assertEqual(len(functions), 18)
        for function in functions:
            with self.subTest(function.__name__):
                arguments = function.__code__.co_varnames[: function.__code__.co_argcount]
                self.assertEqual(set(typing.get_type_hints(function)), {*arguments, "return"})

    def test_package_says_so(self):
        self.assertTrue(Path(quailribbon.__file__).with_name("py.typed").exists())


if __name__ == "__main__":
    unittest.main()
