"""Tests of strings of lamps: what is promised of their mixtures, over each implementation at hand.

    python3 -m unittest discover -s second

The C library is reached through its Python package.
"""

import importlib
import random
import unittest
from dataclasses import replace
from functools import cache, partial
from importlib.util import find_spec
from itertools import chain, product
from types import SimpleNamespace
from unittest.mock import patch

import light
import strings
from light import LARGEST_SAMPLE, Refused

# Many lamps of a string are alike, and a reading of light.py takes a while.
LIGHT = strings.readings_of(light, cache)

C_LIBRARY = "quailribbon"

# The mesopic settings for which the bound is shown to be reached. At 0 and at 1000 the reading is
# the scotopic and the photopic one.
KS = (1, 500, 999)

# Lamps that are lit at 460 nm alone, with a sample of at most 15,625, so that 64 of them stay
# within the limit. The amount ends just above a half with the first sample and just below one
# with the second: no sample comes nearer, and none of these is a 200th away. They were searched
# for in the tables. Beside each sample stands its reading.
REACHED = {
    # name: (start, step, last wavelength), (sample, reading), (sample, reading)
    "photopic": ((380, 1, 780), (4_673, 192), (7_040, 288)),
    "scotopic": ((300, 2, 830), (1_608, 3_102), (7_717, 14_884)),
    "10° photopic": ((360, 5, 830), (2_619, 1_149), (12_851, 5_635)),
    "mesopic at 1": ((300, 10, 780), (15_587, 149_863), (48, 461)),
    "mesopic at 500": ((380, 1, 780), (9_422, 2_879), (5_301, 1_619)),
    "mesopic at 999": ((300, 2, 830), (683, 57), (14_754, 1_220)),
    "research 32": ((360, 5, 830), (196, 58), (15_409, 4_520)),
    "research 40": ((300, 10, 780), (3_173, 3_113), (12_456, 12_218)),
    "X 2": ((380, 1, 780), (506, 101), (13_954, 2_771)),
    "Y 2": ((300, 2, 830), (10_167, 834), (1_787, 146)),
    "Z 2": ((360, 5, 830), (3_208, 18_235), (12_267, 69_726)),
    "X 10": ((300, 10, 780), (4_759, 9_749), (8_496, 17_403)),
    "Y 10": ((380, 1, 780), (10_937, 959), (12_021, 1_053)),
    "Z 10": ((300, 2, 830), (14_450, 34_477), (916, 2_185)),
}


def lit_at_460(grid, sample):
    """Start, step and samples of a lamp of REACHED."""
    start, step, last = grid
    row = strings.lone((last - start) // step + 1, (460 - start) // step, sample)
    return start, step, tuple(row)


def draw_k(draw):
    """A mesopic setting; the ends come often."""
    return draw.choice((0, 1000, draw.randint(1, 999)))


def rounds_of_strings(seed, rounds):
    """Kind, a mesopic setting, and start, step and rows."""
    draw = random.Random(seed)
    for _ in range(rounds):
        for kind, string in strings.draw_strings(draw):
            yield kind, draw_k(draw), string


class Promises:
    """The tests of an implementation's `readings`, over so many `rounds` of strings from `seed`."""

    def test_random_strings(self):
        for kind, k, (start, step, rows) in rounds_of_strings(self.seed, self.rounds):
            found = strings.faults(self.readings, self.settings(k), start, step, rows)
            with self.subTest(kind.__name__, start=start, step=step, lamps=len(rows)):
                self.assertEqual(found, [])

    def test_lamps_of_nearly_one_colour(self):
        draw = random.Random(self.seed)
        for _ in range(60):
            number = draw.choice((2, 3, 64))
            start, step, rows = strings.draw_string(draw, strings.nearly_equal, number)
            found = strings.faults(self.readings, [draw_k(draw)], start, step, rows)
            with self.subTest(start=start, step=step, lamps=number):
                self.assertEqual(found, [])

    def assert_reached(self, names, reading, name, number):
        """So many lamps of REACHED have a mixture as far from the sum as it may be, either way."""
        grid, above, below = REACHED[name]
        # What ends just above a half makes the sum too great, what ends just below it too small.
        for (sample, expected), difference in ((above, -(number // 2)), (below, number // 2)):
            start, step, row = lit_at_460(grid, sample)
            spectra = [*[row] * number, strings.mixture_of([row] * number)]
            answers = [reading(start, step, each) for each in spectra]
            with self.subTest(name, number=number, sample=sample):
                self.assertEqual(strings.by_name(names, answers[0])[name], expected)
                self.assertEqual(strings.differences(names, answers)[name], difference)
                self.assertEqual(strings.amount_faults(names, answers), [])

    def test_the_bound_is_reached(self):
        tried = []
        for names, reading in strings.amounts(self.readings, KS):
            tried += names
            for name, number in product(names, (1, 2, 3, 63, 64)):
                self.assert_reached(names, reading, name, number)
        self.assertEqual(tried, list(REACHED))

    def test_the_bound_is_reached_by_what_is_drawn(self):
        for kind, k, (start, step, rows) in rounds_of_strings(self.seed, 1):
            if kind is not strings.near_halves:
                continue
            spectra = [*rows, strings.mixture_of(rows)]
            found = []
            for names, reading in strings.amounts(self.readings, [k]):
                answers = [reading(start, step, row) for row in spectra]
                found += map(abs, strings.differences(names, answers).values())
            with self.subTest(start=start, step=step, lamps=len(rows)):
                self.assertEqual(max(found), len(rows) // 2)


class Strings(Promises, unittest.TestCase):
    """Over light.py."""

    seed, rounds = 107, 1
    readings = LIGHT

    def settings(self, k):
        """The mesopic settings to be tried, one for the time that it takes."""
        return [k]


@unittest.skipIf(find_spec(C_LIBRARY) is None, f"the Python package {C_LIBRARY} is not at hand")
class StringsOverC(Promises, unittest.TestCase):
    """Over the C library, which is so fast that more can be tried."""

    seed, rounds = 64, 5

    @classmethod
    def setUpClass(cls):
        library = importlib.import_module(C_LIBRARY)
        cls.readings = strings.readings_of(library, partial(strings.returning, library.Refused))

    def settings(self, k):
        return 0, k, 1000

    def pairs_of_readings(self, k):
        """The names of what is answered, the library's reading and light.py's."""
        for each in (partial(strings.amounts, ks=[k]), strings.colours):
            for (names, reading), (_, other) in zip(each(self.readings), each(LIGHT), strict=True):
                yield names, reading, other

    def test_light_py_reads_the_same(self):
        for kind, k, (start, step, rows) in rounds_of_strings(self.seed, 1):
            # Two of the lamps and the mixture, for the time that light.py takes.
            spectra = [*rows[:2], strings.mixture_of(rows)]
            for (names, reading, other), row in product(self.pairs_of_readings(k), spectra):
                with self.subTest(kind.__name__, start=start, step=step, names=names):
                    self.assertEqual(reading(start, step, row), other(start, step, row))


class Drawn(unittest.TestCase):
    """What the strings that are tried include, over each implementation."""

    @classmethod
    def setUpClass(cls):
        cls.runs = [
            list(rounds_of_strings(each.seed, each.rounds)) for each in (Strings, StringsOverC)
        ]

    def test_every_string_is_within_the_limits(self):
        for _, k, (start, step, rows) in chain(*self.runs):
            (count,) = {len(row) for row in rows}
            self.assertIn(k, range(1001))
            self.assertIn(start, range(300, 381))
            self.assertIn(step, (1, 2, 5, 10))
            self.assertIn(start + step * (count - 1), range(780, 831))
            self.assertIn(len(rows), range(1, 65))
            self.assertLessEqual(0, min(map(min, rows)))
            self.assertLessEqual(max(strings.mixture_of(rows)), LARGEST_SAMPLE)

    def test_settings_grids_and_numbers_of_lamps(self):
        for run in self.runs:
            grids = [(start, step, len(rows[0])) for _, _, (start, step, rows) in run]
            lasts = {start + step * (count - 1) for start, step, count in grids}
            self.assertLess({0, 1000}, {k for _, k, _ in run})
            self.assertLess({300, 380}, {start for start, _, _ in grids})
            self.assertEqual({1, 2, 5, 10}, {step for _, step, _ in grids})
            self.assertLess({780, 830}, lasts)
            self.assertLess({1, 2, 3, 63, 64}, {len(rows) for _, _, (_, _, rows) in run})

    def test_samples(self):
        for run in self.runs:
            mixtures = [strings.mixture_of(rows) for _, _, (_, _, rows) in run]
            self.assertLess({0, 1, LARGEST_SAMPLE}, {max(mixture) for mixture in mixtures})
            # The full light, and mixtures that reach the limit at some places only.
            self.assertIn({LARGEST_SAMPLE}, map(set, mixtures))
            full_places = [mixture.count(LARGEST_SAMPLE) for mixture in mixtures]
            self.assertGreater(sum(0 < each < 10 for each in full_places), 2)

    def test_dark_lamps(self):
        for run in self.runs:
            found = {"zeros": 0, "lit below 360": 0, "some of the lamps": 0}
            for kind, _, (start, step, rows) in run:
                dark = [row for row in rows if strings.is_dark(start, step, row)]
                zeros = sum(not any(row) for row in dark)
                found["zeros"] += zeros
                found["lit below 360"] += len(dark) - zeros
                found["some of the lamps"] += 1 < len(dark) < len(rows) - 1
                if kind is strings.all_dark:
                    self.assertEqual(len(dark), len(rows))
                if kind is strings.one_lit:
                    self.assertEqual(len(dark), len(rows) - 1)
            self.assertGreater(min(found.values()), 2)

    def test_lamps_lit_at_the_sample_below_360_that_pulls_on_the_line(self):
        for run in self.runs:
            found = 0
            for _, _, (start, step, rows) in run:
                lowest = strings.unfelt(start, step)
                below = start + step * lowest < 360
                found += sum(below and any(row) and not any(row[lowest + 1 :]) for row in rows)
            self.assertGreater(found, 2)

    def test_lamps_that_are_equal_or_lit_at_one_place(self):
        for kind, _, (_, _, rows) in chain(*self.runs):
            if kind is strings.equal:
                self.assertEqual(len(set(rows)), 1)
            if kind in (strings.lit_at_one_place, strings.near_halves):
                self.assertEqual({len(row) - row.count(0) for row in rows}, {1})


def slipped(slip, *names):
    """light.py's readings, of which these answer what `slip` makes of samples and answer."""

    def adapted(reading):
        return lambda *given: slip(given[-1], reading(*given))

    return replace(LIGHT, **{name: adapted(getattr(LIGHT, name)) for name in names})


class Faults(unittest.TestCase):
    """What is wrong with readings is found, and nothing where they are right."""

    # Rows from 300 on in steps of 10, of which the line from 360 on doesn't feel the first six.
    LIT = (0,) * 6 + tuple(range(1, 44))
    ZEROS = (0,) * 49
    BELOW = (1,) * 6 + (0,) * 43
    HALF = (LARGEST_SAMPLE // 2,) * 49

    # The names of what each reading answers, one list for each number of the answer.
    NAMES = {
        "photopic": [["photopic"]],
        "scotopic": [["scotopic"]],
        "photopic_10": [["10° photopic"]],
        "mesopic": [["mesopic at 500"]],
        "research": [["research 32", "research 40"]],
        "xyz": [["X 2", "X 10"], ["Y 2", "Y 10"], ["Z 2", "Z 10"]],
        "xy": [["x 2", "x 10"], ["y 2", "y 10"]],
        "uv": [["u' 2", "u' 10"], ["v' 2", "v' 10"]],
    }

    def assert_found(self, readings, rows, *expected):
        self.assertEqual(strings.faults(readings, [500], 300, 10, rows), list(expected))

    def assert_due(self, name, slip, rows, lamp, answer, due):
        """With that slip one sentence is found for either observer, on this lamp's colour."""
        first, second = {"xy": ("x", "y"), "uv": ("u'", "v'")}[name]
        sentences = (
            f"{first} {observer}, {second} {observer} of {lamp}: {answer}, where {due} is due"
            for observer in (2, 10)
        )
        self.assert_found(slipped(slip, name), rows, *sentences)

    def test_right_readings(self):
        for rows in product((self.LIT, self.ZEROS, self.BELOW, self.HALF), repeat=2):
            self.assert_found(LIGHT, rows)

    def test_one_unit_beyond_the_bound(self):
        for name, number in product(("photopic", "scotopic"), (2, 3, 63, 64)):
            grid, above, below = REACHED[name]
            for (sample, _), unit in ((above, -1), (below, 1)):
                start, step, row = lit_at_460(grid, sample)
                mixture = strings.mixture_of([row] * number)
                readings = slipped(
                    lambda samples, answer: answer + unit * (samples == mixture), name
                )
                apart = unit * (number // 2 + 1)
                expected = f"{name} of the mixture is {apart} above the sum of {number} readings"
                found = strings.faults(readings, [500], start, step, [row] * number)
                self.assertEqual(found, [expected])

    def test_each_number_of_each_answer_is_looked_at(self):
        rows = [self.LIT, self.LIT]
        mixture = strings.mixture_of(rows)
        for reading, numbers in self.NAMES.items():
            for i, names in enumerate(numbers):

                def three_too_high(samples, answer):
                    if samples != mixture:
                        return answer
                    if isinstance(answer, int):
                        return answer + 3
                    return tuple(number + 3 * (i == j) for j, number in enumerate(answer))

                readings = slipped(three_too_high, reading)
                found = strings.faults(readings, [500], 300, 10, rows)
                self.assertEqual([sentence.partition(" of ")[0] for sentence in found], names)

    def test_rounding_down_and_up(self):
        readings = strings.readings_of(light, lambda reading: reading)
        down, up = lambda part, whole: part // whole, lambda part, whole: -(-part // whole)
        # Photopic is 0.98 and 0.04, and three times as much 2.95 and 0.12.
        for nearest, sample, apart in ((down, 24, 2), (up, 1, -2)):
            start, step, row = lit_at_460((380, 1, 780), sample)
            with patch.object(light, "nearest", nearest):
                found = strings.faults(readings, [500], start, step, [row] * 3)
            expected = f"photopic of the mixture is {apart} above the sum of 3 readings"
            self.assertIn(expected, found)

    def test_dark_lamps_given_as_0(self):
        def slip(samples, answer):
            return (0, 0) if answer == Refused(9) else answer

        for name, dark in product(("xy", "uv"), (self.ZEROS, self.BELOW)):
            given = [self.LIT, dark], "lamp 1", (0, 0), Refused(9)
            self.assert_due(name, slip, *given)

    def test_dark_lamps_that_count_as_0_in_the_mixture(self):
        rows = [self.LIT, self.BELOW]
        mixture = strings.mixture_of(rows)

        def mean(samples, answer):
            return tuple(each // 2 for each in answer) if samples == mixture else answer

        sentences = []
        for observer in (2, 10):
            for name, exact in zip("xy", light.xy(observer, 300, 10, self.LIT)):
                found = f"{name} {observer} of the mixture is {exact // 2}"
                sentences.append(f"{found}, outside {exact} to {exact}")
        self.assert_found(slipped(mean, "xy"), rows, *sentences)

    def test_a_dark_mixture_that_is_given(self):
        rows = [self.BELOW, self.BELOW]

        def slip(samples, answer):
            return (1, 1) if samples == strings.mixture_of(rows) else answer

        for name in ("xy", "uv"):
            self.assert_due(name, slip, rows, "the mixture", (1, 1), Refused(9))

    def test_lit_ones_that_are_called_dark(self):
        rows = [self.LIT, self.HALF]
        spectra = {"lamp 0": self.LIT, "the mixture": strings.mixture_of(rows)}
        for name, (lamp, row) in product(("xy", "uv"), spectra.items()):

            def slip(samples, answer):
                return Refused(9) if samples == row else answer

            self.assert_due(name, slip, rows, lamp, Refused(9), "a value")

    def test_a_dark_one_that_is_refused_otherwise(self):
        rows = [self.ZEROS, self.LIT]

        def slip(samples, answer):
            return Refused(4, 7) if samples == self.ZEROS else answer

        for name in ("xy", "uv"):
            self.assert_due(name, slip, rows, "lamp 0", Refused(4, 7), Refused(9))

    def test_a_mixture_that_is_refused(self):
        def slip(samples, answer):
            # The limit itself is within it.
            return Refused(4) if LARGEST_SAMPLE in samples else answer

        for reading, numbers in self.NAMES.items():
            sentences = (
                f"{', '.join(names)} of the mixture: {Refused(4)}, where a value is due"
                for names in zip(*numbers)
            )
            self.assert_found(slipped(slip, reading), [self.HALF] * 2, *sentences)


class Raised(Exception):
    def __init__(self, refused):
        super().__init__(refused)
        self.number, self.place = refused.number, refused.place


class Returning(unittest.TestCase):
    """Readings that raise their refusals, made to return them."""

    @classmethod
    def setUpClass(cls):
        def raising(reading):
            def answer(*given):
                if isinstance(returned := reading(*given), Refused):
                    raise Raised(returned)
                return returned

            return answer

        module = SimpleNamespace(**{name: raising(getattr(light, name)) for name in Faults.NAMES})
        cls.readings = strings.readings_of(module, partial(strings.returning, Raised))

    def test_answers_are_those_of_light_py(self):
        faulty = (*Faults.LIT[:-1], LARGEST_SAMPLE + 1)
        rows = Faults.LIT, Faults.ZEROS, faulty, ()
        for row in rows:
            for each in (partial(strings.amounts, ks=[500, 1001]), strings.colours):
                for (_, reading), (_, other) in zip(each(self.readings), each(LIGHT), strict=True):
                    self.assertEqual(reading(300, 10, row), other(300, 10, row))

    def test_dark_ones_are_no_fault(self):
        for rows in product((Faults.LIT, Faults.ZEROS, Faults.BELOW), repeat=2):
            self.assertEqual(strings.faults(self.readings, [500], 300, 10, rows), [])


if __name__ == "__main__":
    unittest.main()
