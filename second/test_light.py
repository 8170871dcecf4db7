"""Tests of the second implementation: the rules' bench figures, their refusals and the order of these.

    python3 -m unittest discover -s second
"""

import random
import shutil
import tempfile
import unittest
from fractions import Fraction
from functools import cache
from itertools import chain, combinations, islice, product
from math import exp, hypot
from operator import add, mul
from pathlib import Path

import light
import many
import strings
import tables
from light import Refused

FULL = 1_000_000
TOO_LARGE = 1_000_001

# The value of each curve at 555.017 nm, from its entries at 555 and 556, and the
# efficacies that follow. They stand here by hand, so that a slip in light.py shows.
V_REFERENCE = Fraction("0.9999975639")  # 0.983 * 1 + 0.017 * 0.9998567
V_PRIME_REFERENCE = Fraction("0.4017348")  # 0.983 * 0.402 + 0.017 * 0.3864
V10_REFERENCE = Fraction("0.99912122")  # 0.983 * 0.99911 + 0.017 * 0.99977
V_F_REFERENCE = Fraction("0.9994698474")  # 0.983 * 0.9994608 + 0.017 * 0.999993
V_F10_REFERENCE = Fraction("0.9997803305")  # 0.983 * 0.9997775 + 0.017 * 0.999944
PHOTOPIC = 683 / V_REFERENCE
SCOTOPIC = 683 / V_PRIME_REFERENCE
PHOTOPIC_10 = 683 / V10_REFERENCE


def lone(value, wavelength, start=380, step=1, last=780):
    """A row that is 0 but for one sample."""
    samples = [0] * ((last - start) // step + 1)
    samples[(wavelength - start) // step] = value
    return samples


def pair(one, other):
    """A row that is 0 but for two samples, each given as its value and wavelength."""
    return list(map(add, lone(*one), lone(*other)))


def unrounded(efficacy, weights, samples):
    """The exact reading of a row from 380 to 780 in steps of 1 that ends in zeros."""
    return efficacy * sum(map(mul, weights[380 - 360 :], samples)) / 10**16


def panel(value, start=360, last=830):
    """A panel of one reflectance throughout, in steps of 1."""
    return [value] * (last - start + 1)


def grids(starts=range(300, 381)):
    """Start, step and count: each start and step with the fewest and the most samples."""
    for step, start in product((1, 2, 5, 10), starts):
        yield start, step, (779 - start) // step + 2
        yield start, step, (830 - start) // step + 1


def spectra(starts=range(300, 381)):
    """Start, step and samples: accepted rows on any grid, bright, dim and sparse."""
    draw = random.Random(2)
    for start, step, count in grids(starts):
        largest, lit = draw.choice((1, 20, 1_000, FULL, FULL)), draw.choice((3, count))
        samples = [0] * count
        for place in draw.sample(range(count), lit):
            samples[place] = draw.randint(0, largest)
        yield start, step, samples


def lit_spectra(starts):
    """Those that are not dark."""
    return (each for each in spectra(starts) if light.xy(2, *each) != Refused(9))


def line(step, samples):
    """T at each whole nanometre of the measured range."""
    row = []
    for low, high in zip(samples, samples[1:]):
        row += [(step - d) * low + d * high for d in range(step)]
    return [*row, step * samples[-1]]


def colour_readings():
    """x, y and u', v' of a light as functions of start, step and samples."""
    return {
        **{f"x, y {o}": lambda *given, o=o: light.xy(o, *given) for o in (2, 10)},
        **{f"u', v' {o}": lambda *given, o=o: light.uv(o, *given) for o in (2, 10)},
    }


def light_readings():
    """Every reading of a light as a function of start, step and samples."""
    return {
        "photopic": light.photopic,
        "scotopic": light.scotopic,
        "10° photopic": light.photopic_10,
        "figures": light.figures,
        **{f"mesopic {k}": lambda *given, k=k: light.mesopic(k, *given) for k in (0, 500, 1000)},
        **{f"research {o}": lambda *given, o=o: light.research(o, *given) for o in (32, 40)},
        **{f"X, Y, Z {o}": lambda *given, o=o: light.xyz(o, *given) for o in (2, 10)},
        **colour_readings(),
        **{f"chart {o}": lambda *given, o=o: light.chart(o, *given) for o in (2, 10)},
    }


def panel_readings():
    """Every reading of a panel, likewise."""
    return {
        f"{reading.__name__} {o} {i}": lambda *given, r=reading, o=o, i=i: r(o, i, *given)
        for reading in (light.panel_figures, light.panel_chart)
        for o, i in product((2, 10), (1, 2))
    }


class Tables(unittest.TestCase):
    def entry(self, table, wavelength):
        return table[wavelength - 360]

    def test_sums_are_the_printed_ones(self):
        printed = {
            106_865469489595: light.X,
            106_856917101172: light.Y,
            106_892251278636: light.Z,
            116_648519508908: light.X10,
            116_661877102312: light.Y10,
            116_673980514647: light.Z10,
        }
        for total, table in printed.items():
            self.assertEqual(light.nearest(sum(table), 10), total)

    def test_entries_that_are_easily_misread(self):
        self.assertEqual(self.entry(light.Y, 476), 117532 * 10**7)
        self.assertEqual(self.entry(light.Z, 649), 13333330)
        self.assertEqual(self.entry(light.Z, 650), 0)
        self.assertEqual(self.entry(light.Z10, 559), 47 * 10**7)
        self.assertEqual(self.entry(light.Z10, 560), 0)
        self.assertEqual(self.entry(light.V, 555), 10**13)
        self.assertEqual(self.entry(light.V_PRIME, 555), 402 * 10**10)
        self.assertEqual(self.entry(light.A, 598), 127_58000)

    def test_scotopic_weight_is_0_outside_380_to_780(self):
        self.assertEqual(self.entry(light.V_PRIME, 380), 5890000000)
        self.assertEqual(self.entry(light.V_PRIME, 780), 1390000)
        self.assertFalse(any(light.V_PRIME[: 380 - 360]))
        self.assertFalse(any(light.V_PRIME[781 - 360 :]))

    def test_cone_fundamental_weight_is_0_below_390(self):
        for table, first, last in (
            (light.V_F, 4146161000, 7053860),
            (light.V_F10, 4076779000, 6345380),
        ):
            self.assertFalse(any(table[: 390 - 360]))
            self.assertEqual(self.entry(table, 390), first)
            self.assertEqual(self.entry(table, 830), last)
            self.assertTrue(all(table[390 - 360 :]))

    def test_cone_fundamental_sums_and_largest_entries(self):
        self.assertEqual(sum(light.V_F), 113_0423145723374)
        self.assertEqual(sum(light.V_F10), 118_5180915321789)
        # The peaks are one, but at 556.1 and 555.7, so no entry is.
        for table, largest in ((light.V_F, 9999930 * 10**6), (light.V_F10, 9999440 * 10**6)):
            self.assertEqual(max(table), largest)
            self.assertEqual([w for w in range(360, 831) if self.entry(table, w) == largest], [556])

    def test_cone_fundamental_entries_around_the_last_printed_one(self):
        self.assertEqual(self.entry(light.V_F, 503), 3941359 * 10**6)
        self.assertEqual(self.entry(light.V_F, 504), 4106582 * 10**6)
        self.assertEqual(self.entry(light.V_F10, 503), 5197057 * 10**6)
        self.assertEqual(self.entry(light.V_F10, 504), 5343012 * 10**6)

    def test_illuminants_where_the_text_is_damaged(self):
        self.assertEqual(self.entry(light.A, 799), 249_91800)
        self.assertEqual(self.entry(light.A, 800), 250_32900)
        self.assertEqual(self.entry(light.A, 830), 261_60200)
        self.assertEqual(self.entry(light.D65, 760), 46_41820)
        self.assertEqual(self.entry(light.D65, 761), 48_45690)
        self.assertEqual(self.entry(light.D65, 830), 60_31250)


class Bench(unittest.TestCase):
    """P1 to P10: start 380, step 1, n = 401 and observer 2 unless said."""

    def test_p1_all_zero(self):
        given = 380, 1, [0] * 401
        self.assertEqual(light.photopic(*given), 0)
        self.assertEqual(light.scotopic(*given), 0)
        self.assertEqual(light.photopic_10(*given), 0)
        self.assertEqual(light.mesopic(500, *given), 0)
        self.assertEqual(light.research(32, *given), 0)
        self.assertEqual(light.research(40, *given), 0)
        self.assertEqual(light.xyz(2, *given), (0, 0, 0))
        self.assertEqual(light.xy(2, *given), Refused(9))
        self.assertEqual(light.uv(2, *given), Refused(9))
        self.assertEqual(light.chart(2, *given), "dark")
        self.assertEqual(light.figures(*given), (0, 0, 0, 0, 0, "dark"))

    def test_p2_full_at_460(self):
        given = 380, 1, lone(FULL, 460)
        self.assertEqual(light.photopic(*given), 40980)
        self.assertEqual(light.scotopic(*given), 963972)
        self.assertEqual(light.xyz(2, *given), (198617, 40980, 1140066))
        self.assertEqual(light.xy(2, *given), (14396, 2970))
        # The functions are 0.2908, 0.06 and 1.6692 here, so the divisor is 6.1984.
        self.assertEqual(light.uv(2, *given), (18766, 8712))
        point = 14396 / 100000.0, 2970 / 100000.0, 18766 / 100000.0, 8712 / 100000.0
        self.assertEqual(light.chart(2, *given), point)
        expected = (40980, 963972, 198617, 40980, 1140066, (14396, 2970))
        self.assertEqual(light.figures(*given), expected)

    def test_p3_just_above_a_half_at_460(self):
        above = unrounded(PHOTOPIC, light.V, lone(25_000, 460)) - Fraction("1024.5")
        self.assertLess(0, above)
        self.assertLess(above, Fraction("0.0025"))
        self.assertEqual(light.photopic(380, 1, lone(25_000, 460)), 1025)
        self.assertEqual(light.photopic(380, 1, lone(24_999, 460)), 1024)

    def test_p4_mesopic(self):
        given = 380, 1, lone(FULL, 460)
        self.assertEqual(light.mesopic(0, *given), 963972)
        self.assertEqual(light.mesopic(500, *given), 305508)
        self.assertEqual(light.mesopic(1000, *given), 40980)
        self.assertEqual(light.mesopic(1001, *given), Refused(5))

    def test_p5_the_line_reaches_456_and_464(self):
        samples = lone(FULL, 460, step=5)
        self.assertEqual(len(samples), 81)
        self.assertEqual(light.photopic(380, 5, samples), 205365)

    def test_p6_full_at_485(self):
        given = 380, 1, lone(FULL, 485)
        self.assertEqual(light.photopic(*given), 115632)
        self.assertEqual(light.scotopic(*given), 1446808)
        self.assertEqual(light.xy(2, *given), (6871, 20072))
        # The functions are 0.05795001, 0.1693 and 0.6162 here, so the divisor is 4.44605001.
        self.assertEqual(light.uv(2, *given), (5214, 34271))

    def test_p7_p2_and_p6_mixed(self):
        given = 380, 1, pair((FULL, 460), (FULL, 485))
        self.assertEqual(light.photopic(*given), 156612)
        self.assertEqual(light.xy(2, *given), (12179, 8008))
        # u' is 1.39500004 and v' 2.0637 over 10.64445001.
        self.assertEqual(light.uv(2, *given), (13105, 19388))

    def test_p8_p3_mixed_with_itself(self):
        # The two readings sum to 2050.
        self.assertEqual(light.photopic(380, 1, lone(50_000, 460)), 2049)

    def test_p9_white_panel(self):
        for illuminant in (1, 2):
            self.assertEqual(light.panel_xyz(2, illuminant, 360, 1, panel(10_000))[1], 100_000)

    def test_p10_refused(self):
        zeros = [0] * 401
        self.assertEqual(light.photopic(380, 3, zeros), Refused(1))
        self.assertEqual(light.photopic(299, 1, [0] * 482), Refused(2))
        self.assertEqual(light.photopic(381, 1, [0] * 400), Refused(2))
        self.assertEqual(light.photopic(380, 1, zeros[:400]), Refused(3))
        zeros[7] = TOO_LARGE
        self.assertEqual(light.photopic(380, 1, zeros), Refused(4, 7))


class Readings(unittest.TestCase):
    def test_colour_is_not_worked_from_rounded_readings(self):
        given = 2, 380, 1, lone(1, 460)
        self.assertEqual(light.xyz(*given), (0, 0, 1))
        self.assertEqual(light.xy(*given), (14396, 2970))
        self.assertEqual(light.uv(*given), (18766, 8712))

    def assert_half_goes_up(self, half, exactly, reading, row, less):
        """`exactly` is a row's exact reading, and `less` a row a little below `row`."""
        self.assertEqual(exactly(row), Fraction(half))
        up = int(Fraction(half) + Fraction(1, 2))
        self.assertEqual(reading(380, 1, row), up)
        self.assertEqual(reading(380, 1, less), up - 1)

    def test_exact_halves_of_illuminances_go_up(self):
        self.assert_half_goes_up(
            "93229.5",
            lambda row: unrounded(PHOTOPIC, light.V, row),
            light.photopic,
            pair((136_491, 555), (184_750, 382)),
            pair((136_491, 555), (184_749, 382)),
        )
        self.assert_half_goes_up(
            "107572.5",
            lambda row: unrounded(SCOTOPIC, light.V_PRIME, row),
            light.scotopic,
            lone(111_593, 460),
            lone(111_592, 460),
        )
        self.assert_half_goes_up(
            "129428.5",
            lambda row: unrounded(PHOTOPIC_10, light.V10, row),
            light.photopic_10,
            lone(189_947, 553),
            lone(189_946, 553),
        )

    def test_exact_halves_of_mesopic_go_up(self):
        both = list(map(add, light.V, light.V_PRIME))
        self.assert_half_goes_up(
            "440876.5",
            lambda row: unrounded(683 / (V_REFERENCE + V_PRIME_REFERENCE), both, row),
            lambda *given: light.mesopic(500, *given),
            pair((640_885, 555), (31_715, 429)),
            pair((640_885, 555), (31_714, 429)),
        )
        half = lone(111_593, 460)
        self.assertEqual(light.mesopic(0, 380, 1, half), 107573)

    def test_exact_halves_of_x_go_up(self):
        self.assert_half_goes_up(
            "51566.5",
            lambda row: unrounded(PHOTOPIC, light.X, row),
            lambda *given: light.xyz(2, *given)[0],
            pair((259_430, 460), (38_329, 381)),
            pair((259_430, 460), (38_328, 381)),
        )
        self.assert_half_goes_up(
            "18782.5",
            lambda row: unrounded(PHOTOPIC_10, light.X10, row),
            lambda *given: light.xyz(10, *given)[0],
            lone(189_947, 474),
            lone(189_946, 474),
        )

    def test_x_and_y_may_come_to_100001(self):
        samples = lone(3, 685)
        samples[690 - 380] = 94
        # x is exactly 73437.5 and y 26562.5, since z has no weight here.
        self.assertEqual(light.xy(2, 380, 1, samples), (73438, 26563))

    def test_chart_has_each_coordinate_over_100000(self):
        for spectrum, observer in product(lit_spectra((300, 355, 380)), OBSERVERS):
            colour = light.xy(observer, *spectrum) + light.uv(observer, *spectrum)
            expected = tuple(float(each) / 100000.0 for each in colour)
            self.assertEqual(light.chart(observer, *spectrum), expected)

    def test_sample_below_360_pulls_on_the_line_that_crosses_360(self):
        # Samples stand at 359 and 361, so T is FULL at 360 and 0 beyond.
        samples = lone(FULL, 359, start=301, step=2, last=781)
        half = light.xyz(2, 360, 1, lone(FULL // 2, 360, start=360))
        self.assertEqual(light.xyz(2, 301, 2, samples), half)
        self.assertNotEqual(light.xy(2, 301, 2, samples), Refused(9))

    def test_a_finer_grid_on_the_same_line_reads_the_same(self):
        draw = random.Random(1)
        for start, step, last in ((300, 2, 830), (303, 5, 828), (357, 10, 787), (380, 10, 830)):
            count = (last - start) // step + 1
            samples = [step * draw.randrange(FULL // step + 1) for _ in range(count)]
            fine = [t // step for t in line(step, samples)]
            for name, reading in light_readings().items():
                with self.subTest(name, step=step):
                    self.assertEqual(reading(start, step, samples), reading(start, 1, fine))

    def test_y_is_the_photopic_reading(self):
        draw = random.Random(3)
        for _ in range(20):
            given = 380, 5, [draw.randrange(FULL + 1) for _ in range(81)]
            self.assertEqual(light.xyz(2, *given)[1], light.photopic(*given))
            self.assertEqual(light.xyz(10, *given)[1], light.photopic_10(*given))


# The equations of u' and v', in either form in which they are printed. Given
# fractions they are exact.


def first_form(x, y, z):
    """u' and v' from X, Y and Z or any three in their ratio."""
    divisor = x + 15 * y + 3 * z
    return 4 * x / divisor, 9 * y / divisor


def second_form(x, y):
    """u' and v' from the coordinates x and y."""
    divisor = -2 * x + 12 * y + 3
    return 4 * x / divisor, 9 * y / divisor


def hundred_thousandths(coordinates):
    return tuple(light.nearest(100_000 * each, 1) for each in coordinates)


class UniformScale(unittest.TestCase):
    """u' and v', the coordinates of the 1976 diagram."""

    def assert_both_forms_give(self, answer, sums):
        x, y, _ = (Fraction(each, sum(sums)) for each in sums)
        exactly = first_form(*map(Fraction, sums))
        self.assertEqual(second_form(x, y), exactly)
        self.assertEqual(answer, hundred_thousandths(exactly))

    def test_both_forms_of_the_equations_give_what_is_read(self):
        for spectrum in lit_spectra((300, 321, 347, 355, 360, 380)):
            start, step, samples = spectrum
            # Within the limit of a panel, and 0 only where the sample is.
            reflectances = [(sample + 99) // 100 for sample in samples]
            for observer in OBSERVERS:
                sums = light.light_sums(observer, *spectrum)
                self.assert_both_forms_give(light.uv(observer, *spectrum), sums)
                for illuminant in ILLUMINANTS:
                    given = observer, illuminant, start, step, reflectances
                    sums = light.panel_sums(*given)
                    self.assert_both_forms_give(light.panel_uv(*given), sums)

    def test_they_are_not_worked_from_rounded_x_and_y(self):
        cases = {460: ((18766, 8712), (18766, 8711)), 654: ((60531, 50920), (60529, 50921))}
        for wavelength, (expected, slipped) in cases.items():
            given = 2, 380, 1, lone(FULL, wavelength)
            x, y = (Fraction(each, 100_000) for each in light.xy(*given))
            self.assertEqual(light.uv(*given), expected)
            self.assertEqual(hundred_thousandths(second_form(x, y)), slipped)

    def test_exact_halves_go_up(self):
        u, v = 0, 1
        cases = [
            (2, u, "1188.5", pair((793, 495), (16, 515))),
            (2, v, "50752.5", pair((138, 670), (43, 675))),
            (10, u, "22562.5", pair((25, 431), (439, 569))),
            (10, v, "51237.5", pair((1, 677), (30, 729))),
        ]
        for observer, i, half, samples in cases:
            given = observer, 380, 1, samples
            exactly = first_form(*map(Fraction, light.light_sums(*given)))[i]
            self.assertEqual(100_000 * exactly, Fraction(half))
            self.assertEqual(light.uv(*given)[i], Fraction(half) + Fraction(1, 2))

    def test_dark_is_where_the_divisor_is_0_and_both_divisors_are_0_together(self):
        for sums in product((0, 1, 10**30), repeat=3):
            for pair_from in (light.xy_from, light.uv_from):
                self.assertEqual(pair_from(*sums) == Refused(9), sums == (0, 0, 0))
        # A coordinate of 0 isn't dark.
        self.assertEqual(light.uv_from(0, 0, 1), (0, 0))
        self.assertEqual(light.uv_from(0, 1, 0), (0, 60_000))
        self.assertEqual(light.uv_from(1, 0, 0), (400_000, 0))


class Temperatures(unittest.TestCase):
    """The printed colour temperatures of A and D65, from u' and v' of the white panel.

    These are exact: from the rounded ones D65 would be at 6502.
    """

    def planckian(self, kelvin):
        """u' and v' of a Planckian radiator for observer 2, with a c2 of 14388 µm·K."""
        power = [w**-5 / (exp(14_388_000 / (w * kelvin)) - 1) for w in range(360, 831)]
        return first_form(*(sum(map(mul, power, weights)) for weights in OBSERVERS[2][1]))

    def correlated(self, illuminant):
        """The whole temperature of the nearest Planckian radiator, where 2/3 v' is against u'."""
        white = 2, illuminant, 360, 1, panel(10_000)
        exactly = first_form(*map(Fraction, light.panel_sums(*white)))
        self.assertEqual(hundred_thousandths(exactly), light.panel_uv(*white))
        u, v = map(float, exactly)

        def distance(kelvin):
            planckian_u, planckian_v = self.planckian(kelvin)
            return hypot(planckian_u - u, 2 / 3 * (planckian_v - v))

        near = min(range(2_000, 10_000, 100), key=distance)
        return min(range(near - 100, near + 101), key=distance)

    def test_illuminant_a(self):
        self.assertEqual(self.correlated(1), 2856)

    def test_illuminant_d65(self):
        self.assertEqual(self.correlated(2), 6503)

    def test_illuminant_a_is_a_planckian_radiator(self):
        kelvin = 2848 * 14_388 / 14_350
        white = light.panel_uv(2, 1, 360, 1, panel(10_000))
        self.assertEqual(hundred_thousandths(self.planckian(kelvin)), white)


class Reference(unittest.TestCase):
    """The place of 540 THz in air, 555.017 nm, where every curve has 683 lumens to the watt."""

    CURVES = (
        (light.V, 555, V_REFERENCE),
        (light.V_PRIME, 507, V_PRIME_REFERENCE),
        (light.V10, 557, V10_REFERENCE),
    )

    def test_peaks_are_one_and_no_entry_is_larger(self):
        for weights, peak, _ in self.CURVES:
            self.assertEqual(light.table_value(weights, peak), 1)
            self.assertEqual(weights[peak - 360], max(weights))
        # Scotopic is one at 506 and 508 too, with 507 in their middle.
        ones = [[w for w in range(360, 831) if each[w - 360] == 10**13] for each, *_ in self.CURVES]
        self.assertEqual(ones, [[555], [506, 507, 508], [557]])

    def test_the_value_lies_between_its_neighbours_and_nearer_to_that_of_555(self):
        for weights, _, reference in self.CURVES:
            value = light.reference_value(weights)
            at_555, at_556 = (Fraction(weights[w - 360], 10**13) for w in (555, 556))
            self.assertEqual(value, reference)
            self.assertLess(min(at_555, at_556), value)
            self.assertLess(value, max(at_555, at_556))
            # 17 thousandths of the way, of which 983 are left.
            self.assertEqual(983 * (value - at_555), 17 * (at_556 - value))
            self.assertLess(abs(value - at_555), abs(value - at_556))

    def test_efficacies(self):
        self.assertEqual(light.PHOTOPIC_EFFICACY, PHOTOPIC)
        self.assertEqual(light.SCOTOPIC_EFFICACY, SCOTOPIC)
        self.assertEqual(light.PHOTOPIC_10_EFFICACY, PHOTOPIC_10)
        # The rounded efficacies of the tables' source.
        rounded = [light.nearest(each, 1) for each in (PHOTOPIC, SCOTOPIC, PHOTOPIC_10)]
        self.assertEqual(rounded, [683, 1700, 684])

    def test_light_at_555_017_reads_683_lumens_to_the_watt(self):
        # 983 parts at 555 and 17 at 556 weigh as much as 1000 at 555.017 do.
        for parts in (1, 2, 500, 1017):
            given = 380, 1, pair((983 * parts, 555), (17 * parts, 556))
            expected = 683 * parts
            self.assertEqual(light.photopic(*given), expected)
            self.assertEqual(light.scotopic(*given), expected)
            self.assertEqual(light.photopic_10(*given), expected)
            self.assertEqual(light.xyz(2, *given)[1], expected)
            self.assertEqual(light.xyz(10, *given)[1], expected)
            for k in (0, 1, 17, 250, 402, 500, 983, 999, 1000):
                self.assertEqual(light.mesopic(k, *given), expected)


class MesopicEnds(unittest.TestCase):
    """Mesopic is scotopic at k = 0 and photopic at k = 1000, whatever is given."""

    def assert_ends(self, *given):
        scotopic, photopic = light.scotopic(*given), light.photopic(*given)
        self.assertEqual(light.mesopic(0, *given), scotopic)
        self.assertEqual(light.mesopic(1000, *given), photopic)
        return scotopic, photopic

    def test_accepted(self):
        lit = 0
        for spectrum in spectra():
            scotopic, photopic = self.assert_ends(*spectrum)
            lit += scotopic > 10_000 and photopic > 10_000 and scotopic != photopic
        # Bright enough to tell the two apart, and from any other factor.
        self.assertGreater(lit, 200)

    def test_lone_wavelengths(self):
        for wavelength in range(360, 831):
            samples = lone(FULL, wavelength, start=360, last=830)
            self.assert_ends(360, 1, samples)

    def test_refused(self):
        draw = random.Random(8)
        for start, step, samples in spectra():
            faults = draw.sample((1, 2, 3, 4), draw.randint(1, 4))
            place = 0
            if 1 in faults:
                step = draw.choice((0, 3, 4, 7, 11, 4_294_967_295))
            if 2 in faults:
                start = draw.choice((0, 299, 381, 4_294_967_295))
            if 3 in faults:
                samples = draw.choice((samples[:0], samples[:1], samples[:40], [1] * 532))
            if faults == [4]:
                places = draw.sample(range(len(samples)), 3)
                place = min(places)
                for each in places:
                    samples[each] = draw.choice((TOO_LARGE, 4_294_967_295))
            elif 4 in faults:
                samples = [TOO_LARGE] * len(samples)
            with self.subTest(faults=faults):
                refused = Refused(min(faults), place)
                self.assertEqual(self.assert_ends(start, step, samples), (refused, refused))


class Research(unittest.TestCase):
    """Illuminance under the cone-fundamental curves, 2° and 10°."""

    def assert_reads(self, two, ten, *given):
        self.assertEqual(light.research(32, *given), two)
        self.assertEqual(light.research(40, *given), ten)

    def test_lone_wavelengths_that_tell_the_curves_apart(self):
        self.assert_reads(58_187, 96_637, 380, 1, lone(FULL, 460))
        self.assert_reads(141_103, 212_421, 380, 1, lone(FULL, 485))
        self.assert_reads(683_195, 682_617, 380, 1, lone(FULL, 557))

    def test_every_wavelength_has_its_own_weight(self):
        for observer, (efficacy, weights) in RESEARCH.items():
            for wavelength in range(360, 831):
                samples = lone(FULL, wavelength, start=360, last=830)
                expected = greatest_illuminance(efficacy, [weights[wavelength - 360]])
                self.assertEqual(light.research(observer, 360, 1, samples), expected)

    def test_light_at_555_017_reads_683_lumens_to_the_watt(self):
        for parts in (1, 2, 500, 1017):
            given = 380, 1, pair((983 * parts, 555), (17 * parts, 556))
            self.assert_reads(683 * parts, 683 * parts, *given)

    def test_efficacies(self):
        for observer, expected in RESEARCH.items():
            self.assertEqual(light.RESEARCH_OBSERVERS[observer], expected)

    def test_there_is_no_peak_factor(self):
        # With one the full light would read the second, a little less.
        slipped = {32: (77_248_855, 77_248_314), 40: (80_965_642, 80_961_108)}
        for observer, (expected, slip) in slipped.items():
            efficacy, weights = RESEARCH[observer]
            factor = Fraction(max(weights), 10**13)
            self.assertEqual(light.research(observer, 360, 1, [FULL] * 471), expected)
            self.assertEqual(greatest_illuminance(factor * efficacy, weights), slip)

    def test_light_below_390_reads_0_and_at_390_it_doesn_t(self):
        self.assert_reads(0, 0, 360, 1, [FULL] * 30 + [0] * 441)
        self.assert_reads(283, 279, 360, 1, lone(FULL, 390, start=360, last=830))
        self.assert_reads(0, 0, 380, 1, lone(FULL, 389))
        self.assert_reads(283, 279, 380, 1, lone(FULL, 390))

    def test_light_below_390_on_any_grid(self):
        for start, step, count in grids():
            # A sample is felt up to where the next one stands.
            unfelt = (390 - start) // step
            samples = [FULL] * unfelt + [0] * (count - unfelt)
            with self.subTest(start=start, step=step, count=count):
                self.assert_reads(0, 0, start, step, samples)
                samples[unfelt] = FULL
                self.assertGreater(light.research(32, start, step, samples), 0)
                self.assertGreater(light.research(40, start, step, samples), 0)

    def test_the_last_sample_is_carried_up_to_830(self):
        for observer, (efficacy, weights) in RESEARCH.items():
            expected = greatest_illuminance(efficacy, weights[780 - 360 :])
            self.assertEqual(light.research(observer, 380, 1, lone(FULL, 780)), expected)
        self.assert_reads(160, 144, 380, 1, lone(FULL, 780))

    def test_exact_halves_go_up(self):
        cases = [
            (32, "341.5", ((1_885, 460), (413, 527)), ((1_884, 460), (413, 527))),
            (32, "1707.5", ((1_058, 555), (8_881, 644)), ((1_058, 555), (8_880, 644))),
            (40, "1707.5", ((1_939, 600), (50_735, 419)), ((1_939, 600), (50_734, 419))),
            (40, "8537.5", ((13, 557), (136_905, 446)), ((13, 557), (136_904, 446))),
        ]
        for observer, half, row, less in cases:
            with self.subTest(observer=observer, half=half):
                self.assertEqual(unrounded(*RESEARCH[observer], pair(*row)), Fraction(half))
                up = int(Fraction(half) + Fraction(1, 2))
                self.assertEqual(light.research(observer, 380, 1, pair(*row)), up)
                self.assertEqual(light.research(observer, 380, 1, pair(*less)), up - 1)


class Ends(unittest.TestCase):
    """The first sample is carried down to 360 and the last one up to 830."""

    def test_the_first_and_the_last_sample_are_carried_times_the_step(self):
        row = light.t_row(380, 10, [1, 2, *[3] * 37, 4, 5])
        self.assertEqual(row[: 382 - 360], [10] * 21 + [11])
        self.assertEqual(row[779 - 360 :], [49] + [50] * 51)

    def test_t_is_the_line_with_both_ends_carried(self):
        draw = random.Random(5)
        starts, lasts = (300, 355, 360, 361, 370, 380), (780, 781, 785, 800, 829, 830)
        for start, last, step in product(starts, lasts, (1, 2, 5, 10)):
            if (last - start) % step == 0:
                samples = [draw.randint(1, FULL) for _ in range(start, last + 1, step)]
                measured = line(step, samples)
                below, above = [measured[0]] * (start - 360), [measured[-1]] * (830 - last)
                expected = below + measured[max(360 - start, 0) :] + above
                self.assertEqual(light.t_row(start, step, samples), expected)

    def test_a_constant_row_has_a_constant_t(self):
        for (start, step, count), value in product(grids(), (0, 1, 9_999, FULL)):
            self.assertEqual(light.t_row(start, step, [value] * count), [step * value] * 471)

    def test_a_row_that_is_widened_by_its_ends_reads_the_same(self):
        draw = random.Random(6)
        for start, step, last in ((361, 1, 829), (380, 2, 784), (370, 5, 805), (380, 10, 780)):
            samples = [draw.randint(1, 10_000) for _ in range(start, last + 1, step)]
            below, above = (start - 360) // step, (830 - last) // step
            wide = [samples[0]] * below + samples + [samples[-1]] * above
            for name, reading in (light_readings() | panel_readings()).items():
                with self.subTest(name, step=step):
                    self.assertEqual(reading(start, step, samples), reading(360, step, wide))

    def test_a_lone_end_lights_every_nanometre_beyond_it(self):
        for wavelength, beyond in ((380, slice(381 - 360)), (780, slice(780 - 360, None))):
            for observer, (efficacy, functions) in OBSERVERS.items():
                expected = (greatest_illuminance(efficacy, each[beyond]) for each in functions)
                with self.subTest(wavelength=wavelength, observer=observer):
                    lit = light.xyz(observer, 380, 1, lone(FULL, wavelength))
                    self.assertEqual(lit, tuple(expected))

    def test_carried_ends_have_no_scotopic_weight(self):
        self.assertEqual(light.scotopic(380, 1, lone(FULL, 380)), 1001)
        self.assertEqual(light.scotopic(380, 1, lone(FULL, 780)), 0)


def lit_below_360(start, step, count):
    """A row lit only where no nanometre from 360 on feels it, and how many samples these are."""
    unfelt = max((360 - start) // step, 0)
    return [10_000] * unfelt + [0] * (count - unfelt), unfelt


class Dark(unittest.TestCase):
    """A light or a panel is dark exactly if T is 0 from 360 to 830."""

    def assert_dark(self, expected, start, step, samples):
        row = start, step, samples
        with self.subTest(start=start, step=step, count=len(samples)):
            for observer in OBSERVERS:
                self.assertEqual(light.xy(observer, *row) == Refused(9), expected)
                for illuminant in ILLUMINANTS:
                    colour = light.panel_xy(observer, illuminant, *row)
                    self.assertEqual(colour == Refused(9), expected)
            if expected:
                self.assertEqual(light.figures(*row), (0, 0, 0, 0, 0, "dark"))

    def test_zeros_on_any_grid(self):
        for start, step, count in grids():
            self.assert_dark(True, start, step, [0] * count)

    def test_a_lone_first_sample(self):
        for start, step in ((300, 1), (359, 1), (358, 2), (355, 5), (300, 10), (350, 10)):
            self.assert_dark(True, start, step, lone(10_000, start, start, step, 790))
        for start, step in ((360, 1), (359, 2), (356, 5), (355, 10), (361, 1), (380, 10)):
            self.assert_dark(False, start, step, lone(1, start, start, step, 790))

    def test_below_360_on_any_grid(self):
        for start, step, count in grids():
            samples, unfelt = lit_below_360(start, step, count)
            self.assert_dark(True, start, step, samples)
            samples[unfelt] = 1
            self.assert_dark(False, start, step, samples)

    def test_u_and_v_and_the_chart_are_dark_where_x_and_y_are(self):
        draw = random.Random(9)
        found = {True: 0, False: 0}
        for start, step, count in grids((300, 327, 350, 359, 360, 380)):
            samples, unfelt = lit_below_360(start, step, count)
            if draw.randrange(2):
                samples[draw.randrange(unfelt, count)] = 1
            row = start, step, samples
            for observer in OBSERVERS:
                dark = light.xy(observer, *row) == Refused(9)
                self.assertEqual(light.uv(observer, *row) == Refused(9), dark)
                self.assertEqual(light.chart(observer, *row) == "dark", dark)
                for illuminant in ILLUMINANTS:
                    setting = observer, illuminant
                    self.assertEqual(light.panel_xy(*setting, *row) == Refused(9), dark)
                    self.assertEqual(light.panel_uv(*setting, *row) == Refused(9), dark)
                    self.assertEqual(light.panel_chart(*setting, *row) == "dark", dark)
            found[dark] += 1
        self.assertGreater(min(found.values()), 10)

    def test_a_lone_1_is_dark_exactly_below_360(self):
        for wavelength, reading in product(range(300, 831), colour_readings().values()):
            answer = reading(300, 1, lone(1, wavelength, start=300, last=830))
            self.assertEqual(answer == Refused(9), wavelength < 360)

    def test_a_lone_last_sample_on_any_grid(self):
        for start, step, count in grids():
            self.assert_dark(False, start, step, [0] * (count - 1) + [1])


class Mixing(unittest.TestCase):
    """Two lights on one grid, which are a string of two lamps."""

    # The same lights are looked at twice.
    READINGS = strings.readings_of(light, cache)
    KS = 0, 500, 1000

    def pairs(self):
        """Start, step, and two rows with both ends lit."""
        draw = random.Random(7)
        cases = product(grids((300, 355, 361, 380)), (0, 1, 5, 39), (20, FULL // 2))
        for (start, step, count), lit, largest in cases:
            one, other = [0] * count, [0] * count
            for row in (one, other):
                for place in (0, *draw.sample(range(1, count - 1), lit), count - 1):
                    row[place] = draw.randint(1, largest)
            yield start, step, (tuple(one), tuple(other))

    def extremes(self):
        """Likewise, with samples that are none, the least or the most, so that some are dark."""
        draw = random.Random(10)
        shares = (0, 0), (0, 1), (1, 0), (0, FULL), (FULL, 0), (1, FULL - 1), (FULL - 1, 1)
        for (start, step, count), lit in product(grids((300, 355, 361, 380)), (1, 2, 40)):
            mixed = [(0, 0)] * count
            for place in draw.sample(range(count), lit):
                mixed[place] = draw.choice(shares)
            yield start, step, tuple(zip(*mixed))

    def with_a_dark_one(self):
        """Likewise, each light of some pairs beside one that is lit only below 360, if at all."""
        for start, step, pair in islice(self.pairs(), 0, None, 8):
            for one in pair:
                dark, _ = lit_below_360(start, step, len(one))
                yield start, step, (one, tuple(dark))

    def test_what_holds_of_a_string(self):
        for start, step, rows in chain(self.pairs(), self.extremes(), self.with_a_dark_one()):
            self.assertEqual(strings.faults(self.READINGS, self.KS, start, step, rows), [])

    def test_no_amount_of_a_light_is_above_the_mixture_s(self):
        for start, step, rows in self.pairs():
            for names, reading in strings.amounts(self.READINGS, self.KS):
                answers = (reading(start, step, row) for row in (*rows, strings.mixture_of(rows)))
                one, other, mixed = (strings.by_name(names, answer) for answer in answers)
                for name in names:
                    self.assertLessEqual(max(one[name], other[name]), mixed[name])


class Panels(unittest.TestCase):
    def test_full_white(self):
        white = 360, 1, panel(10_000)
        self.assertEqual(light.panel_xyz(2, 1, *white), (109850, 100000, 35585))
        self.assertEqual(light.panel_xyz(2, 2, *white), (95047, 100000, 108883))
        self.assertEqual(light.panel_xyz(10, 1, *white)[1], 100000)
        self.assertEqual(light.panel_xyz(10, 2, *white)[1], 100000)

    def test_u_and_v_of_full_white_on_any_grid(self):
        white = {
            (2, 1): (25597, 52429),
            (2, 2): (19784, 46834),
            (10, 1): (25896, 52425),
            (10, 2): (19786, 46955),
        }
        for setting, expected in white.items():
            # From 360 to 830, from 380 to 780 and others, in each step.
            for start, step, count in grids((300, 355, 360, 361, 380)):
                with self.subTest(start=start, step=step, count=count, setting=setting):
                    colour = light.panel_uv(*setting, start, step, [10_000] * count)
                    self.assertEqual(colour, expected)

    def test_the_white_sum_runs_over_360_to_830_whatever_the_panel(self):
        # A white sum over 380 to 780 alone would give 109851.
        narrow = light.panel_xyz(2, 1, 380, 1, panel(10_000, 380, 780))
        self.assertEqual(narrow[0], 109850)

    def test_grey_has_its_reflectance_as_y_on_any_grid(self):
        for start, step, count in grids((300, 355, 360, 361, 380)):
            for setting in product(OBSERVERS, ILLUMINANTS):
                for reflectance in (0, 1, 4_999, 9_999, 10_000):
                    with self.subTest(start=start, step=step, count=count, setting=setting):
                        grey = light.panel_xyz(*setting, start, step, [reflectance] * count)
                        self.assertEqual(grey[1], 10 * reflectance)

    def test_grey_has_the_colour_of_white(self):
        readings = light.panel_xy, light.panel_uv
        for reading, *setting in product(readings, OBSERVERS, ILLUMINANTS):
            white = reading(*setting, 360, 1, panel(10_000))
            self.assertEqual(reading(*setting, 360, 1, panel(1)), white)
        self.assertEqual(light.panel_xy(2, 2, 360, 1, panel(1)), (31273, 32902))

    def test_chart(self):
        expected = 31273 / 100000.0, 32902 / 100000.0, 19784 / 100000.0, 46834 / 100000.0
        self.assertEqual(light.panel_chart(2, 2, 360, 1, panel(10_000)), expected)
        for setting in product(OBSERVERS, ILLUMINANTS):
            given = *setting, 360, 1, panel(10_000)
            colour = light.panel_xy(*given) + light.panel_uv(*given)
            expected = tuple(float(each) / 100000.0 for each in colour)
            self.assertEqual(light.panel_chart(*given), expected)

    def test_black(self):
        black = 360, 1, panel(0)
        self.assertEqual(light.panel_xyz(2, 1, *black), (0, 0, 0))
        self.assertEqual(light.panel_xy(2, 1, *black), Refused(9))
        self.assertEqual(light.panel_uv(2, 1, *black), Refused(9))
        self.assertEqual(light.panel_chart(2, 1, *black), "dark")


# The greatest that each reading could be, from the sums of the tables and the
# limits alone: W is at most s times the limit times the sum of the weights. The
# s is left out, since the divisor has it too. What an observer or an illuminant
# is stands here again, so that a slip in light.py shows.

OBSERVERS = {
    2: (PHOTOPIC, (light.X, light.Y, light.Z)),
    10: (PHOTOPIC_10, (light.X10, light.Y10, light.Z10)),
}
RESEARCH = {
    32: (683 / V_F_REFERENCE, light.V_F),
    40: (683 / V_F10_REFERENCE, light.V_F10),
}
ILLUMINANTS = {1: light.A, 2: light.D65}


def greatest_illuminance(efficacy, weights):
    return light.nearest(efficacy * FULL * sum(weights), 10**16)


def greatest_mesopic(k):
    mixed = k * sum(light.V) + (1000 - k) * sum(light.V_PRIME)
    reference = k * V_REFERENCE + (1000 - k) * V_PRIME_REFERENCE
    return light.nearest(683 * FULL * mixed, 10**16 * reference)


def greatest_xyz(observer):
    efficacy, functions = OBSERVERS[observer]
    return tuple(greatest_illuminance(efficacy, weights) for weights in functions)


def greatest_panel_xyz(observer, illuminant):
    # A panel's weights are the illuminant times the function.
    power = ILLUMINANTS[illuminant]
    sums = [sum(map(mul, power, weights)) for weights in OBSERVERS[observer][1]]
    white = sums[1]
    return tuple(light.nearest(10 * 10_000 * each, white) for each in sums)


class Greatest(unittest.TestCase):
    """Why no reading is refused for being too great."""

    def test_no_t_is_above_s_times_the_limit(self):
        # T only rises with the samples, so full rows are enough.
        for start, step, count in grids():
            self.assertEqual(max(light.t_row(start, step, [FULL] * count)), step * FULL)

    def test_the_full_light_attains_them_on_any_grid(self):
        photopic = greatest_illuminance(PHOTOPIC, light.V)
        scotopic = greatest_illuminance(SCOTOPIC, light.V_PRIME)
        photopic_10 = greatest_illuminance(PHOTOPIC_10, light.V10)
        research = {observer: greatest_illuminance(*given) for observer, given in RESEARCH.items()}
        for start, step, count in grids():
            full = start, step, [FULL] * count
            with self.subTest(start=start, step=step, count=count):
                self.assertEqual(light.photopic(*full), photopic)
                self.assertEqual(light.scotopic(*full), scotopic)
                self.assertEqual(light.photopic_10(*full), photopic_10)
                for k in (0, 500, 1000):
                    self.assertEqual(light.mesopic(k, *full), greatest_mesopic(k))
                for observer, greatest in research.items():
                    self.assertEqual(light.research(observer, *full), greatest)
                for observer in OBSERVERS:
                    self.assertEqual(light.xyz(observer, *full), greatest_xyz(observer))

    def test_the_white_panel_attains_them_on_any_grid(self):
        for setting in product(OBSERVERS, ILLUMINANTS):
            greatest = greatest_panel_xyz(*setting)
            self.assertEqual(greatest[1], 100_000)
            for start, step, count in grids():
                with self.subTest(start=start, step=step, count=count, setting=setting):
                    white = light.panel_xyz(*setting, start, step, [10_000] * count)
                    self.assertEqual(white, greatest)

    def test_the_greatest_illuminances(self):
        full = 360, 1, [FULL] * 471
        self.assertEqual(light.photopic(*full), 72_983_452)
        self.assertEqual(light.scotopic(*full), 165_033_523)
        self.assertEqual(light.photopic_10(*full), 79_750_145)
        self.assertEqual(light.research(32, *full), 77_248_855)
        self.assertEqual(light.research(40, *full), 80_965_642)
        mesopic = {
            0: 165_033_523,
            1: 164_804_733,
            250: 123_291_384,
            500: 99_364_891,
            750: 83_854_316,
            999: 73_020_454,
            1000: 72_983_452,
        }
        for k, greatest in mesopic.items():
            self.assertEqual(light.mesopic(k, *full), greatest)

    def test_the_greatest_x_y_z(self):
        full = 360, 1, [FULL] * 471
        self.assertEqual(light.xyz(2, *full), (72_989_293, 72_983_452, 73_007_585))
        self.assertEqual(light.xyz(10, *full), (79_741_014, 79_750_145, 79_758_419))

    def test_the_greatest_u_and_v_are_those_of_lone_wavelengths(self):
        # Any light is a mixture of these, and its coordinates lie between theirs.
        greatest = {2: (62_337, 58_676), 10: (58_626, 58_567)}
        for observer, (greatest_u, greatest_v) in greatest.items():
            rows = (lone(1, wavelength, start=360, last=830) for wavelength in range(360, 831))
            u, v = zip(*(light.uv(observer, 360, 1, row) for row in rows))
            self.assertEqual((max(u), max(v)), (greatest_u, greatest_v))
            for spectrum in lit_spectra((300, 360, 380)):
                u, v = light.uv(observer, *spectrum)
                self.assertLessEqual(u, greatest_u)
                self.assertLessEqual(v, greatest_v)

    def test_v_is_never_above_60000(self):
        # 9Y over 15Y and more, whatever the tables.
        draw = random.Random(11)
        for _ in range(200):
            sums = [draw.choice((0, 1, draw.randrange(10**30))) for _ in range(3)]
            if any(sums):
                self.assertLessEqual(light.uv_from(*sums)[1], 60_000)

    def test_the_largest_of_all_is_below_2_to_the_32(self):
        largest = max(
            greatest_illuminance(PHOTOPIC, light.V),
            greatest_illuminance(SCOTOPIC, light.V_PRIME),
            greatest_illuminance(PHOTOPIC_10, light.V10),
            *map(greatest_mesopic, range(1001)),
            *(greatest_illuminance(*given) for given in RESEARCH.values()),
            *greatest_xyz(2),
            *greatest_xyz(10),
            *greatest_panel_xyz(2, 1),
            *greatest_panel_xyz(2, 2),
            *greatest_panel_xyz(10, 1),
            *greatest_panel_xyz(10, 2),
        )
        self.assertLess(largest, 2**32)

    def test_mesopic_of_the_full_light_is_never_above_that_at_k_0(self):
        # This is so for the full light; a red one has more at k = 1000.
        full = 360, 1, [FULL] * 471
        for k in range(1001):
            self.assertLessEqual(light.mesopic(k, *full), light.mesopic(0, *full))


def sets_in_order(*faults):
    """Each one of them, each two, and so on to all, every set in the order given."""
    for size in range(1, len(faults) + 1):
        yield from combinations(faults, size)


class Refusals(unittest.TestCase):
    """Each refusal alone, then each with all those that come after it."""

    def test_light_alone(self):
        faulty = lone(TOO_LARGE, 400)
        faulty[-1] = 4_294_967_295
        for name, reading in light_readings().items():
            with self.subTest(name):
                for step in (0, 3, 4, 11, 4_294_967_295):
                    self.assertEqual(reading(380, step, [1] * 401), Refused(1))
                for start, count in ((299, 482), (381, 400), (0, 781), (4_294_967_295, 1)):
                    self.assertEqual(reading(start, 1, [1] * count), Refused(2))
                for start, step, count in ((380, 1, 0), (380, 1, 400), (380, 1, 452), (380, 5, 80)):
                    self.assertEqual(reading(start, step, [1] * count), Refused(3))
                self.assertEqual(reading(300, 1, [1] * 532), Refused(3))
                self.assertEqual(reading(380, 1, faulty), Refused(4, 20))

    def test_light_in_order(self):
        for name, reading in light_readings().items():
            with self.subTest(name):
                faulty = [TOO_LARGE] * 400
                self.assertEqual(reading(299, 3, faulty), Refused(1))
                self.assertEqual(reading(381, 1, [TOO_LARGE]), Refused(2))
                self.assertEqual(reading(380, 1, faulty), Refused(3))
                self.assertEqual(reading(380, 1, [TOO_LARGE] * 401), Refused(4, 0))

    def test_edges_are_not_refused(self):
        for start, step, last in ((300, 1, 830), (300, 10, 780), (380, 10, 780), (380, 1, 830)):
            count = (last - start) // step + 1
            for name, reading in light_readings().items():
                with self.subTest(name, start=start, step=step, last=last):
                    self.assertNotIsInstance(reading(start, step, [FULL] * count), Refused)

    def test_own_settings_come_first(self):
        bad = 299, 3, [TOO_LARGE]
        for k in (1001, 4_294_967_295):
            self.assertEqual(light.mesopic(k, *bad), Refused(5))
        # 32 and 40 have no colour.
        for observer in (0, 1, 3, 32, 40, 4_294_967_295):
            for reading in (light.xyz, light.xy, light.uv, light.chart):
                self.assertEqual(reading(observer, *bad), Refused(6))
                self.assertEqual(reading(observer, 380, 1, [0] * 401), Refused(6))

    def test_research_is_of_32_and_40_alone(self):
        for observer in (0, 1, 2, 3, 10, 31, 33, 39, 41, 4_294_967_295):
            with self.subTest(observer=observer):
                self.assertEqual(light.research(observer, 299, 3, [TOO_LARGE]), Refused(6))
                self.assertEqual(light.research(observer, 380, 1, [0] * 401), Refused(6))

    def test_research_observers_have_no_panels(self):
        readings = (
            light.panel_xyz,
            light.panel_xy,
            light.panel_uv,
            light.panel_chart,
            light.panel_figures,
        )
        for reading, observer, illuminant in product(readings, RESEARCH, (0, 1, 2)):
            with self.subTest(reading.__name__, observer=observer, illuminant=illuminant):
                answer = reading(observer, illuminant, 360, 1, panel(1))
                self.assertEqual(answer, Refused(6))

    def test_a_faulty_sample_comes_before_dark(self):
        # At 300 nm it carries no weight, so the rest is dark.
        samples = lone(TOO_LARGE, 300, start=300)
        for reading in (light.xy, light.uv, light.chart):
            self.assertEqual(reading(2, 300, 1, samples), Refused(4, 0))

    def test_panel_in_order(self):
        faulty = panel(1)
        faulty[5] = 10_001
        faulty[6] = 65_535
        short = faulty[:419]  # the last wavelength is 778
        cases = [
            ((3, 0, 299, 3, short), Refused(6)),
            ((3, 1, 360, 1, panel(1)), Refused(6)),
            ((2, 0, 299, 3, short), Refused(7)),
            ((10, 3, 360, 1, panel(1)), Refused(7)),
            ((2, 1, 299, 3, short), Refused(1)),
            ((2, 1, 360, 3, panel(1)), Refused(1)),
            ((2, 1, 299, 1, short), Refused(2)),
            ((2, 1, 381, 1, panel(1, 381)), Refused(2)),
            ((2, 1, 360, 1, short), Refused(3)),
            ((2, 1, 360, 1, []), Refused(3)),
            ((2, 1, 360, 1, faulty), Refused(8, 5)),
            ((10, 2, 300, 1, [10_001] + [0] * 480), Refused(8, 0)),
        ]
        for given, refused in cases:
            for reading in (light.panel_xyz, light.panel_xy, light.panel_uv, light.panel_chart):
                with self.subTest(reading.__name__, refused=refused):
                    self.assertEqual(reading(*given), refused)

    def faulty(self, faults, too_large):
        """Start, step and row with these of the faults 1, 2, 3, 4 or 8 and 9, and no other."""
        start, step, row = 300, 1, [0 if 9 in faults else 1] * 501
        if 1 in faults:
            step, row = 3, row[::3]  # the last wavelength is still in range
        if 2 in faults:
            start = 299
        if 3 in faults:
            row = row[:100]
        if 4 in faults or 8 in faults:
            row[7] = too_large  # below 360, so a dark row stays dark
        return start, step, row

    def assert_colour_refused(self, faults, given, xy, uv, chart):
        """The first fault is the one that is answered, u' and v' alike with x and y."""
        refused = Refused(faults[0], 7 if faults[0] in (4, 8) else 0)
        with self.subTest(faults=faults):
            self.assertEqual(xy(*given), refused)
            self.assertEqual(uv(*given), refused)
            self.assertEqual(chart(*given), "dark" if refused == Refused(9) else refused)

    def test_any_faults_of_a_light_whose_research_figure_is_asked(self):
        for faults, observer in product(sets_in_order(6, 1, 2, 3, 4), RESEARCH):
            given = 2 if 6 in faults else observer, *self.faulty(faults, TOO_LARGE)
            with self.subTest(faults=faults, observer=observer):
                refused = Refused(faults[0], 7 if faults[0] == 4 else 0)
                self.assertEqual(light.research(*given), refused)

    def test_any_faults_of_a_light_whose_colour_is_asked(self):
        self.assertNotIsInstance(light.uv(2, *self.faulty((), TOO_LARGE)), Refused)
        for faults in sets_in_order(6, 1, 2, 3, 4, 9):
            observer = 3 if 6 in faults else 2
            given = observer, *self.faulty(faults, TOO_LARGE)
            self.assert_colour_refused(faults, given, light.xy, light.uv, light.chart)

    def test_any_faults_of_a_panel_whose_colour_is_asked(self):
        self.assertNotIsInstance(light.panel_uv(2, 1, *self.faulty((), 10_001)), Refused)
        readings = light.panel_xy, light.panel_uv, light.panel_chart
        for faults in sets_in_order(6, 7, 1, 2, 3, 8, 9):
            observer, illuminant = 3 if 6 in faults else 2, 3 if 7 in faults else 1
            given = observer, illuminant, *self.faulty(faults, 10_001)
            self.assert_colour_refused(faults, given, *readings)


def packed(samples, edition=1, code=0, start=380, count=401, reserved=0, padding=0, behind=b""):
    """A record by its fields, written as a string of bits."""
    bits = f"{edition:04b}{code:02b}{start - 300:07b}{count:010b}{reserved:b}"
    bits += "".join(f"{sample:020b}" for sample in samples)
    if len(samples) % 2:
        bits += f"{padding:04b}"
    return int(bits, 2).to_bytes(len(bits) // 8, "big") + behind


class Records(unittest.TestCase):
    def test_the_record_of_the_rules(self):
        record = light.write_record(380, 1, lone(FULL, 460), 1_006)
        self.assertEqual(len(record), 1_006)
        self.assertEqual(record[:3].hex(" "), "12 83 22")
        self.assertEqual(record, packed(lone(FULL, 460)))

    def test_round_trips(self):
        draw = random.Random(4)
        for start, step, count in grids():
            code = (1, 2, 5, 10).index(step)
            samples = [draw.randrange(FULL + 1) for _ in range(count)]
            record = light.write_record(start, step, samples, 1_331)
            self.assertEqual(record, packed(samples, 1, code, start, count))
            self.assertEqual(light.read_record(record, count), (start, step, samples))

    def test_shortest_and_longest(self):
        shortest = light.write_record(380, 10, [FULL] * 41, 106)
        self.assertEqual(len(shortest), 106)
        self.assertEqual(light.read_record(shortest, 41), (380, 10, [FULL] * 41))
        longest = light.write_record(300, 1, [FULL] * 531, 1_331)
        self.assertEqual(len(longest), 1_331)
        self.assertEqual(light.read_record(longest, 531), (300, 1, [FULL] * 531))

    def test_reading_refused_alone(self):
        zeros = [0] * 401
        faulty = lone(TOO_LARGE, 460)
        faulty[-1] = 2**20 - 1
        cases = {
            12: [b"", b"\x12", b"\x12\x83", packed(zeros)[:-1], packed(zeros, behind=b"\0")],
            10: [packed(zeros, edition=edition) for edition in (0, 2, 15)],
            11: [packed(zeros, reserved=1)],
            2: [packed([0] * 400, start=381, count=400), packed([0] * 401, start=427)],
            3: [packed([0] * 400, count=400), packed([0] * 452, count=452), packed([], count=0)],
            13: [packed(zeros, padding=padding) for padding in (1, 2, 4, 8)],
        }
        for number, records in cases.items():
            for record in records:
                with self.subTest(number=number, length=len(record)):
                    self.assertEqual(light.read_record(record, 531), Refused(number))
        self.assertEqual(light.read_record(packed(faulty), 531), Refused(4, 80))
        self.assertEqual(light.read_record(packed(zeros), 400), Refused(14))
        self.assertEqual(light.read_record(packed(zeros), 0), Refused(14))

    def test_reading_in_order(self):
        faulty = lone(TOO_LARGE, 387)
        faults = [
            (10, {"edition": 2}),
            (11, {"reserved": 1}),
            (2, {"start": 381}),
            (3, {"count": 399}),
            (12, {"behind": b"\xff" * 400}),
            (13, {"padding": 15}),
        ]
        for i, (number, _) in enumerate(faults):
            fields = {name: value for _, fault in faults[i:] for name, value in fault.items()}
            with self.subTest(number=number):
                self.assertEqual(light.read_record(packed(faulty, **fields), 0), Refused(number))
        self.assertEqual(light.read_record(packed(faulty), 0), Refused(4, 7))

    def test_reading_where_the_length_is_wrong_too(self):
        self.assertEqual(light.read_record(b"\x22\x83", 531), Refused(12))
        self.assertEqual(light.read_record(packed([], count=0, behind=b"\0"), 531), Refused(3))
        self.assertEqual(light.read_record(packed([], count=401), 531), Refused(12))
        overlong = packed([0] * 401, edition=2, behind=b"\0" * 1_000)
        self.assertEqual(light.read_record(overlong, 531), Refused(10))

    def test_writing_refused_alone(self):
        zeros = [0] * 401
        self.assertEqual(light.write_record(380, 3, zeros, 1_331), Refused(1))
        self.assertEqual(light.write_record(381, 1, [0] * 400, 1_331), Refused(2))
        self.assertEqual(light.write_record(380, 1, [0] * 400, 1_331), Refused(3))
        self.assertEqual(light.write_record(380, 1, lone(TOO_LARGE, 460), 1_331), Refused(4, 80))
        self.assertEqual(light.write_record(380, 1, zeros, 1_005), Refused(14))

    def test_writing_in_order(self):
        faulty = [TOO_LARGE] * 400
        self.assertEqual(light.write_record(299, 3, faulty, 0), Refused(1))
        self.assertEqual(light.write_record(381, 1, [TOO_LARGE], 0), Refused(2))
        self.assertEqual(light.write_record(380, 1, faulty, 0), Refused(3))
        self.assertEqual(light.write_record(380, 1, [TOO_LARGE] * 401, 0), Refused(4, 0))


class Report(unittest.TestCase):
    def test_the_report_of_the_rules(self):
        expected = (
            b"photopic 40980\n"
            b"scotopic 963972\n"
            b"X 198617\n"
            b"Y 40980\n"
            b"Z 1140066\n"
            b"x 0.14396\n"
            b"y 0.02970\n"
        )
        self.assertEqual(light.report(packed(lone(FULL, 460))), expected)

    def test_dark(self):
        expected = b"photopic 0\nscotopic 0\nX 0\nY 0\nZ 0\nx -\ny -\n"
        self.assertEqual(light.report(packed([0] * 401)), expected)

    def test_refused(self):
        self.assertEqual(light.report(b""), b"refused 12\n")
        self.assertEqual(light.report(packed(lone(TOO_LARGE, 460))), b"refused 4 at 80\n")
        self.assertEqual(light.report(packed(lone(TOO_LARGE, 380))), b"refused 4 at 0\n")
        self.assertEqual(light.report(packed([0] * 401, padding=1)), b"refused 13\n")

    def test_input_past_1332_bytes_is_a_wrong_length(self):
        longest = packed([0] * 531, start=300, count=531)
        self.assertEqual(light.report(longest)[:10], b"photopic 0")
        for extra in (1, 2, 10_000):
            self.assertEqual(light.report(longest + b"\0" * extra), b"refused 12\n")


class Many(unittest.TestCase):
    def test_the_research_reading_stands_after_the_mesopic_one(self):
        found = set()
        for i in range(100):
            *_, mesopic, research, xyz = many.line(i).split()[:7]
            self.assertNotEqual(mesopic, "!6@0")
            self.assertNotIn(",", research)
            found.add((research == "!6@0", xyz == "!6@0"))
        # No observer has both, and some have neither.
        self.assertEqual(found, {(False, True), (True, False), (True, True)})


@unittest.skipUnless((tables.DOCUMENTS / tables.CURVES).exists(), "the source documents are not at hand")
class Extraction(unittest.TestCase):
    """tables.py at work on a copy of the documents, some of it changed."""

    def setUp(self):
        copy = tempfile.TemporaryDirectory()
        self.addCleanup(copy.cleanup)
        self.folder = Path(copy.name)
        for pattern in ("00[234]_*.txt", tables.CURVES):
            for document in tables.DOCUMENTS.glob(pattern):
                shutil.copy(document, self.folder)

    def curve_rows(self):
        """The file's rows from 390 on, each with the end of its line."""
        text = (self.folder / tables.CURVES).read_text(encoding="utf-8")
        return text.splitlines(keepends=True)[1:]

    def extracted_with(self, pattern, old, new):
        """What is extracted where `old`, which stands in that document once, is `new`."""
        (path,) = self.folder.glob(pattern)
        text = path.read_text(encoding="utf-8")
        self.assertEqual(text.count(old), 1)
        path.write_text(text.replace(old, new), encoding="utf-8")
        try:
            return tables.extract(self.folder)
        finally:
            path.write_text(text, encoding="utf-8")

    def assert_stops(self, pattern, *changes):
        for old, new in changes:
            with self.subTest(old=old, new=new), self.assertRaises(tables.Unreadable):
                self.extracted_with(pattern, old, new)

    def test_the_documents_give_tables_txt(self):
        tables.check(tables.extract(self.folder))

    def test_every_digit_of_the_curves_is_held(self):
        rows = [[Fraction(cell) for cell in row.split("\t")] for row in self.curve_rows()]
        held = zip(range(360, 831), light.V_F, light.V_F10, strict=True)
        expected = [[w, Fraction(two, 10**13), Fraction(ten, 10**13)] for w, two, ten in held]
        self.assertEqual(rows, expected[390 - 360 :])

    def test_a_digit_that_the_document_doesn_t_have(self):
        self.assert_stops(
            tables.CURVES,
            ("\n390\t0.0004146161000\t", "\n390\t0.0004146162000\t"),
            ("\n390\t0.0004146161000\t", "\n390\t1.0004146161000\t"),
            ("\n460\t0.0851481600000\t", "\n460\t0.0841481600000\t"),
            ("\n503\t0.3941359000000\t", "\n503\t0.3941358000000\t"),
            # The document prints one digit less, which is as good as a 0.
            ("\n503\t0.3941359000000\t", "\n503\t0.3941359000001\t"),
        )

    def test_a_printed_digit_that_the_curve_doesn_t_have(self):
        self.assert_stops(
            "003_*.txt",
            ("390\t0,000 414 616 100\t", "390\t0,000 414 616 200\t"),
            ("427\t0,028 749 930 000\t", "427\t0,028 749 930 001\t"),
            ("428\t0,030 169 090 000\t", "428\t0,031 169 090 000\t"),
            ("466\t0,110 737 700 000", "466\t1,110 737 700 000"),
            ("503\t0,394 135 900 000", "503\t0,394 135 800 000"),
        )

    def test_a_printed_row_that_isn_t_there(self):
        self.assert_stops(
            "003_*.txt",
            ("\t503\t0,394 135 900 000", "\t\t"),
            ("\t503\t0,394 135 900 000", "\t502\t0,378 227 500 000"),
            ("\t503\t0,394 135 900 000", "\t503\t"),
            ("\t503\t0,394 135 900 000", "\t504\t0,410 658 200 000"),
        )

    def test_no_printed_row_goes_unheld(self):
        curve, _ = tables.curves(self.folder)
        lines = tables.document(self.folder, "003")
        printed = tables.luminosity(lines, "Table E.1 —", None, range(390, 504))
        tables.check_curve(printed, curve)
        for wavelength in range(390, 504):
            with self.assertRaisesRegex(tables.Unreadable, f"{wavelength} nm"):
                tables.check_curve(printed, {**curve, wavelength: curve[wavelength] + 1})

    def test_a_row_that_is_missing_doubled_or_out_of_order(self):
        first, *_, row, last = self.curve_rows()
        self.assert_stops(
            tables.CURVES,
            (first, ""),
            (first, first.replace("390", "389") + first),
            (row, ""),
            (row, row + row),
            (row + last, last + row),
            (last, ""),
            (last, last + last),
            (last, last + last.replace("830", "831")),
            ("nm\tV_F\tV_F10\n", ""),
            ("nm\tV_F\tV_F10\n", "nm\tV_F10\tV_F\n"),
        )

    def test_a_row_that_is_no_number(self):
        row = "600\t0.6918553000000\t0.6629035000000\n"
        self.assert_stops(
            tables.CURVES,
            (row, "\n"),
            (row, "6O0\t0.6918553000000\t0.6629035000000\n"),
            (row, "600\t\t0.6629035000000\n"),
            (row, "600\tO.6918553000000\t0.6629035000000\n"),
            (row, "600\t-0.6918553000000\t0.6629035000000\n"),
            (row, "600\t0.6918553000000\tnan\n"),
            (row, "600\t0.6918553000000\t0.662903500000\n"),
            (row, "600\t0.6918553000000\t0.66290350000000\n"),
            (row, "600\t0.6918553000000\n"),
        )

    def test_a_curve_that_isn_t_there(self):
        (self.folder / tables.CURVES).unlink()
        with self.assertRaises(tables.Unreadable):
            tables.extract(self.folder)

    def test_a_digit_that_no_document_has_is_held_by_tables_txt(self):
        for old, new in (
            ("\n504\t0.4106582000000\t", "\n504\t0.4106582000001\t"),
            ("\t0.0004076779000\n", "\t0.0004076779001\n"),
        ):
            text = self.extracted_with(tables.CURVES, old, new)
            with self.assertRaises(tables.Unreadable):
                tables.check(text)


if __name__ == "__main__":
    unittest.main()
