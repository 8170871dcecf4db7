"""Light readings from a sampled spectrum: the independent second implementation.

It follows the rules' words as closely as they can be written down, in exact
whole numbers and fractions, so that another implementation can be held against
it. Every public function answers a value (a whole number, a tuple, bytes) or
`Refused`.

Callers give what the rules' widths allow: settings are 32-bit unsigned,
samples 32-bit unsigned, reflectances 16-bit unsigned.
"""

from dataclasses import dataclass
from fractions import Fraction
from operator import mul
from pathlib import Path

WAVELENGTHS = range(360, 831)
STEPS = (1, 2, 5, 10)

# The refusal numbers, by the rules' names. 15 is not used: it stood for a
# reading past 32 bits, and none can be that great.
(
    STEP,
    START,
    COUNT,
    SAMPLE,
    MESOPIC,
    OBSERVER,
    ILLUMINANT,
    REFLECTANCE,
    DARK,
    EDITION,
    RESERVED,
    LENGTH,
    PADDING,
    ROOM,
) = range(1, 15)

LARGEST_SAMPLE = 1_000_000
LARGEST_REFLECTANCE = 10_000
LARGEST_K = 1000
LARGEST_COUNT = 531
LONGEST_INPUT = 1_332

# Weights are held at this to one.
ONE = 10**13

# With samples in millionths that is 10^19 in all, of which a reading in
# thousandths takes 10^3 back.
SCALE = 10**16


@dataclass(frozen=True)
class Refused:
    """A refusal: its number and, for 4 and 8, the place of the first faulty sample."""

    number: int
    place: int = 0


def load_tables():
    """The columns of tables.txt, each a list over 360 to 830 nm."""
    lines = Path(__file__).with_name("tables.txt").read_text(encoding="utf-8").splitlines()
    rows = [[int(cell) for cell in line.split()] for line in lines if not line.startswith("#")]
    wavelengths, *columns = (list(column) for column in zip(*rows, strict=True))
    if wavelengths != list(WAVELENGTHS):
        raise ValueError("tables.txt doesn't run from 360 to 830")
    return columns


X, Y, Z, X10, Y10, Z10, V_PRIME, A, D65, V_F, V_F10 = load_tables()
V, V10 = Y, Y10


# The place of 540 THz in air, 555.017 nm, is the reference: light there has
# 683 lumens to the watt under every curve, which settles how many the curve's
# peak has.


def table_value(weights, wavelength):
    """A curve's value at a whole nanometre."""
    return Fraction(weights[wavelength - 360], ONE)


def reference_value(weights):
    """A curve's value at 555.017 nm, by straight line between 555 and 556."""
    return (983 * table_value(weights, 555) + 17 * table_value(weights, 556)) / 1000


def efficacy_of_one(weights):
    """The efficacy where the curve's value is one: 683 over the value at 555.017 nm."""
    return 683 / reference_value(weights)


def efficacy_at(peak, weights):
    """The efficacy at the curve's peak: 683 times the table value there, over the value at 555.017 nm."""
    return table_value(weights, peak) * efficacy_of_one(weights)


# Made once, since every reading takes one of them.
PHOTOPIC_EFFICACY = efficacy_at(555, V)
SCOTOPIC_EFFICACY = efficacy_at(507, V_PRIME)
PHOTOPIC_10_EFFICACY = efficacy_at(557, V10)
V_REFERENCE = reference_value(V)
V_PRIME_REFERENCE = reference_value(V_PRIME)

# Each observer's efficacy, one for all three functions, and the functions.
OBSERVERS = {
    2: (PHOTOPIC_EFFICACY, (X, Y, Z)),
    10: (PHOTOPIC_10_EFFICACY, (X10, Y10, Z10)),
}
# The observers of the cone-fundamental curves, 2° and 10°. These have a curve
# each and no colour, and their efficacy is not one at a peak.
RESEARCH_OBSERVERS = {
    32: (efficacy_of_one(V_F), V_F),
    40: (efficacy_of_one(V_F10), V_F10),
}
ILLUMINANTS = {1: A, 2: D65}


# What is refused. Each of these answers a refusal or None.


def refuse_grid(start, step, count):
    if step not in STEPS:
        return Refused(STEP)
    if start < 300 or start > 380:
        return Refused(START)
    if count == 0 or not 780 <= start + step * (count - 1) <= 830:
        return Refused(COUNT)
    return None


def refuse_samples(samples, largest, number):
    for place, sample in enumerate(samples):
        if sample > largest:
            return Refused(number, place)
    return None


def refuse_light(start, step, samples):
    return refuse_grid(start, step, len(samples)) or refuse_samples(
        samples, LARGEST_SAMPLE, SAMPLE
    )


def refuse_panel(observer, illuminant, start, step, reflectances):
    if observer not in OBSERVERS:
        return Refused(OBSERVER)
    if illuminant not in ILLUMINANTS:
        return Refused(ILLUMINANT)
    return refuse_grid(start, step, len(reflectances)) or refuse_samples(
        reflectances, LARGEST_REFLECTANCE, REFLECTANCE
    )


# The rules' sums and their rounding.


def nearest(numerator, denominator):
    """The nearest whole number, halves up; either part may be a fraction."""
    return (2 * numerator + denominator) // (2 * denominator)


def t_at(w, start, step, samples):
    """T at w nanometres, 360 to 830: the step times the spectrum.

    Outside the measured range, the first sample is carried down to 360 and the
    last one up to 830.
    """
    if w < start:
        return step * samples[0]
    if w > start + step * (len(samples) - 1):
        return step * samples[-1]
    i, d = divmod(w - start, step)
    if d == 0:
        return step * samples[i]
    return (step - d) * samples[i] + d * samples[i + 1]


def t_row(start, step, samples):
    """T at each whole nanometre from 360 to 830."""
    return [t_at(w, start, step, samples) for w in WAVELENGTHS]


def weigh(weights, row):
    """W: the sum over 360 to 830 of weight times row."""
    return sum(map(mul, weights, row))


def light_sums(observer, start, step, samples):
    """W of the observer's three functions."""
    row = t_row(start, step, samples)
    return [weigh(weights, row) for weights in OBSERVERS[observer][1]]


def panel_sums(observer, illuminant, start, step, reflectances):
    """The panel's exact X, Y and Z sums."""
    lit = list(map(mul, ILLUMINANTS[illuminant], t_row(start, step, reflectances)))
    return [weigh(weights, lit) for weights in OBSERVERS[observer][1]]


def coordinates(parts, divisor):
    """Each part over the divisor in hundred-thousandths, or refused 9."""
    if divisor == 0:
        return Refused(DARK)
    return tuple(nearest(100_000 * part, divisor) for part in parts)


def xy_from(x_sum, y_sum, z_sum):
    """x and y from three exact sums."""
    return coordinates((x_sum, y_sum), x_sum + y_sum + z_sum)


def uv_from(x_sum, y_sum, z_sum):
    """u' and v' from three exact sums. No sum is below 0, so this is dark where x and y are."""
    return coordinates((4 * x_sum, 9 * y_sum), x_sum + 15 * y_sum + 3 * z_sum)


def charted(xy_answer, uv_answer):
    """The chart answer: "dark" takes the place of refusal 9. Both pairs are refused alike."""
    if xy_answer == Refused(DARK):
        return "dark"
    if isinstance(xy_answer, Refused):
        return xy_answer
    return tuple(float(each) / 100000.0 for each in (*xy_answer, *uv_answer))


# The readings of a light.


def illuminance(efficacy, weights, start, step, samples):
    if refused := refuse_light(start, step, samples):
        return refused
    row = t_row(start, step, samples)
    return nearest(efficacy * weigh(weights, row), step * SCALE)


def photopic(start, step, samples):
    """Photopic illuminance in millilux."""
    return illuminance(PHOTOPIC_EFFICACY, V, start, step, samples)


def scotopic(start, step, samples):
    """Scotopic illuminance in millilux."""
    return illuminance(SCOTOPIC_EFFICACY, V_PRIME, start, step, samples)


def photopic_10(start, step, samples):
    """10° photopic illuminance in millilux."""
    return illuminance(PHOTOPIC_10_EFFICACY, V10, start, step, samples)


def mesopic(k, start, step, samples):
    """Mesopic illuminance in millilux at k thousandths."""
    if k > LARGEST_K:
        return Refused(MESOPIC)
    if refused := refuse_light(start, step, samples):
        return refused
    row = t_row(start, step, samples)
    mixed = k * weigh(V, row) + (1000 - k) * weigh(V_PRIME, row)
    bracket = 1000 * (k * V_REFERENCE + (1000 - k) * V_PRIME_REFERENCE)
    return nearest(683_000 * mixed, step * SCALE * bracket)


def research(observer, start, step, samples):
    """Illuminance in millilux under a cone-fundamental curve."""
    if observer not in RESEARCH_OBSERVERS:
        return Refused(OBSERVER)
    return illuminance(*RESEARCH_OBSERVERS[observer], start, step, samples)


def xyz(observer, start, step, samples):
    """X, Y, Z in millilux."""
    if observer not in OBSERVERS:
        return Refused(OBSERVER)
    if refused := refuse_light(start, step, samples):
        return refused
    efficacy = OBSERVERS[observer][0]
    sums = light_sums(observer, start, step, samples)
    return tuple(nearest(efficacy * each, step * SCALE) for each in sums)


def light_colour(pair_from, observer, start, step, samples):
    """The pair that `pair_from` makes of the light's three sums."""
    if observer not in OBSERVERS:
        return Refused(OBSERVER)
    if refused := refuse_light(start, step, samples):
        return refused
    return pair_from(*light_sums(observer, start, step, samples))


def xy(observer, start, step, samples):
    """x and y in hundred-thousandths."""
    return light_colour(xy_from, observer, start, step, samples)


def uv(observer, start, step, samples):
    """u' and v' in hundred-thousandths."""
    return light_colour(uv_from, observer, start, step, samples)


def chart(observer, start, step, samples):
    """x, y, u' and v' as four floats, or "dark"."""
    given = observer, start, step, samples
    return charted(xy(*given), uv(*given))


def figures(start, step, samples):
    """Photopic, scotopic, X, Y, Z and, last, (x, y) or "dark", all for observer 2."""
    if refused := refuse_light(start, step, samples):
        return refused
    readings = photopic(start, step, samples), scotopic(start, step, samples)
    tristimulus = xyz(2, start, step, samples)
    colour = xy(2, start, step, samples)
    return *readings, *tristimulus, "dark" if colour == Refused(DARK) else colour


# The readings of a panel.


def panel_xyz(observer, illuminant, start, step, reflectances):
    """X, Y, Z of a panel in thousandths."""
    if refused := refuse_panel(observer, illuminant, start, step, reflectances):
        return refused
    _, (_, y_weights, _) = OBSERVERS[observer]
    # The white runs over 360 to 830 whatever the panel's own range.
    white = weigh(y_weights, ILLUMINANTS[illuminant])
    sums = panel_sums(observer, illuminant, start, step, reflectances)
    return tuple(nearest(10 * each, step * white) for each in sums)


def panel_colour(pair_from, observer, illuminant, start, step, reflectances):
    """The pair that `pair_from` makes of the panel's three sums."""
    if refused := refuse_panel(observer, illuminant, start, step, reflectances):
        return refused
    return pair_from(*panel_sums(observer, illuminant, start, step, reflectances))


def panel_xy(observer, illuminant, start, step, reflectances):
    """x and y of a panel in hundred-thousandths."""
    return panel_colour(xy_from, observer, illuminant, start, step, reflectances)


def panel_uv(observer, illuminant, start, step, reflectances):
    """u' and v' of a panel in hundred-thousandths."""
    return panel_colour(uv_from, observer, illuminant, start, step, reflectances)


def panel_chart(observer, illuminant, start, step, reflectances):
    """x, y, u' and v' of a panel as four floats, or "dark"."""
    given = observer, illuminant, start, step, reflectances
    return charted(panel_xy(*given), panel_uv(*given))


def panel_figures(observer, illuminant, start, step, reflectances):
    """X, Y, Z and, last, (x, y) or "dark", of a panel."""
    tristimulus = panel_xyz(observer, illuminant, start, step, reflectances)
    if isinstance(tristimulus, Refused):
        return tristimulus
    colour = panel_xy(observer, illuminant, start, step, reflectances)
    return *tristimulus, "dark" if colour == Refused(DARK) else colour


# The packed record.


def record_length(count):
    """3 + 5n/2 bytes, rounded up."""
    return 3 + (5 * count + 1) // 2


def read_record(record, room):
    """(start, step, samples) of a record; `room` is how many samples the caller's row holds."""
    if len(record) < 3:
        return Refused(LENGTH)
    header = int.from_bytes(record[:3], "big")
    edition = header >> 20
    step = STEPS[header >> 18 & 0b11]
    start = 300 + (header >> 11 & 0b111_1111)
    count = header >> 1 & 0b11_1111_1111
    if edition != 1:
        return Refused(EDITION)
    if header & 1:
        return Refused(RESERVED)
    if refused := refuse_grid(start, step, count):
        return refused
    if len(record) != record_length(count):
        return Refused(LENGTH)
    body = int.from_bytes(record[3:], "big")
    if count % 2:
        body, padding = divmod(body, 2**4)
        if padding:
            return Refused(PADDING)
    samples = [body >> 20 * place & 0xFFFFF for place in reversed(range(count))]
    if refused := refuse_samples(samples, LARGEST_SAMPLE, SAMPLE):
        return refused
    if room < count:
        return Refused(ROOM)
    return start, step, samples


def write_record(start, step, samples, room):
    """The record's bytes; `room` is how many bytes the caller's buffer holds."""
    if refused := refuse_light(start, step, samples):
        return refused
    count = len(samples)
    if room < record_length(count):
        return Refused(ROOM)
    bits = 1  # the edition
    bits = bits << 2 | STEPS.index(step)
    bits = bits << 7 | start - 300
    bits = bits << 10 | count
    bits = bits << 1  # the reserved bit
    for sample in samples:
        bits = bits << 20 | sample
    if count % 2:
        bits = bits << 4  # the padding
    return bits.to_bytes(record_length(count), "big")


# The report program.


def report(given):
    """The report's whole output for the bytes on standard input."""
    answer = read_record(given[:LONGEST_INPUT], LARGEST_COUNT)
    if not isinstance(answer, Refused):
        answer = figures(*answer)
    if isinstance(answer, Refused):
        place = f" at {answer.place}" if answer.number == SAMPLE else ""
        return f"refused {answer.number}{place}\n".encode()
    *readings, colour = answer
    names = ("photopic", "scotopic", "X", "Y", "Z")
    lines = [f"{name} {reading}\n" for name, reading in zip(names, readings, strict=True)]
    for i, name in enumerate("xy"):
        lines.append(f"{name} {'-' if colour == 'dark' else decimal(colour[i])}\n")
    return "".join(lines).encode()


def decimal(hundred_thousandths):
    """A coordinate with five decimals."""
    return f"{hundred_thousandths // 100_000}.{hundred_thousandths % 100_000:05}"
