"""Strings of lamps: random ones, and what is wrong with an implementation's readings of one.

A string is 1 to 64 accepted spectra on one grid whose samples, summed place by place, stay within
the limit. These sums are the samples of its mixture.

What is found wrong rests on the readings' own answers and on which rows are dark by the rules,
never on how a reading is worked. So any implementation can be held against it.
"""

from collections.abc import Callable
from dataclasses import dataclass, fields
from functools import partial
from heapq import nsmallest
from itertools import pairwise

import light
from light import DARK, LARGEST_SAMPLE, STEPS, Refused

# The greatest sample that 64 equal lamps may have.
LARGEST_OF_64 = LARGEST_SAMPLE // 64


# An implementation.


@dataclass(frozen=True)
class Readings:
    """An implementation's readings of a light.

    Each takes its own settings, then start, step and a tuple of samples, and answers a whole
    number, a tuple of them or `light.Refused`, as light.py's do.
    """

    photopic: Callable
    scotopic: Callable
    photopic_10: Callable
    mesopic: Callable
    research: Callable
    xyz: Callable
    xy: Callable
    uv: Callable


def readings_of(module, adapted):
    """The readings that a module has under the same names, each adapted."""
    names = [field.name for field in fields(Readings)]
    return Readings(**{name: adapted(getattr(module, name)) for name in names})


def returning(refusal, reading):
    """A reading of a list that raises its refusals, as one of a tuple that returns them."""

    def answer(*given):
        *settings, samples = given
        try:
            return reading(*settings, list(samples))
        except refusal as refused:
            return Refused(refused.number, refused.place)

    return answer


def amounts(readings, ks):
    """Each illuminance and X, Y, Z: the names of what is answered, and the reading of a spectrum.

    `ks` are the mesopic settings.
    """
    yield ("photopic",), readings.photopic
    yield ("scotopic",), readings.scotopic
    yield ("10° photopic",), readings.photopic_10
    for k in ks:
        yield (f"mesopic at {k}",), partial(readings.mesopic, k)
    for observer in light.RESEARCH_OBSERVERS:
        yield (f"research {observer}",), partial(readings.research, observer)
    for observer in light.OBSERVERS:
        yield tuple(f"{name} {observer}" for name in "XYZ"), partial(readings.xyz, observer)


def colours(readings):
    """x, y and u', v', likewise."""
    for observer in light.OBSERVERS:
        yield (f"x {observer}", f"y {observer}"), partial(readings.xy, observer)
        yield (f"u' {observer}", f"v' {observer}"), partial(readings.uv, observer)


# What is wrong. Answers stand in the order of the lamps, and the mixture's is the last.


def mixture_of(rows):
    """The samples summed place by place."""
    return tuple(map(sum, zip(*rows, strict=True)))


def unfelt(start, step):
    """How many samples stand so low that the line from 360 on doesn't feel them."""
    return max((360 - start) // step, 0)


def is_dark(start, step, row):
    """Whether the spectrum is 0 from 360 to 830, both ends carried."""
    return not any(row[unfelt(start, step) :])


def refusal_faults(names, answers, due):
    """Where an answer isn't refused as is due, which is None where it is due to be given."""
    found = []
    for place, (answer, refusal) in enumerate(zip(answers, due, strict=True)):
        if (answer if isinstance(answer, Refused) else None) != refusal:
            lamp = "the mixture" if place == len(answers) - 1 else f"lamp {place}"
            wanted = "a value" if refusal is None else refusal
            found.append(f"{', '.join(names)} of {lamp}: {answer}, where {wanted} is due")
    return found


def by_name(names, answer):
    """What is answered, a number or a tuple of them, each beside its name."""
    numbers = answer if isinstance(answer, tuple) else (answer,)
    return dict(zip(names, numbers, strict=True))


def differences(names, answers):
    """By name, how far the mixture's amount lies above the sum of the lamps'."""
    *lamps, mixture = (by_name(names, answer) for answer in answers)
    return {name: mixture[name] - sum(lamp[name] for lamp in lamps) for name in names}


def amount_faults(names, answers):
    """Where the mixture's amount and the sum of the lamps' are too far apart."""
    lamps = len(answers) - 1
    return [
        f"{name} of the mixture is {difference} above the sum of {lamps} readings"
        for name, difference in differences(names, answers).items()
        if abs(difference) > lamps // 2
    ]


def coordinate_faults(names, answers):
    """Where the mixture's coordinate lies outside those of the lamps that aren't dark."""
    *lamps, mixture = answers
    lit = [each for each in lamps if each != Refused(DARK)]
    if not lit:
        return []
    return [
        f"{name} of the mixture is {mixed}, outside {min(ends)} to {max(ends)}"
        for name, mixed, ends in zip(names, mixture, zip(*lit, strict=True), strict=True)
        if not min(ends) <= mixed <= max(ends)
    ]


def faults(readings, ks, start, step, rows):
    """What is wrong with the readings of the string, a sentence each; `ks` are mesopic settings."""
    spectra = [*rows, mixture_of(rows)]
    dark = [Refused(DARK) if is_dark(start, step, row) else None for row in spectra]
    given = [None] * len(spectra)
    found = []
    for names, reading in amounts(readings, ks):
        answers = [reading(start, step, row) for row in spectra]
        found += refusal_faults(names, answers, given) or amount_faults(names, answers)
    for names, reading in colours(readings):
        answers = [reading(start, step, row) for row in spectra]
        found += refusal_faults(names, answers, dark) or coordinate_faults(names, answers)
    return found


# Random strings. Each kind takes the generator of draws, the grid as start, step and count, and
# the number of lamps, and gives as many rows.


def draw_grid(draw):
    """Start, step and count; the ends of what is accepted come often."""
    step = draw.choice(STEPS)
    start = draw.choice((300, 380, draw.randint(300, 380)))
    fewest, most = (779 - start) // step + 2, (830 - start) // step + 1
    return start, step, draw.choice((fewest, most, draw.randint(fewest, most)))


def lone(count, place, sample):
    """A row that is 0 but for one sample."""
    row = [0] * count
    row[place] = sample
    return row


def shares(draw, lamps):
    """The limit in as many parts as there are lamps, some great and some small."""
    cuts = sorted(draw.choices(range(LARGEST_SAMPLE + 1), k=lamps - 1))
    return [high - low for low, high in pairwise((0, *cuts, LARGEST_SAMPLE))]


def bright(draw, start, step, count, lamps):
    """Light at every place, and at some or at all as much as the limit allows."""
    full = draw.sample(range(count), draw.choice((1, 5, count)))
    rows = []
    for share in shares(draw, lamps):
        row = draw.choices(range(share + 1), k=count)
        for place in full:
            row[place] = share
        rows.append(row)
    return rows


def dim(draw, start, step, count, lamps):
    """No sample is above 1."""
    return [draw.choices((0, 1), (9, 1), k=count) for _ in range(lamps)]


def lit_at_one_place(draw, start, step, count, lamps):
    """The purest colours there are, and dark lamps where the place is below 360."""
    largest = LARGEST_SAMPLE // lamps
    rows = []
    for _ in range(lamps):
        place = draw.choice((0, unfelt(start, step), count - 1, *draw.sample(range(count), 4)))
        rows.append(lone(count, place, draw.choice((1, largest, draw.randint(1, largest)))))
    return rows


def equal(draw, start, step, count, lamps):
    largest = LARGEST_SAMPLE // lamps
    row = draw.choices(range(largest + 1), k=count)
    row[draw.randrange(count)] = largest
    return [row] * lamps


def nearly_equal(draw, start, step, count, lamps):
    """Two colours so close together that the mixture's has hardly any room between them."""
    largest = LARGEST_SAMPLE // lamps
    row = draw.choices(range(largest * 9 // 10), k=count)
    # A coordinate feels this as some hundred-thousandths. It is no tenth of the largest.
    little = sum(row) // 20_000
    one, other = list(row), list(row)
    for each in (one, other):
        each[draw.randrange(count)] += draw.randint(0, little)
    return [one, *(draw.choice((one, other)) for _ in range(lamps - 2)), other][:lamps]


def near_halves(draw, start, step, count, lamps):
    """Lamps with one amount that ends just above a half in all, or just below, so errors add up."""
    curves = [(light.SCOTOPIC_EFFICACY, light.V_PRIME), *light.RESEARCH_OBSERVERS.values()]
    for efficacy, functions in light.OBSERVERS.values():
        curves += [(efficacy, weights) for weights in functions]
    efficacy, weights = draw.choice(curves)
    # All of the curves have weight here.
    place = (draw.randint(420, 500) - start) // step
    row = light.t_row(start, step, lone(count, place, 1))
    of_1 = efficacy * light.weigh(weights, row) / (step * light.SCALE)
    side = draw.choice((1, -1))

    def above_a_half(sample):
        """How far above, up to the next half, in halves of the divisor's parts."""
        return (2 * of_1.numerator * sample + of_1.denominator) % (2 * of_1.denominator)

    samples = range(1, LARGEST_OF_64 + 1)
    nearest = nsmallest(lamps, samples, key=lambda sample: side * above_a_half(sample))
    return [lone(count, place, sample) for sample in nearest]


def dark_lamp(draw, start, step, count, largest):
    """Zeros, or light only where the line from 360 on doesn't feel it."""
    below = unfelt(start, step)
    return [draw.choice((0, 1, largest))] * below + [0] * (count - below)


def lit_lamp(draw, start, step, count, largest):
    """One place at least is lit that isn't below 360, or is and still pulls on the line there."""
    row = draw.choices(range(draw.choice((0, 1, largest)) + 1), k=count)
    lowest = unfelt(start, step)
    row[draw.choice((lowest, draw.randrange(lowest, count)))] = draw.choice((1, largest))
    return row


def some_dark(draw, start, step, count, lamps):
    given = start, step, count, LARGEST_SAMPLE // lamps
    return [draw.choice((dark_lamp, lit_lamp))(draw, *given) for _ in range(lamps)]


def all_dark(draw, start, step, count, lamps):
    given = start, step, count, LARGEST_SAMPLE // lamps
    return [dark_lamp(draw, *given) for _ in range(lamps)]


def one_lit(draw, start, step, count, lamps):
    rows = all_dark(draw, start, step, count, lamps)
    given = start, step, count, LARGEST_SAMPLE // lamps
    rows[draw.randrange(lamps)] = lit_lamp(draw, *given)
    return rows


KINDS = (
    bright,
    dim,
    lit_at_one_place,
    equal,
    nearly_equal,
    near_halves,
    some_dark,
    one_lit,
    all_dark,
)


def draw_string(draw, kind, lamps):
    """Start, step and rows."""
    start, step, count = draw_grid(draw)
    return start, step, [tuple(row) for row in kind(draw, start, step, count, lamps)]


def draw_strings(draw):
    """A string of each kind for 1, 2, 3, a number between, and 63 or 64 lamps, after its kind."""
    for kind in KINDS:
        for lamps in (1, 2, 3, draw.randint(4, 62), draw.choice((63, 64))):
            yield kind, draw_string(draw, kind, lamps)
