"""Times photopic of 401 samples from Python, by what the samples are given in."""

from array import array
from timeit import repeat

import quailribbon

TARGET = "5.0"
CALLS = 200
ROUNDS = 200


def microseconds(samples):
    """For one call: the fastest of many short rounds, since whatever else the machine does only adds."""
    rounds = repeat(lambda: quailribbon.photopic(380, 1, samples), number=CALLS, repeat=ROUNDS)
    return min(rounds) / CALLS * 1_000_000


def rows():
    """The rows by name, each with its target, where there is one."""
    samples = [37 * place**2 % 1_000_001 for place in range(401)]
    yield "list", samples, "-"
    yield "tuple", tuple(samples), "-"
    yield "array.array('I')", array("I", samples), TARGET
    try:
        import numpy
    except ImportError:
        print("numpy is missing, so its arrays are not timed")
        return
    yield "numpy uint32", numpy.array(samples, numpy.uint32), TARGET
    yield "numpy int64", numpy.array(samples, numpy.int64), "-"


print(f"photopic of 401 samples from Python; µs for one, best of {ROUNDS} rounds of {CALLS}\n")
print(f"{'samples in':18}{'µs':>8}{'target':>8}")
for name, samples, target in rows():
    print(f"{name:18}{microseconds(samples):8.1f}{target:>8}")
