"""Products of pairs and weighted sums in fractions, written from the scope's rules M alone: it knows nothing of the library's code, nor of halves and splits.

A number is a pattern outside and a Fraction inside. A refusal is raised.
"""
import exact
from exact import INFINITY, SIGN, Refused
from farewell import value

PAIRS = 2047
LEAST, MOST = 0x26F << 52, 0x58F << 52  # the patterns of 2^-400 and 2^400
UNIT = 2**1074  # units in 1


def nearest(number):
    """The pattern of the double nearest to a fraction that is a whole number of units, +0 of none."""
    assert (number * UNIT).denominator == 1
    return exact.nearest(int(number * UNIT))


def fault(p, q):
    """Rules R2 and R23, of one pair."""
    if p % SIGN >= INFINITY or q % SIGN >= INFINITY:
        return 2
    return 0 if all(m == 0 or LEAST <= m <= MOST for m in (p % SIGN, q % SIGN)) else 23


def judge(one, other, fits=True):
    """Rule O12."""
    if max(len(one), len(other)) > PAIRS:
        raise Refused(1, 0)
    if len(one) != len(other):
        raise Refused(22, 0)
    if not fits:
        raise Refused(4, 0)
    for place, pair in enumerate(zip(one, other)):
        if fault(*pair):
            raise Refused(fault(*pair), place)


def two(p, q):
    """The patterns of a pair's product and its error, which add up to the exact product."""
    product = value(p) * value(q)
    first = nearest(product)
    second = nearest(product - value(first))
    assert value(first) + value(second) == product and SIGN not in (first, second)
    return [first, second]


def products(one, other, room):
    """The list of both numbers of each pair, for an area of so many."""
    judge(one, other, room == 2 * len(one))
    return [number for pair in zip(one, other) for number in two(*pair)]


def total(one, other):
    """The exact sum of the products."""
    return sum(value(p) * value(q) for p, q in zip(one, other))


def nearest_sum(one, other, fits=True):
    judge(one, other, fits)
    return nearest(total(one, other))
