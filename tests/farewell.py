"""Handing on a leaver's weight in fractions, written from the scope's rules V alone: it knows nothing of the library's code, nor of grains.

A weight is a pattern outside and a Fraction inside. A refusal is raised.
"""
import struct
from fractions import Fraction

import exact
from exact import ONE, SIGN, Refused

STEP = Fraction(1, 2**30)


def value(pattern):
    return Fraction(struct.unpack("<d", struct.pack("<Q", pattern))[0])


def pattern(weight):
    """Of a weight: every one is a double."""
    found = struct.unpack("<Q", struct.pack("<d", float(weight)))[0]
    assert value(found) == weight
    return found


def is_weight(p):
    return p != SIGN and 0 <= value(p) <= 1 and (value(p) / STEP).denominator == 1


def shared(weights, leaver):
    """The new weights: each share rounded down to a whole step, then what is left over, a step each, from the lowest place up."""
    w = weights[leaver]
    new = [Fraction(0) if i == leaver else v + w * v / (1 - w) // STEP * STEP for i, v in enumerate(weights)]
    left = 1 - sum(new)
    for i, v in enumerate(weights):
        if left and i != leaver and v > 0:
            new[i] += STEP
            left -= STEP
    assert not left
    return new


def hand_on(patterns, leaver, room):
    """The new list's patterns, for an area of so many."""
    if len(patterns) > exact.LENGTH:
        raise Refused(1, 0)
    if room != len(patterns):
        raise Refused(4, 0)
    exact.judge(patterns)
    for place, p in enumerate(patterns):
        if not is_weight(p):
            raise Refused(14, place)
    weights = [value(p) for p in patterns]
    if sum(weights) != 1:
        raise Refused(15, 0)
    if leaver >= len(weights):
        raise Refused(16, 0)
    if not any(v > 0 for i, v in enumerate(weights) if i != leaver):
        raise Refused(17, 0)
    return [pattern(v) for v in shared(weights, leaver)]


def whole(patterns):
    """Whether they are a weight list."""
    return all(map(is_weight, patterns)) and exact.nearest_sum(patterns) == ONE and sum(map(value, patterns)) == 1
