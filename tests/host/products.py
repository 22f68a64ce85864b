"""Requests on pairs: factors at which a likely mistake shows, orders of refusals, and lists of products that every other call takes."""
import itertools

import exact
import weighted
from calls import SIZE, entered, multiplied, packed, weighed
from exact import INFINITY, LENGTH, NAN, ONE, SIGN
from sequences import ADD, ORDERS, list_requests, register_of, run_requests, turn
from weighted import LEAST, MOST, PAIRS

ONES = (1 << 52) - 1  # the digits of a significand of all ones
BELOW, ABOVE = LEAST - 1, MOST + 1
# factors at the ends, and such as products of are exact, tie or err by a last place
ENDS = [0, LEAST, LEAST + 1, LEAST + ONES, MOST, MOST - 1, MOST - ONES, ONE, ONE + 1, ONE + 3, ONE - 1, ONE + ONES, 0x3FE << 52, 0x3FF8 << 48, 0x3FF8000000000001]
ENDS += [0x3FEFFFFFFF800000, 0x41A0000002000000, 0x41A0000001FFFFFF, 0x4190000000000001, 0x3FF0000004000000, 0x3FF0000008000001]
SIGNED = [sign | p for p in ENDS for sign in (0, SIGN)]
# numbers that no pair may have: 2 or 23
BAD = [NAN, INFINITY, SIGN | INFINITY, BELOW, SIGN | BELOW, ABOVE, SIGN | ABOVE, 1, SIGN | 1, (1 << 52) - 1, exact.MAGNITUDE, exact.MAGNITUDE + 1]


def both(chance, one, other):
    """The products of two lists, and their nearest weighted sum."""
    yield multiplied(packed(one), packed(other), chance.randbytes(2 * SIZE * len(one)))
    yield weighed(packed(one), packed(other), chance.randbytes(SIZE))


# ---- in every run
def pair_ends(chance):
    """Each of the ends with each, squares among them."""
    one, other = zip(*itertools.product(SIGNED, repeat=2))
    errors = [exact.units(weighted.two(p, q)[1]) for p, q in zip(one, other)]
    assert min(errors) < 0 < max(errors) and 0 in errors, "the ends have errors of either sign, and products that are exact"
    for k in range(0, len(one), 64):
        yield from both(chance, list(one[k : k + 64]), list(other[k : k + 64]))
    for pair in zip(one, other):
        yield weighed(packed(pair[:1]), packed(pair[1:]), chance.randbytes(SIZE))


def squares(chance):
    """One list in both places."""
    for numbers in (SIGNED, [ONE + ONES] * 65, [NAN], [*ENDS, BELOW], [], [0] * (PAIRS + 1)):
        aside = chance.randbytes(SIZE * len(numbers))
        yield multiplied(packed(numbers), aside, chance.randbytes(2 * SIZE * len(numbers)), squares=True)
        yield weighed(packed(numbers), aside, chance.randbytes(SIZE), squares=True)


def pair_lengths(chance):
    """1 of either list, else 22, else 4, else the first bad pair: each where the later ones hold too."""
    lengths = [0, 1, 2, 63, 64, 65, PAIRS - 1, PAIRS, PAIRS + 1, LENGTH, LENGTH + 1]
    for n, m in itertools.product(lengths, repeat=2):
        if n == m or n < 3 or m < 3 or PAIRS in (n, m):
            for faulty in (False, True):
                one, other = packed(([BELOW] if faulty and n else []) + [ONE] * n)[: SIZE * n], packed([NAN if faulty else ONE] * m)
                for room in {2 * n, 0, n, 2 * n + 1, max(2 * n - 1, 0), n + m} if n < 65 or n > PAIRS else {2 * n, n}:
                    yield multiplied(one, other, chance.randbytes(SIZE * room))
                for k in (1, 0, 2):
                    yield weighed(one, other, chance.randbytes(SIZE * k))


def pair_refusals(chance):
    """2 and 23 at either side of a pair and at two places, beside good numbers and zeros."""
    for p, q in itertools.product([*BAD, 0, SIGN, ONE, LEAST, MOST], repeat=2):
        yield from both(chance, [p], [q])
        yield from both(chance, [ONE, p, ONE], [ONE, ONE, q])
        yield from both(chance, [ONE, ONE, q], [0, p, ONE])
    for fault in BAD:
        yield from both(chance, [ONE] * (PAIRS - 1) + [fault], [0] * PAIRS)
        yield from both(chance, [0] * PAIRS, [ONE] * (PAIRS - 1) + [fault])


def scale(chance, n):
    """Weights from 0 to 1 and offsets of clocks, some microseconds."""
    weights = [exact.nearest(chance.randrange(2**30) << 1044) for _ in range(n)]
    return weights, [exact.nearest(chance.randrange(-(2**70), 2**70) << 987) for _ in range(n)]


def longest(chance):
    """As many pairs as there may be."""
    yield from both(chance, *scale(chance, PAIRS))
    yield from both(chance, [MOST - 1] * PAIRS, [MOST - 1] * PAIRS)
    yield from both(chance, [LEAST + 1] * PAIRS, [SIGN | LEAST + 1] * PAIRS)
    yield from both(chance, [0x8000000000000000] * PAIRS, [ONE] * PAIRS)


# ---- at random
def factor(chance):
    """Of any allowed magnitude, or near one; digits at random, few, or all ones."""
    field = chance.choice([chance.randint(0x26F, 0x58E), chance.randint(0x3E0, 0x41F), 0x3FF])
    digits = chance.choice([chance.getrandbits(52), ONES, 0, chance.getrandbits(26) << 26, ONES ^ chance.getrandbits(4), chance.getrandbits(3), 1 << chance.randrange(52)])
    return chance.choice([0, SIGN]) | field << 52 | digits


def pairs(chance, n):
    one = [factor(chance) for _ in range(n)]
    other = [chance.choice([factor(chance), p, p ^ SIGN, chance.choice([0, SIGN])]) if chance.random() < 0.3 else factor(chance) for p in one]
    return one, other


def cancelled(chance, n):
    """Each product and its opposite, and one pair more that decides, in any order."""
    one, other = pairs(chance, n)
    few = sorted(zip([*one, *one, factor(chance)], [*other, *[q ^ SIGN for q in other], factor(chance)]), key=lambda pair: chance.random())
    return [p for p, _ in few], [q for _, q in few]


def weighted_sums(chance):
    """Pairs of any shape, some with a number changed. The list that is written goes to the sums and into a register, which hold the exact sum of the products;
    and in another order the nearest sum is the same."""
    for _ in range(10):
        n = chance.choice([0, 1, 2, 3, chance.randint(4, 20), chance.randint(21, 70)])
        one, other = chance.choice([pairs, scale, cancelled])(chance, n)
        if one and chance.random() < 0.2:
            chance.choice([one, other])[chance.randrange(len(one))] = chance.choice([*BAD, turn(chance)])
        yield from both(chance, one, other)
        if any(weighted.fault(*pair) for pair in zip(one, other)):
            continue
        written = weighted.products(one, other, 2 * len(one))
        assert sum(map(exact.units, written)) == weighted.total(one, other) * weighted.UNIT
        assert exact.nearest_sum(written) == weighted.nearest_sum(one, other)
        yield from list_requests(chance, written)
        if written:
            yield from run_requests(chance, written, chance.choice(ORDERS))
            yield from entered(ADD, register_of(sum(map(exact.units, written[:-1]))), written[-1])
        order = chance.sample(range(len(one)), len(one))
        request = weighed(packed([one[i] for i in order]), packed([other[i] for i in order]), chance.randbytes(SIZE))
        assert request.after[2] == packed([weighted.nearest_sum(one, other)])
        yield request


FIXED = [pair_ends, squares, pair_lengths, pair_refusals, longest]
DRAWN = [weighted_sums]
