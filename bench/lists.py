"""Seeded lists of doubles, and of singles, whose condition number, the sum of the magnitudes over the magnitude of the exact sum, is known.

    1                 numbers from 1 to 2, all positive: the condition is 1
    1e4 .. 1e100      half of the numbers have exponents spread evenly from 0 (of singles -40) to b and random signs; each of the other half is a random
                      number less the exact sum so far, rounded to the format, where that number's exponent falls from b to 0. What is left is about 1. The
                      condition of the list is computed from exact integers, and b is moved until it lies within a factor of 10 of the wanted one. Then the
                      list is shuffled
    range             exponents spread evenly over the whole range that a list may have, of doubles 2^-1074 to 2^1000, random signs: little cancels
    range, cancelled  as 1e4 .. 1e100 with exponents from -1000 to 985, of singles from -100 to 85: about 1e600 and 1e55 where the list is long enough
    restarts          five times pairs of opposite numbers with 20 digits, each time 60 places below the last, and 60 below those numbers that don't cancel. A
                      round takes the largest pairs whole, and its sum is zero; what is below them it leaves as it was: the first five rounds restart

The first half is random, the second cancels it: Ogita, Rump and Oishi, Accurate Sum and Dot Product, Algorithm 6.1, for sums.
"""
import math
import random
import struct

RESTARTS, DEPTH = 5, 60
UNIT = 2**1074


def double(whole):
    """The double nearest to so many units; Python divides integers correctly rounded."""
    return whole / UNIT


def single(whole):
    """A single next to so many units. It is the nearest but where the double nearest to them lies between two singles."""
    return struct.unpack("f", struct.pack("f", double(whole)))[0]


class Width:
    """What lists of a format are made of: its letter for Python's struct, the digits behind a significand's first one, its rounding, the least exponent of
    a list with a wanted condition, the exponents of the two cases of the whole range, and the lengths and conditions that are timed, with how many lists a case has (a branch predictor knows one short list by heart) and
    how many repetitions in one sweep."""

    def __init__(self, letter, digits, rounded, least, whole, wide, conditions, lengths):
        self.letter, self.digits, self.rounded, self.least, self.whole, self.wide, self.conditions = letter, digits, rounded, least, whole, wide, conditions
        self.lists = {n: lists for n, (lists, _) in lengths.items()}
        self.repetitions = {n: times for n, (_, times) in lengths.items()}


DOUBLES = Width(
    "d", 52, double, 0, (-1074, 999), (-1000, 985), ("1", "1e8", "1e16", "1e32", "1e64", "1e100", "range", "range, cancelled", "restarts"),
    {16: (64, 60), 64: (32, 30), 1000: (4, 15), 4094: (2, 6)},
)
SINGLES = Width(
    "f", 23, single, -40, (-149, 99), (-100, 85), ("1", "1e4", "1e8", "1e16", "1e32", "range", "range, cancelled"),
    {16: (64, 60), 64: (32, 30), 1000: (4, 15), 2046: (2, 12)},
)
LENGTHS, CONDITIONS, LISTS, REPETITIONS = tuple(DOUBLES.lists), DOUBLES.conditions, DOUBLES.lists, DOUBLES.repetitions


def units(x):
    """A double in units of 2^-1074."""
    over, under = x.as_integer_ratio()
    return over * (UNIT // under)


def number(rng, exponent, width):
    """A random sign and significand."""
    return rng.choice((-1, 1)) * math.ldexp(rng.randrange(2**width.digits, 2 ** (width.digits + 1)), exponent - width.digits)


def cancelled(rng, n, low, high, width):
    numbers = [number(rng, e, width) for e in [high, low] + [rng.randint(low, high) for _ in range(n // 2 - 2)]]
    total = sum(map(units, numbers))
    steps = n - len(numbers)
    for k in range(steps):
        x = width.rounded(units(number(rng, high - (high - low) * k // max(steps - 1, 1), width)) - total)
        numbers.append(x)
        total += units(x)
    rng.shuffle(numbers)
    return numbers


def restarting(rng, n):
    pairs = n // (RESTARTS + 1) // 2
    halves = [math.ldexp(rng.randrange(2**19, 2**20), DEPTH * (RESTARTS - k)) for k in range(RESTARTS) for _ in range(pairs)]
    numbers = halves + [-x for x in halves] + [number(rng, 0, DOUBLES) for _ in range(n - 2 * len(halves))]
    rng.shuffle(numbers)
    return numbers


def condition(numbers):
    """The decimal exponent of the condition number."""
    whole = [units(x) for x in numbers]
    return math.log10(sum(map(abs, whole))) - math.log10(abs(sum(whole)))


def conditioned(rng, n, wanted, width):
    """A list with a condition number within a factor of 10 of 10^wanted."""
    bits = wanted / math.log10(2)
    for _ in range(200):
        numbers = cancelled(rng, n, width.least, width.least + max(round(bits), 1), width)
        off = condition(numbers) - wanted
        if abs(off) < 1:
            return numbers
        bits -= off / math.log10(2) / 2
    raise SystemExit(f"bench: no list of {n} numbers with condition 1e{wanted} was found")


def one(rng, n, name, width):
    if name == "1":
        return [width.rounded(units(rng.uniform(1, 2))) for _ in range(n)]
    if name == "range":
        return [width.rounded(units(number(rng, rng.randint(*width.whole), width))) for _ in range(n)]
    if name == "range, cancelled":
        return cancelled(rng, n, *width.wide, width)
    if name == "restarts":
        return restarting(rng, n)
    return conditioned(rng, n, int(name[2:]), width)


def cases(seed, width=DOUBLES):
    """Every case: n, the name of its condition, its lists, and the least and the greatest decimal exponent of their conditions."""
    for n, count in width.lists.items():
        for name in width.conditions:
            rng = random.Random(f"{seed} {n} {name}")
            lists = [one(rng, n, name, width) for _ in range(count)]
            reached = [condition(numbers) for numbers in lists]
            yield n, name, lists, (min(reached), max(reached))


def write(path, made, width=DOUBLES):
    """The file that main.c, singles.c and fsum.py read: n, how many lists, and their patterns."""
    with open(path, "wb") as f:
        for n, _, lists, _ in made:
            f.write(struct.pack("=QQ", n, len(lists)))
            for numbers in lists:
                f.write(struct.pack(f"={n}{width.letter}", *numbers))


def read(path):
    """The lists of each case."""
    with open(path, "rb") as f:
        data = f.read()
    at = 0
    while at < len(data):
        n, count = struct.unpack_from("=QQ", data, at)
        at += 16
        yield [list(struct.unpack_from(f"={n}d", data, at + 8 * n * k)) for k in range(count)]
        at += 8 * n * count
