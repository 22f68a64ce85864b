"""Lists and states drawn at random, at either width: for the models' own checks and for the C calls. The walk is tests/walk.py's at that width."""
from states import State
from widths import blocks_of, exponent_of


def signed(walk, chance, pattern):
    return pattern | walk.width.sign * chance.getrandbits(1)


def numbers(walk, chance, n):
    """Numbers of one kind: all magnitudes, subnormals, few units, zeros, near 1, around 1, the largest, powers of two."""
    w = walk.width
    one, place = w.one, 1 << w.digits
    around, largest = (one - 63 * place, one + 65 * place), (w.limit - 4 * place, w.limit)
    low, high = chance.choice([(0, w.limit), (0, 2 * place), (0, 7), (0, 0), (one, one + place), around, largest])
    mask = chance.choice([w.sign - 1, w.sign - 1, w.infinity])
    return [signed(walk, chance, chance.randint(low, high) & mask) for _ in range(n)]


def cancelled(walk, chance, n):
    """Pairs that cancel, or nearly do, in any order, among a few others."""
    sign, half = walk.width.sign, numbers(walk, chance, n // 3)
    flip = chance.choice([sign, sign, sign | 1])
    all_numbers = half + [p ^ flip for p in half] + numbers(walk, chance, n - 2 * len(half))
    chance.shuffle(all_numbers)
    return [p if p % sign <= walk.width.limit else 0 for p in all_numbers]


def ladder(walk, n, distance, deepest):
    """Pairs of powers of two that cancel, each `distance` below the last, then one unit."""
    powers = [walk.pattern_of(1 << e) for e in range(walk.width.top, deepest, -distance)]
    return ([q for p in powers for q in (p, p | walk.width.sign)] + [1] + [0] * n)[:n]


def two_blocks(width, zeros):
    """1, half of its last place, zeros, and in the second block 64 numbers that are lost one by one and not together: T is the half in rising order, and more
    where each block is added up first. Where eps is so coarse that 1 alone doesn't finish the round of 128 numbers, it stands there twice. The zeros are given;
    also answered is the exponent of the sum."""
    twice = int(2 * exponent_of(128) + 1 + exponent_of(128) > width.precision)
    first = [width.one] * (1 + twice) + [width.two_to(twice - width.precision)]
    return first + zeros[len(first) : 64] + [width.two_to(twice - 2 * width.precision - 1)] * 64, twice


def foreign(walk, chance):
    """A sound state that no call gave out, and its work area."""
    w = walk.width
    n = chance.choice([1, 2, 3, 30, 64, 65, 130, 200])
    m, p, top = exponent_of(n), w.precision, w.top
    k = chance.choice([0, 1, p - 3, p - 1 - m, p - m, p + 1 - m, p, 100, -w.unit, top - 74, top - 1, top, chance.randint(0, top)])
    limit = walk.pattern_of(1 << k)

    def below(pattern, least=0):
        """From nothing to 60 powers of two below, or zero."""
        return max(pattern - (chance.randint(least, 60) << w.digits), 0)

    area = [signed(walk, chance, chance.choice([0, limit, chance.randint(0, limit), below(limit)])) for _ in range(n)]
    near = [0, w.carried, limit, chance.randint(0, w.carried), min(limit + (m << w.digits), w.carried), below(limit, w.precision - 13)]
    t, tau = signed(walk, chance, chance.choice(near)), signed(walk, chance, chance.choice(near))
    if chance.random() < 0.2:
        tau = t ^ w.sign
    pending, rounds = chance.randint(1, (1 << blocks_of(n)) - 1), chance.choice([0, 3, w.rounds - 1, w.rounds])
    most = walk.pattern_of(1 << k + m >> p)
    kept = chance.choice([0, most, chance.randint(0, most), below(most)])
    return State(walk.pattern_of(1 << k + m), t, tau, n, pending, rounds, chance.getrandbits(32), kept), area
