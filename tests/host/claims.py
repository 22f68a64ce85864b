"""Requests for grades: the nearest pattern of a list and two on either side, claims at the ends of the doubles, ties, and every refusal beside a later one."""
from calls import SIZE, graded, packed
from drawn import SHAPES, numbers, tie
from exact import INFINITY, LENGTH, MAGNITUDE, NAN, ONE, SIGN
from grades import EXACT, FAITHFUL, NEAREST, WRONG
from sequences import near
from shuffles import close_call, zeros

LARGEST = INFINITY - 1
LARGE = MAGNITUDE + 1
# claims at the ends, of either sign: zero, the least subnormal, the greatest, 2^-1022, 1, 2^1000, the next, the largest
ENDS = [sign | p for sign in (0, SIGN) for p in (0, 1, 2**52 - 1, 2**52, ONE, MAGNITUDE, LARGE, LARGEST)]
NO_CLAIMS = [NAN, INFINITY, SIGN | INFINITY, INFINITY + 1, 2**64 - 1]
KINDS = [*dict.fromkeys(SHAPES), close_call, zeros]


def claims(chance, patterns, more):
    for claim in [*near(patterns), *more]:
        yield graded(packed(patterns), claim, chance.randbytes(SIZE))


# ---- in every run
def worked():
    """Grades by hand: 1 and half of its last place, a tie, and a unit more; the same below zero; a unit above and below 1; sums that are doubles."""
    tied, minus, half, least = [ONE, 0x3CA << 52], SIGN | ONE, 0x3CA << 52, 1
    return [
        (tied, ONE, NEAREST), (tied, ONE + 1, FAITHFUL), (tied, ONE + 2, WRONG), (tied, ONE - 1, WRONG),
        ([*tied, least], ONE, FAITHFUL), ([*tied, least], ONE + 1, NEAREST), ([ONE + 1, half], ONE + 1, FAITHFUL), ([ONE + 1, half], ONE + 2, NEAREST),
        ([minus, SIGN | half], minus, NEAREST), ([minus, SIGN | half], minus + 1, FAITHFUL), ([minus, SIGN | half], ONE, WRONG),
        ([ONE, least], ONE, NEAREST), ([ONE, least], ONE + 1, FAITHFUL), ([ONE, least], ONE - 1, WRONG),
        ([ONE, SIGN | least], ONE, NEAREST), ([ONE, SIGN | least], ONE - 1, FAITHFUL), ([ONE, SIGN | least], ONE + 1, WRONG),
        ([], 0, EXACT), ([], SIGN, EXACT), ([ONE, minus], SIGN, EXACT), ([SIGN], 0, EXACT), ([], least, WRONG), ([least], SIGN, WRONG),
        ([MAGNITUDE] * 2, MAGNITUDE + 2**52, EXACT), ([MAGNITUDE] * 2, LARGEST, WRONG), ([least] * 3, 3, EXACT), ([least] * 3, 2, WRONG),
    ]  # fmt: skip


def grade_witnesses(chance):
    met = set()
    for patterns, claim, grade in worked():
        request = graded(packed(patterns), claim, chance.randbytes(SIZE))
        assert request.after[1] == packed([grade]), f"{claim:016X} of {patterns}: by hand {grade}"
        met.add(grade)
        yield request
    assert met == {EXACT, NEAREST, FAITHFUL, WRONG}
    for n in (0, 1, 2, 3, 4, 8, 30, 64, 130, 700, LENGTH):
        for kind in KINDS:
            if n <= 130 or kind is numbers:
                yield from claims(chance, kind(chance, n), ENDS)
    for patterns in ([MAGNITUDE - 1] * 3, [MAGNITUDE] * LENGTH, [SIGN | MAGNITUDE] * LENGTH, [MAGNITUDE] * 4093 + [1]):
        yield from claims(chance, patterns, ENDS)


def grade_refusals(chance):
    """1; 4; 2 or 3 of the lowest place; 20: each beside every later one, and alone."""
    for patterns in ([], [ONE], [ONE] * LENGTH, [ONE] * (LENGTH + 1), [NAN] * (LENGTH + 1), [NAN, LARGE], [LARGE, NAN], [ONE, SIGN | LARGE], [ONE, SIGN | INFINITY]):
        for claim in [*NO_CLAIMS, ONE, LARGE, LARGEST]:
            for room in (1, 0, 2):
                yield graded(packed(patterns), claim, chance.randbytes(SIZE * room))


# ---- at random
def drawn_claims(chance):
    for _ in range(25):
        n = chance.choice([1, 2, 3, 4, chance.randint(5, 12), chance.randint(13, 70)])
        patterns = chance.choice([*SHAPES, tie, tie, close_call, zeros])(chance, n)
        yield from claims(chance, patterns, [chance.getrandbits(64), chance.choice(ENDS), chance.choice([*NO_CLAIMS, ONE])])


FIXED = [grade_witnesses, grade_refusals]
DRAWN = [drawn_claims]
