"""Requests to hand on a leaver's weight: lists of weights at which a likely mistake shows, orders of refusals, and farewell after farewell."""
import farewell
from calls import SIZE, handed, packed
from exact import INFINITY, LENGTH, MAGNITUDE, NAN, ONE, ONES, SIGN
from farewell import STEP, pattern

WHOLE = 2**30  # steps of 2^-30 in 1
LARGE = MAGNITUDE + 1
# numbers that are no weight: -0, -1/2, 1 + 2^-30, 1 and a last place, 2^-31, 3 * 2^-31, a subnormal, 2, the largest that a list may have
STRANGE = [SIGN, 0xBFE << 52, pattern(1) + 2**22, ONE + 1, 0x3E0 << 52, 0x3E08 << 48, 1, 0x400 << 52, MAGNITUDE]


def weights(steps):
    return [pattern(k * STEP) for k in steps]


def cut(chance, n, positive):
    """So many positive whole numbers of steps, at some of n places, that make 1; the others are 0."""
    ends = sorted(chance.sample(range(1, WHOLE), positive - 1))
    sizes = [b - a for a, b in zip([0, *ends], [*ends, WHOLE])]
    steps = [0] * n
    for place, size in zip(chance.sample(range(n), positive), sizes):
        steps[place] = size
    return steps


# ---- in every run
def heavy(chance, most):
    """One clock with nearly all of the weight, and as many others as it leaves steps, with one each. Where their number divides 2^30 + 1 all but one of
    them get a step of what is left over, the most there can be."""
    steps = [1] * most
    steps.insert(chance.randrange(most + 1), WHOLE - most)
    return steps


def weight_lists(chance):
    for most in (1, 2, 5, 13, 25, 41, 64, 325, 1321, 3965, LENGTH - 1):
        yield heavy(chance, most)
    for n, positive in ((2, 2), (3, 2), (65, 3), (65, 64), (700, 5), (LENGTH, 2), (LENGTH, LENGTH)):
        yield cut(chance, n, positive)
    yield [WHOLE // 2, WHOLE // 2]
    yield [WHOLE // 4] * 4
    yield [0, WHOLE - 1, 0, 1, 0]
    yield [WHOLE // 2, 0, WHOLE // 4, WHOLE // 4 - 3, 3]
    yield [0] * (LENGTH - 2) + [3, WHOLE - 3]


def weight_witnesses(chance):
    """Each list without its first clock, its last, its heaviest, its lightest, and one of no weight."""
    for steps in weight_lists(chance):
        by_weight = sorted(range(len(steps)), key=lambda i: steps[i])
        for leaver in {0, len(steps) - 1, by_weight[0], by_weight[-1], chance.randrange(len(steps))}:
            yield handed(packed(weights(steps)), leaver, chance.randbytes(SIZE * len(steps)))


def weight_refusals(chance):
    """Every refusal beside each later one: 1, 4, 2 or 3, 14, 15, 16, 17."""
    good, alone = weights([WHOLE // 2, WHOLE // 4, WHOLE // 4]), weights([0, WHOLE, 0])
    lists = [[], good, alone, [ONE], good[:2], good + [ONE], weights([0, 0]), [ONE] * (LENGTH + 1), good + [0] * (LENGTH - 3), good + [0] * (LENGTH - 2)]
    for fault in (NAN, SIGN | INFINITY, LARGE):
        for strange in [*STRANGE, 0]:
            lists += [[strange, fault, *good], [*good, strange, fault], [fault, strange, LARGE, NAN]]
    lists += [[*good[:k], strange, *good[k + 1 :]] for strange in STRANGE for k in range(3)]
    lists += [[strange, *alone, other] for strange in STRANGE for other in STRANGE]
    lists += [[number, *[0] * LENGTH] for number in (NAN, LARGE, SIGN, ONE)]  # 1 beside 2, 3, 14 and 17
    lists += [[0, fault, 0] for fault in (NAN, LARGE)]  # 2 or 3 beside 17
    lists.append([*good, *[0] * (LENGTH - 4), SIGN])  # the greatest code
    for patterns in lists:
        n = len(patterns)
        for leaver in {0, 1, 2, n - 1 if n else 0, n, n + 1, 2**32, 2**63, ONES}:
            for room in {n, 0, n + 1} if n < 9 or leaver in (0, n) else {n}:
                yield handed(packed(patterns), leaver, chance.randbytes(SIZE * room))


def farewells(chance):
    """One clock after the other leaves, in any order, until one is left, which can't: the total is 1 each time."""
    for n, positive in ((2, 2), (5, 5), (12, 7), (40, 40), (64, 20)):
        patterns = weights(cut(chance, n, positive))
        for leaver in chance.sample(range(n), n):
            request = handed(packed(patterns), leaver, chance.randbytes(SIZE * n))
            yield request
            if request.code:
                assert request.code == 17 and sum(p > 0 for p in patterns) == 1, request.code
                break
            patterns = farewell.hand_on(patterns, leaver, n)
            assert farewell.whole(patterns) and patterns[leaver] == 0


# ---- at random
def leavings(chance):
    """Weight lists of any shape, some with a number changed."""
    for _ in range(12):
        n = chance.choice([1, 2, 3, chance.randint(4, 20), chance.randint(21, 130)])
        patterns = weights(cut(chance, n, chance.randint(1, n)))
        if chance.random() < 0.3:
            patterns[chance.randrange(n)] = chance.choice([*STRANGE, 0, ONE, NAN, LARGE, chance.getrandbits(64)])
        leaver = chance.choice([chance.randrange(n)] * 6 + [n, n + 1, ONES])
        yield handed(packed(patterns), leaver, chance.randbytes(SIZE * (n + chance.choice([0] * 9 + [1, -1]))))


FIXED = [weight_witnesses, weight_refusals, farewells]
DRAWN = [leavings]
