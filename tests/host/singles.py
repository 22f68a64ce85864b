"""Requests for the calls on binary32 numbers: those of either family, made at this width, and what this width alone has."""
import functools

import drawn
import ensembles
import fixed
import remainders
import shuffles
import strangers
from calls import SINGLES, SIZE, TEN, array_nearest, started, step_of, unpacked
from sequences import ORDERS, list_requests, run_requests, turn
from strangers import BASES


def at_singles(group):
    """A group of requests at this width, under a name of its own."""
    made = functools.partial(group, of=SINGLES)
    made.__name__ = SINGLES.named + group.__name__
    return made


# ---- by hand
def single_longest(chance):
    """Why a list has no more than 2,046 numbers: of 1, 1/2, -2^-24, -2^-25, -2^-25 and zeros the sum is a number, 3FBFFFFF, and with one number more, which is
    refused, a walk would miss it. Wherever the five stand, and in every order of blocks."""
    few = [0x3F800000, 0x3F000000, 0xB3800000, 0xB3000000, 0xB3000000]
    for at in (0, 62, 64, 1000, 2041):
        patterns = [0] * at + few + [0] * (2041 - at)
        for request in list_requests(chance, patterns, SINGLES):
            told = unpacked(request.after[-1])
            assert request.call == SINGLES.open or (request.code, told[0]) == (0, 0x3FBFFFFF), f"{request.call}: {request.code}, {told[0]:08X}"
            yield request
        for order in ORDERS:
            yield from run_requests(chance, patterns, order, SINGLES)
    for request in list_requests(chance, few + [0] * 2042, SINGLES):
        assert request.code == 1, request.code
        yield request


def single_codes(chance):
    """The fault at the last place of the longest list, 3 or 2 and 32·2046, and 19 at the last place of a work area of 2,046."""
    w, n = SINGLES.width, 2046
    for fault, code in ((w.limit + 1, 65475), (w.nan, 65474)):
        data = SINGLES.packed([w.one] * (n - 1) + [fault])
        requests = [started(call, data, chance.randbytes(4 * n), chance.randbytes(SIZE * values)) for call, values in SINGLES.values.items()]
        for request in [*requests, array_nearest(data, chance.randbytes(SIZE), SINGLES)]:
            assert request.code == code, f"{request.call} answers {request.code} to a fault at the last place, by hand it is {code}"
            yield request
    numbers = [1, w.two_to(11), 0, 0, n, 2**32 - 1, 19, 5, 0, 0]
    for fault, code in ((w.one, 0), (w.one + 1, 65491), (w.nan, 65491)):
        request = step_of(numbers, [0] * (n - 1) + [fault], 3, 5, of=SINGLES)[0]
        assert request.code == code, f"a step answers {request.code}, by hand it is {code}"
        yield request


def single_rounds(chance):
    """20 rounds of as many numbers as there may be and of half as many, in every order of blocks; 19 are closed in the last state, and that is sound."""
    for n in (2046, 1023):
        patterns, closed = SINGLES.samples.most_rounds(n), set()
        for order in ORDERS:
            for request in run_requests(chance, patterns, order, SINGLES):
                closed.add(unpacked(request.arrays[0])[6])
                yield request
        assert max(closed) == 19, closed
        sums = [unpacked(request.after[-1]) for request in list_requests(chance, patterns, SINGLES) if request.call == SINGLES.faithful]
        assert sums == [[1, 20]], sums


# ---- patterns of more than 32 bits
def wide_states(chance):
    """A state's number with one bit more than a pattern has, in each of its four patterns: 8, but 4 and 21 come before it, and 18, 6 and 7 behind it."""
    base = BASES[SINGLES]
    for k in range(32, 64):
        for what in ("sigma", "t", "tau", "largest"):
            s = base.state._replace(**{what: getattr(base.state, what) | 1 << k})
            for other, named, length, code in (({}, 0, 65, 8), ({"pending": 0}, 0, 65, 8), ({}, 1, 65, 21), ({}, 1, 64, 4), ({"n": 64}, 0, 65, 4)):
                numbers = [1, *s._replace(**other), 0]
                request = step_of(numbers, (base.area + [0])[:length], chance.choice([0, 1, 2]), base.state.ensemble ^ named, of=SINGLES)[0]
                assert request.code == code, f"{what} with bit {k}: {request.code}, by hand it is {code}"
                yield request


# ---- at random
def wide_numbers(chance):
    """Ten numbers of any bits, over areas of any: nearly always refused."""
    for _ in range(20):
        n = chance.choice([1, 2, 64, 65])
        numbers = [turn(chance) >> chance.choice([0, 0, 32, 40]) for _ in range(TEN)]
        numbers[4], numbers[6] = chance.choice([n, n, n + 1]), chance.choice([0, 19, 20, 2**32])
        area = [SINGLES.samples.number(chance.randrange(10), turn(chance)) for _ in range(n)]
        yield step_of(numbers, area, chance.randrange(3), chance.choice([numbers[7], 0]) % 2**32, of=SINGLES)[0]


GROUPS = [*fixed.COMMON, *ensembles.FIXED, *remainders.FIXED, *shuffles.FIXED, *strangers.FIXED]
FIXED = [*map(at_singles, GROUPS), single_longest, single_codes, single_rounds, wide_states]
DRAWN = [*map(at_singles, [drawn.lists, drawn.misfits, drawn.states, *ensembles.DRAWN, *shuffles.DRAWN]), wide_numbers]
