"""Requests on a register that carries later: lanes and counts at their bounds, every refusal beside a later one, numbers of every shift, settlings with carries
of both signs, and runs of additions, withdrawals and settlings beside one integer and beside the first form's calls. tests/host/settlings.py has longer ones."""
import itertools

import exact
import samples
from calls import REGISTER, SIZE, lanes_entered, lanes_packed, lanes_settled, lanes_unpacked, rounded
from drawn import TOP, whole_of
from exact import CALLS, INFINITY, LANES, MAGNITUDE, NAN, ONE, ONES, SIGN, UNIT, WORDS
from merges import WHOLES
from sequences import ADD, WITHDRAW, entries, register_of, turn

ENTER = {1: "kewohiata_lanes_add", -1: "kewohiata_lanes_withdraw"}
LEAST, MOST = -(2**63), 2**63 - 1  # what a lane can hold
COUNTS = [0, 1, 2, CALLS - 1, CALLS, CALLS + 1, 2**32, 2**63, ONES]


def room(count):
    """What a lane may hold after so many calls."""
    return (count + 1) << 32


def whole(lanes):
    return exact.Lanes(lanes, 0).whole()


def digits(number):
    """The lanes that a settling leaves: digits from 0 on, and the sign in the top one."""
    return [number >> 32 * i & 2**32 - 1 for i in range(LANES - 1)] + [number >> 32 * (LANES - 1)]


# ---- by both calls, and settled
def each(chance, lanes, count, patterns=(ONE,)):
    """Every call on lanes."""
    data = lanes_packed(lanes)
    for call, pattern in itertools.product(ENTER.values(), patterns):
        yield lanes_entered(call, data, count, pattern, chance.randbytes(SIZE))
    yield lanes_settled(data, count, chance.randbytes(REGISTER), chance.randbytes(SIZE))


# ---- bounds
def lane_bounds(chance):
    """One lane at its bound, just beyond it, and at the ends of 64 bits; all lanes at a bound; and every count beside them."""
    for count in COUNTS:
        few = min(count, CALLS)
        values = [room(few), room(few) + 1, -room(few), -room(few) - 1, MOST, LEAST, LEAST + 1, 0]
        for at, value in itertools.product((0, 1, 2, 31, 32, 33, 63, 64, 65), values):
            lanes = [0] * LANES
            lanes[at] = value
            yield from each(chance, lanes, count)
        for sign in (1, -1):
            yield from each(chance, [sign * room(few)] * LANES, count, (ONE, SIGN | MAGNITUDE))
            yield from each(chance, [sign * room(few) * (-1) ** i for i in range(LANES)], count)


def lane_refusals(chance):
    """Each refusal beside every later one: lengths of all arrays, room, a bad number and a full count, alone and together."""
    good, tight = [0] * LANES, [0] * (LANES - 1) + [LEAST]
    large = [0] * (LANES - 1) + [2**31]  # one more than the range has
    for lanes, count, n, k in itertools.product((good, tight, large), (0, CALLS - 1, CALLS, CALLS + 1), (0, 1, LANES - 1, LANES, LANES + 1), (0, 1, 2)):
        data = lanes_packed((lanes + [LEAST])[:n])
        for call, pattern in itertools.product(ENTER.values(), (ONE, NAN, INFINITY, SIGN | INFINITY, MAGNITUDE + 1, SIGN | MAGNITUDE + 1, MAGNITUDE)):
            yield lanes_entered(call, data, count, pattern, chance.randbytes(SIZE * k))
        for m in (0, 1, WORDS - 1, WORDS, WORDS + 1):
            yield lanes_settled(data, count, chance.randbytes(SIZE * m), chance.randbytes(SIZE * k))


# ---- digits
def lane_digits(chance):
    """A number of every exponent, so that each shift and each lane is met: all digits 1, only the leading one, and any; both signs, both calls."""
    for field in range((MAGNITUDE >> 52) + 1):
        for low in (0, 2**52 - 1, chance.getrandbits(52)):
            pattern = min(field << 52 | low, MAGNITUDE) | chance.choice([0, SIGN])
            count = chance.randrange(CALLS)
            lanes = [chance.randint(-room(count), room(count)) for _ in range(LANES)]
            yield lanes_entered(ENTER[chance.choice([1, -1])], lanes_packed(lanes), count, pattern, chance.randbytes(SIZE))
    for pattern, call in itertools.product((0, SIGN, UNIT, SIGN | UNIT), ENTER.values()):
        yield lanes_entered(call, bytes(SIZE * LANES), 0, pattern, chance.randbytes(SIZE))


# ---- settling
def spread(chance, number, count):
    """Lanes that stand for a whole number and aren't settled: between neighbours, carries of both signs are put back, as far as there is room."""
    register = exact.Lanes([0] * LANES, 0)
    register.lanes = digits(number)
    for i in chance.sample(range(LANES - 1), LANES - 1):
        carry = chance.choice([1, -1, chance.randint(-count, count), count, -count])
        low, high = register.lanes[i] + (carry << 32), register.lanes[i + 1] - carry
        if abs(low) <= room(count) and abs(high) <= room(count):
            register.lanes[i : i + 2] = low, high
    assert register.whole() == number, number
    return register.lanes


def settle_ends(chance):
    """Whole numbers at the ends of the range and around zero, a unit beyond them too, spread over lanes in several ways: one number has one settling."""
    for number in [*WHOLES, TOP, -TOP - 1, TOP + 1, 2 * TOP - 1, -2 * TOP]:
        for count in (0, 1, 7, 1000, CALLS - 1, CALLS):
            data = lanes_packed(spread(chance, number, count))
            yield lanes_settled(data, count, chance.randbytes(REGISTER), chance.randbytes(SIZE))


def settle_carries(chance):
    """Lanes of which each hands something on: all ones and one unit, all 2^32, and their opposites; the top lane at both ends."""
    for low, rest, top in itertools.product((0, 1, -1, 2**32, -(2**32)), (2**32 - 1, 2**32, 1 - 2**32, -(2**32), 0), (0, -1, 2**31 - 1, -(2**31), 2**31 - 2)):
        yield lanes_settled(lanes_packed([low] + [rest] * (LANES - 2) + [top]), 0, chance.randbytes(REGISTER), chance.randbytes(SIZE))


# ---- runs
def acts(chance, n):
    """Additions (1) and withdrawals (-1) of any numbers, some with a fault, and settlings (0)."""
    kinds = chance.choice([[0], [0, 1, 2], [6, 7], list(range(samples.KINDS))])
    for _ in range(n):
        yield chance.choice([1, 1, 1, -1, -1, 0]), samples.number(chance.choice(kinds), turn(chance))


def begun(chance):
    """A whole number far from the ends of the range, and lanes of it: nothing but zeros, settled lanes, or such with carries in them."""
    total = whole_of(chance) >> 60
    return chance.choice([(0, [0] * LANES), (total, digits(total)), (total, spread(chance, total, 0))])


def lane_run(chance, count=0):
    """A history from such lanes beside one integer and beside the first form's calls on the same numbers."""
    total, lanes = begun(chance)
    data, words = lanes_packed(lanes), register_of(total)
    for sign, pattern in [*acts(chance, chance.randint(1, 25)), (0, 0)]:
        if sign:
            request = lanes_entered(ENTER[sign], data, count, pattern, chance.randbytes(SIZE))
            yield request
            if request.code != 24:  # for which alone the first form has no refusal
                words = yield from entries(words, [(ADD if sign > 0 else WITHDRAW, pattern)])
            if request.code == 0:
                total += sign * exact.units(pattern)
                count += 1
        else:
            request = lanes_settled(data, count, chance.randbytes(REGISTER), chance.randbytes(SIZE))
            yield request
            assert request.code == 0 and request.after[1] == words == register_of(total), f"{total} settles to other words"
            count = 0
        data = request.after[0]
        assert whole(lanes_unpacked(data)) == total, f"{total} is another number in lanes"
    yield rounded(words, chance.randbytes(SIZE))


def lane_runs(chance):
    for _ in range(6):
        yield from lane_run(chance)
    yield from lane_run(chance, CALLS - chance.randint(0, 30))


# ---- at random
def lanes_of(chance, count):
    """Lanes of any size up to their bound, seldom one beyond it."""
    bound = room(min(count, CALLS))
    sizes = [0, 1, 2**31, 2**32, bound, chance.randint(0, bound)]
    lanes = [chance.choice([1, -1]) * chance.choice(sizes) for _ in range(LANES)]
    if chance.random() < 0.2:
        lanes[chance.randrange(LANES)] = chance.choice([bound + 1, -bound - 1, MOST, LEAST, chance.randint(LEAST, MOST)])
    return lanes


def any_lanes(chance):
    """Any lanes with any count, most in range, some of another length."""
    for _ in range(30):
        count = chance.choice([*COUNTS[:6], chance.randrange(CALLS), chance.randrange(CALLS)])
        lanes = lanes_of(chance, count)
        lanes[-1] = chance.choice([lanes[-1], chance.randint(-(2**31), 2**31 - 1), chance.randint(-(2**31), 2**31 - 1)])
        lanes = chance.choice([lanes] * 9 + [lanes[1:]])
        yield from each(chance, lanes, count, (samples.number(chance.randrange(samples.KINDS), turn(chance)),))


FIXED = [lane_bounds, lane_refusals, lane_digits, settle_ends, settle_carries]
DRAWN = [lane_runs, any_lanes]
