"""Calls one after another: every call on a list, a walk block by block, steps from a state, and entries in a register. Each goes on from what the last left."""
import itertools

import exact
import walk
from calls import DOUBLES, SIZE, SUM, array_nearest, entered, graded, nearest_of, packed, parted, rounded, started, step_of, stepped, summed, ten
from calls import total_of, undivided, unpacked
from exact import INFINITY, ONES, SIGN, UNIT
from widths import blocks_of

ORDERS = [walk.rising, walk.falling, walk.seeded]
ADD, WITHDRAW = ENTRIES = [(f"kewohiata_register_{entry}", f"kewohiata_words_{entry}") for entry in ("add", "withdraw")]


def turn(chance):
    return chance.getrandbits(64)


def number(chance):
    """The number of an ensemble: any, or one at an end."""
    return chance.choice([chance.getrandbits(32), chance.getrandbits(32), 0, 1, 2**16, 2**31, 2**32 - 1])


def unread(chance):
    """A state's first number and its last, what was told: a step reads neither."""
    return [turn(chance) for _ in range(2)]


# ---- lists
def beside(pattern, steps):
    """The pattern so many doubles above another one, in the order of their values; both zeros are one, and there is none beyond the largest."""
    place = (-(pattern % SIGN) if pattern >= SIGN else pattern) + steps
    place = max(min(place, INFINITY - 1), 1 - INFINITY)
    return SIGN | -place if place < 0 else place


def near(patterns):
    """The nearest pattern of a list and two on either side, or those around 0 where it is refused."""
    try:
        middle = nearest_of(tuple(patterns))
    except exact.Refused:
        middle = 0
    return [beside(middle, steps) for steps in (-2, -1, 0, 1, 2)]


def list_requests(chance, patterns, of=DOUBLES):
    """Every call on a list. The arrays hold what they happen to hold."""
    data, n = of.packed(patterns), len(patterns)
    if of is DOUBLES:
        yield summed("kewohiata_faithful", data, chance.randbytes(SUM))
        yield summed("kewohiata_nearest", data, chance.randbytes(SUM))
    for call, values in of.values.items():
        yield started(call, data, chance.randbytes(of.size * n), chance.randbytes(SIZE * values), number(chance))
    yield array_nearest(data, chance.randbytes(SIZE), of)
    if of is DOUBLES:
        yield parted(data, chance.randbytes(SIZE * chance.randint(1, 8)), chance.randbytes(SIZE))
        for claim in near(patterns):
            yield graded(data, claim, chance.randbytes(SIZE))


def run_requests(chance, patterns, order, of=DOUBLES):
    """A walk block by block. It must end as the undivided one, remainders too, and with as many steps as its rounds have blocks; a further step is refused."""
    area, total, steps, ensemble = [0] * len(patterns), total_of(tuple(patterns), of), 0, number(chance)
    answer = of.walk.opening(patterns, area, ensemble)
    while answer[0] == "more":
        s = answer[1]
        request, answer, area = stepped(s, area, order(s.pending, turn(chance)), unread(chance), total, of)
        yield request
        steps += 1
    assert (answer, area) == undivided(tuple(patterns), of), f"orders differ: {order.__name__} {patterns}"
    assert steps == answer[2] * blocks_of(len(patterns)), f"{steps} steps: {order.__name__} {patterns}"
    yield step_of(unpacked(ten(answer)), area, 0, ensemble, None, of)[0]


def is_allowed(patterns, of=DOUBLES):
    return undivided(tuple(patterns), of)[0][0] == "done"


# ---- states
def several(s, area, order, turns, of=DOUBLES):
    """Up to five steps from a state, until one is refused or finishes."""
    for chosen in itertools.islice(turns, 5):
        request, answer, area = stepped(s, area, order(s.pending, chosen), of=of)
        yield request
        if answer[0] != "more":
            return
        s = answer[1]


# ---- registers
def register_of(whole):
    register = exact.Register([])
    register.store(whole)
    return packed(register.words)


def entries(data, pairs):
    """Additions and withdrawals, and the register that they leave."""
    for entry, pattern in pairs:
        requests = entered(entry, data, pattern)
        yield from requests
        data = requests[0].after[0]
    return data


def around(chance, data):
    """The rounding of a register, of one unit more and of one unit less."""
    for calls in ([], [ADD], [WITHDRAW, WITHDRAW], [ADD]):
        data = yield from entries(data, [(call, UNIT) for call in calls])
        yield rounded(data, chance.randbytes(SIZE))
    return data


def both_around(chance, data):
    """A register, and then its opposite: all digits turned over, and one unit more."""
    data = yield from around(chance, data)
    opposite = packed([word ^ ONES for word in unpacked(data)])
    opposite = yield from entries(opposite, [(ADD, UNIT)])
    yield from around(chance, opposite)
