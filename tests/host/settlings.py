"""Requests on lanes whose settling shows what their calls were good for: numbers that come and go, beside the same calls without them; sums of lists; and runs
that leave the range, of which some come back by withdrawals and others, with no call left, can't."""
import exact
import samples
from calls import REGISTER, SIZE, array_nearest, lanes_entered, lanes_packed, lanes_settled, lanes_unpacked, packed, rounded, unpacked
from drawn import TOP, cancelled, ladder, numbers, tie
from exact import CALLS, LANES, LENGTH, MAGNITUDE, NAN, ONE, SIGN
from lanes import ENTER, acts, begun, digits, room, spread, whole
from merges import UNITS
from sequences import register_of, turn

NONE = bytes(SIZE * LANES)  # lanes that began with nothing
ALLOWED = range(8)  # the kinds of numbers that every register takes
TIMES = 2**24  # a count at which lanes have room for what 2^30 additions of the largest number leave in them


def settled(chance, data, count):
    request = lanes_settled(data, count, chance.randbytes(REGISTER), chance.randbytes(SIZE))
    yield request
    return request


def laid(chance, data, count, calls):
    """Additions (1), withdrawals (-1) and settlings (0), and the lanes and the count that they leave: the last array has the count."""
    for sign, pattern in calls:
        request = lanes_entered(ENTER[sign], data, count, pattern, chance.randbytes(SIZE)) if sign else (yield from settled(chance, data, count))
        if sign:
            yield request
        data = request.after[0]
        if request.code == 0:
            (count,) = unpacked(request.after[-1])
    return data, count


# ---- numbers that come and go
def come_and_gone(chance, between, after):
    """The calls with a number that comes before them and goes after some, or goes first and comes back; and the calls without it."""
    pattern, sign = samples.number(chance.choice(ALLOWED), turn(chance)), chance.choice([1, -1])
    return [(sign, pattern), *between, (-sign, pattern), *after], [*between, *after]


def lane_farewells(chance):
    """Without a settling between, each lane is as without the number, and the count two more."""
    for count in (0, chance.randrange(1000), CALLS - 60):
        lanes = spread(chance, begun(chance)[0], min(count, 1000))
        between, after = ([call for call in acts(chance, chance.randint(0, 15)) if call[0]] for _ in range(2))
        ends = []
        for calls in come_and_gone(chance, between, after):
            ends.append((yield from laid(chance, lanes_packed(lanes), count, calls)))
        assert ends[0] == (ends[1][0], ends[1][1] + 2), "a number that came and went has left something"


def settled_farewells(chance):
    """With settlings between, all is as without the number after one settling more."""
    for _ in range(3):
        lanes, ends = begun(chance)[1], []
        for calls in come_and_gone(chance, [*acts(chance, 10), (0, 0)], list(acts(chance, chance.randint(0, 5)))):
            data, count = yield from laid(chance, lanes_packed(lanes), 0, calls)
            last = yield from settled(chance, data, count)
            assert last.code == 0, last.code
            ends.append(last.after)
        assert ends[0] == ends[1], "a number that came and went has left something"


# ---- sums of lists
def list_settled(chance, patterns, often):
    """A list's nearest sum, and its numbers in another order in lanes that began with nothing, settled and rounded: the same, but that lanes know no -0."""
    nearest = array_nearest(packed(patterns), chance.randbytes(SIZE))
    yield nearest
    calls = [(1, pattern) for pattern in chance.sample(patterns, len(patterns))]
    for _ in range(often):
        calls.insert(chance.randint(0, len(calls)), (0, 0))
    data, count = yield from laid(chance, NONE, 0, calls)
    last = yield from settled(chance, data, count)
    rounding = rounded(last.after[1], chance.randbytes(SIZE))
    yield rounding
    wanted = packed([0]) if nearest.after[1] == packed([SIGN]) else nearest.after[1]
    assert nearest.code == last.code == rounding.code == 0 and rounding.after[1] == wanted, f"lanes have another sum of {patterns}"


def lists_settled(chance):
    for shape in (numbers, cancelled, cancelled, tie, ladder):
        yield from list_settled(chance, shape(chance, chance.randint(1, 40)), chance.randint(0, 3))
    yield from list_settled(chance, samples.zeros(chance.randint(0, 4), turn(chance)), 1)


def longest_settled(chance):
    """Of as many numbers as a list may have, all of the largest kinds, and such that cancel."""
    yield from list_settled(chance, samples.filled(LENGTH, 6, turn(chance)), 2)
    yield from list_settled(chance, cancelled(chance, LENGTH), 2)


# ---- out of the range
def end_of(sign):
    """The last whole number of the range on a side."""
    return TOP - 1 if sign > 0 else -TOP


def in_range(number):
    return -TOP <= number < TOP


def there_and_back(chance):
    """From settled lanes near an end, beyond it by a few large numbers, and back by withdrawals: a settling is tried after each, and the first accepted one has
    the words of the whole number."""
    sign, large = chance.choice([1, -1]), [MAGNITUDE - chance.randrange(2**53) for _ in range(chance.randint(2, 6))]
    total = end_of(sign) - sign * chance.randrange(exact.units(large[0]) + 1)
    data, count = yield from laid(chance, lanes_packed(digits(total)), 0, [(sign, pattern) for pattern in large])
    total += sign * sum(map(exact.units, large))
    assert not in_range(total), total
    while not in_range(total):
        refused = yield from settled(chance, data, count)
        assert refused.code == 9, refused.code
        pattern = large.pop()
        data, count = yield from laid(chance, data, count, [(-sign, pattern)])
        total -= sign * exact.units(pattern)
    last = yield from settled(chance, data, count)
    assert last.code == 0 and last.after[1] == register_of(total) and lanes_unpacked(last.after[0]) == digits(total), f"{total} isn't settled"


def taken(sign, over, calls):
    """Lanes, beyond an end by so many units, as so many additions (or withdrawals) of the largest number leave settled ones."""
    lanes = digits(end_of(sign) + sign * (over - calls * UNITS))
    lanes[64] += sign * calls * (UNITS >> 32 * 64)
    assert whole(lanes) == end_of(sign) + sign * over and all(abs(lane) <= room(calls) for lane in lanes)
    return lanes


def last_calls(chance, sign, left, over):
    """The last calls before 2^30 are withdrawals of the largest number: either they suffice, or nothing is accepted any more with that count. The same lanes
    have room at a smaller one, and go on from there."""
    data, count = yield from laid(chance, lanes_packed(taken(sign, over, CALLS - left)), CALLS - left, [(-sign, MAGNITUDE)] * (left + 1))
    assert count == CALLS, count
    last = yield from settled(chance, data, count)
    assert last.code == (0 if over <= left * UNITS else 9), (left, over, last.code)
    if last.code == 0:
        return
    data, count = yield from laid(chance, data, CALLS, [(1, ONE), (-1, ONE), (1, NAN), (-1, MAGNITUDE + 1), (0, 0)])
    assert (data, count) == (last.arrays[0], CALLS), "lanes have taken a call too many"
    data, count = yield from laid(chance, data, TIMES, [(-sign, MAGNITUDE)] * 4)
    last = yield from settled(chance, data, count)
    assert last.code == 0 and last.after[1] == register_of(end_of(sign) + sign * (over - (left + 4) * UNITS)), "the way out is closed"


def full_lanes(chance):
    """By none to three calls left, beyond an end by one unit, by as much as the calls left take back, by a unit more, and by any number of units."""
    for sign in (1, -1):
        for left in range(4):
            for over in {1, max(left * UNITS, 1), left * UNITS + 1, chance.randint(1, 4 * UNITS)}:
                yield from last_calls(chance, sign, left, over)


FIXED = [longest_settled, full_lanes]
DRAWN = [lane_farewells, settled_farewells, lists_settled, there_and_back]
