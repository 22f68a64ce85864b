"""Requests to merge registers: ends of the range, lengths beside sums that don't fit, sites in every order and grouping, and rooms whose clocks come and go."""
import itertools

import exact
import samples
from calls import REGISTER, SIZE, merged, packed, rounded, unpacked
from drawn import TOP, whole_of
from exact import MAGNITUDE, ONES, SIGN, WORDS
from sequences import ADD, WITHDRAW, entries, register_of, turn

UNITS = exact.units(MAGNITUDE)  # of the largest number that a list may have
# whole numbers at the ends of the range, around zero, and where a carry goes through many words or stops before one
WHOLES = [0, 1, -1, TOP - 1, -TOP, TOP - 2, 1 - TOP, TOP // 2, -(TOP // 2), TOP // 2 - 1, -(TOP // 2) - 1, UNITS, -UNITS]
WHOLES += [sign * (2**bits + more) for bits in (64, 1024, 2047, 2048, 2110) for more in (-1, 0) for sign in (1, -1)]


def whole(data):
    return exact.Register(unpacked(data)).whole()


def merge_ends(chance):
    """Each with each, in both orders, and with itself in one array."""
    for one, other in itertools.product(map(register_of, WHOLES), repeat=2):
        yield merged(one, other, chance.randbytes(REGISTER))
        if one == other:
            yield merged(one, chance.randbytes(REGISTER), chance.randbytes(REGISTER), twice=True)


def merge_lengths(chance):
    """4 for each of the three, alone and together, where the sum fits and where it would be 9."""
    lengths = [0, 1, WORDS - 1, WORDS, WORDS + 1, 2 * WORDS]
    for one, other in ((TOP - 1, 1), (TOP - 1, TOP - 1), (-TOP, -1), (-TOP, -TOP), (0, 0), (TOP - 1, -TOP), (-1, 1)):
        a, b = register_of(one) + bytes(REGISTER), register_of(other) + b"\xFF" * REGISTER
        for n, m, k in itertools.product(lengths, repeat=3):
            if (n, m, k).count(WORDS) > 0:
                yield merged(a[: SIZE * n], b[: SIZE * m], chance.randbytes(SIZE * k))
        for n, k in itertools.product(lengths, repeat=2):
            yield merged(a[: SIZE * n], b"", chance.randbytes(SIZE * k), twice=True)


# ---- sites
def groupings(sites):
    """Every tree over these sites in their order: a site, or a pair of trees."""
    if len(sites) == 1:
        yield sites[0]
    for k in range(1, len(sites)):
        yield from itertools.product(groupings(sites[:k]), groupings(sites[k:]))


def total_of(chance, tree):
    """The merges of a tree, and the register of all; None from where one is refused."""
    if not isinstance(tree, tuple):
        return tree
    one = yield from total_of(chance, tree[0])
    other = (yield from total_of(chance, tree[1])) if one else None
    if not other:
        return None
    request = merged(one, other, chance.randbytes(REGISTER))
    yield request
    return None if request.code else request.after[2]


def grouped(chance, wholes):
    """All orders and groupings: whatever isn't refused comes to the sum. Answers how many aren't, and how many are."""
    met = {True: 0, False: 0}
    for order in itertools.permutations(wholes):
        for tree in groupings([register_of(whole) for whole in order]):
            words = yield from total_of(chance, tree)
            assert not words or whole(words) == sum(wholes), wholes
            met[words is not None] += 1
    return met[True], met[False]


def merge_groupings(chance):
    """Four sites, of which every grouping is accepted, only some are, or none is."""
    few = yield from grouped(chance, [UNITS, -UNITS, 1, -1])
    some = yield from grouped(chance, [TOP - 1, 1, -1, -TOP])
    none = yield from grouped(chance, [TOP - 1, TOP - 1, TOP - 1, 1])
    assert few == (120, 0) and min(some) > 0 and none == (0, 120), (few, some, none)


# ---- rooms
def rooms(chance):
    """Two rooms from zero, and a clock that joins in one and leaves in the other: the merge, rounded, is the nearest sum of those that stayed."""
    for _ in range(6):
        stay = [[samples.number(0, turn(chance)) for _ in range(chance.randint(0, 6))] for _ in range(2)]
        clock = samples.number(0, turn(chance))
        calls = [[(ADD, pattern) for pattern in patterns] for patterns in stay]
        for room, entry in zip(chance.sample([0, 1], 2), (ADD, WITHDRAW)):
            calls[room].insert(chance.randint(0, len(calls[room])), (entry, clock))
        registers = []
        for room in calls:
            registers.append((yield from entries(register_of(0), room)))
        request = merged(*registers, chance.randbytes(REGISTER))
        yield request
        words = request.after[2]
        assert words == register_of(sum(map(exact.units, stay[0] + stay[1]))), calls
        last = rounded(words, chance.randbytes(SIZE))
        assert last.after[1] == packed([exact.nearest_sum(stay[0] + stay[1])]), calls
        yield last


# ---- at random
def any_register(chance):
    return chance.choice([register_of(whole_of(chance)), chance.randbytes(REGISTER), packed([chance.choice([0, ONES, SIGN]) for _ in range(WORDS)])])


def merges(chance):
    """Registers of any kind, some of another length, some handed in twice; and three sites in all orders and groupings."""
    for _ in range(20):
        one, other, out = any_register(chance), any_register(chance), chance.randbytes(REGISTER)
        if chance.random() < 0.15:
            out += chance.randbytes(SIZE)
        yield merged(one, other, out, twice=chance.random() < 0.2)
    yield from grouped(chance, [whole_of(chance) for _ in range(3)])


FIXED = [merge_ends, merge_lengths, merge_groupings]
DRAWN = [merges, rooms]
