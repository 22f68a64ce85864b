"""Requests on a list and on the same numbers in another order. The nearest sum, the parts and the words of a register must be the same, the faithful sums equal
or neighbouring numbers, with as many rounds and the same remainders; and the other order is refused where the first is. Of binary32 numbers there are neither
parts nor registers."""
from calls import DOUBLES, SIZE, array_nearest, parted, started, unpacked
from drawn import SHAPES
from sequences import ADD, ORDERS, entries, register_of, run_requests

SHORT, MANY = 12, 40  # numbers that are also added to a register; that are walked in blocks, in any case


# ---- lists whose faithful sum depends on the order
def close_call(chance, n, of=DOUBLES):
    """An even number, half of its last place, and others that are half of the half's or less: summed before the half they decide, behind it none of them does.
    Zeros fill the list."""
    w, p = of.width, of.width.precision
    low, high = 2 * p + 44, (w.limit >> w.digits) - 73  # fields from which the smallest of them is normal, and the sum allowed
    x = chance.getrandbits(63) % (high - low << w.digits) + (low << w.digits) & ~1 | w.sign * chance.getrandbits(1)
    half = (x >> w.digits) - p << w.digits
    few = [half - (chance.choice([p, p, p, p + 1, p + 7]) << w.digits) for _ in range(chance.randint(2, max(n - 2, 2)))]
    return ([x, half, *few] + [0] * n)[: max(n, 4)]


def zeros(chance, n, of=DOUBLES):
    """Zeros, of one sign or of both."""
    signs = chance.choice([[0], [1], [0, 1]])
    return [of.width.sign * chance.choice(signs) for _ in range(n)]


KINDS = [*dict.fromkeys(SHAPES), close_call, zeros]


# ---- two orders
def above_zero(pattern, sign):
    """How many numbers above zero a pattern is: one apart of its neighbour's. Both zeros are at 0."""
    return -(pattern % sign) if pattern >= sign else pattern


def on_list(patterns, area, before, of):
    """The nearest sum, of doubles the sum in parts, and the undivided walk."""
    data, work = of.packed(patterns), before[: of.size] * len(patterns)
    parts = [parted(data, area, before[:SIZE])] if of is DOUBLES else []
    return [array_nearest(data, before[:SIZE], of), *parts, started(of.faithful, data, work, before[: SIZE * of.values[of.faithful]])]


def added_up(patterns):
    """The register of zeros with a list in it."""
    return entries(register_of(0), [(ADD, pattern) for pattern in patterns])


def same_sums(one, other, of):
    """Whether the faithful sums of two orders are the same. Everything else of the answers has to be."""
    assert [r.after[1:] for r in one[:-1]] == [r.after[1:] for r in other[:-1]], "the nearest sum or the parts depend on the order"
    (x, rounds), (y, as_many) = (unpacked(r[-1].after[2]) for r in (one, other))
    remainders = [sorted(of.unpacked(r[-1].after[1])) for r in (one, other)]
    assert rounds == as_many and remainders[0] == remainders[1], "rounds or remainders depend on the order"
    assert x == y or abs(above_zero(x, of.width.sign) - above_zero(y, of.width.sign)) == 1, f"{x:016X} and {y:016X} are neither equal nor neighbours"
    return x == y


def two_orders(chance, patterns, shuffled, of):
    """Every request on both, and whether their faithful sums are the same."""
    area, before = chance.randbytes(SIZE * chance.randint(1, 8)), chance.randbytes(2 * SIZE)
    one, other = on_list(patterns, area, before, of), on_list(shuffled, area, before, of)
    yield from [*one, *other]
    for r, s in zip(one, other):
        assert (r.code == 0) == (s.code == 0) and (r.code == s.code or min(r.code, s.code) > 32), f"refused in one order alone: {r.code}, {s.code}"
    if one[0].code:
        return True
    if len(patterns) <= SHORT and of is DOUBLES:
        first, second = (yield from added_up(patterns)), (yield from added_up(shuffled))
        assert first == second, "the register depends on the order"
    elif len(patterns) > MANY:
        yield from run_requests(chance, shuffled, chance.choice(ORDERS), of)
    return same_sums(one, other, of)


def shuffled(chance, patterns, of):
    return (yield from two_orders(chance, patterns, chance.sample(patterns, len(patterns)), of))


# ---- in every run
def backwards(w):
    """1, half of its last place and two that decide; the two zeros; one number too many; a NaN and a number above the limit."""
    one, sign, p = w.one, w.sign, w.precision
    return [[one, w.two_to(-p), w.two_to(-2 * p), w.two_to(-2 * p)], [sign] * 3, [sign, 0], [one] * (w.length + 1), [w.nan, one, w.limit + 1]]


def shuffles(chance, of=DOUBLES):
    """Lists of every kind, and some backwards. Two orders must have been met that have two faithful sums, or nothing was seen of how far apart they may be."""
    same = []
    for n in (0, 1, 2, 4, 5, 8, SHORT, 30, 64, 65, 129):
        for kind in KINDS:
            for _ in range(6 if n < MANY else 1):
                same.append((yield from shuffled(chance, kind(chance, n, of), of)))
    for patterns in backwards(of.width):
        same.append((yield from two_orders(chance, patterns, patterns[::-1], of)))
    assert not all(same), "no two orders had two faithful sums"


# ---- at random
def more_shuffles(chance, of=DOUBLES):
    for _ in range(10):
        yield from shuffled(chance, chance.choice(KINDS)(chance, chance.choice([2, 3, 4, 5, 6, chance.randint(7, 40)]), of), of)


FIXED = [shuffles]
DRAWN = [more_shuffles]
