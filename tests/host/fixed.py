"""Requests that are made in every run: lengths and orders of refusals, and the lists and registers at which a likely mistake shows. Those of the walk and of
the nearest sum are for either family of calls."""
import samples
from calls import DOUBLES, REGISTER, SIZE, SUM, TEN, array_nearest, entered, packed, parted, read, rounded, started, stepped, summed, unpacked
from drawn import ENDS, LIMIT, TOP, cancelled, numbers
from exact import INFINITY, LENGTH, MAGNITUDE, NAN, ONE, ONES, PARTS, SIGN, UNIT, WORDS
from sequences import ADD, ENTRIES, ORDERS, WITHDRAW, both_around, entries, is_allowed, list_requests, register_of, run_requests, turn
from sheets import sheet
from states import State
from strangers import BASES, nans

LARGE = MAGNITUDE + 1


# ---- lengths and orders of refusals
def short(first, n, one=ONE):
    """A list of n numbers: those, and then 1."""
    return (list(first) + [one] * n)[:n]


def faults_of(w):
    """The beginnings of lists with more than one fault."""
    one, sign, large, infinity, nan = w.one, w.sign, w.limit + 1, w.infinity, w.nan
    return [[], [nan], [large, infinity], [infinity, large], [one, sign | large, nan], [one, sign | infinity, large]]


FAULTS = faults_of(DOUBLES.width)


def largest_codes(chance):
    """The fault at the last place of the longest list: 3 or 2, and 32·4094."""
    for fault, code in ((LARGE, 131011), (NAN, 131010)):
        for call in ("kewohiata_faithful", "kewohiata_nearest"):
            request = summed(call, packed([ONE] * (LENGTH - 1) + [fault]), chance.randbytes(SUM))
            assert request.code == code, f"{call} answers {request.code} to a fault at the last place, by hand it is {code}"
            yield request


def sum_lengths(chance):
    """1 for more than 32,752 bytes, else 4, else 2 or 3 at the lowest place."""
    for faults in FAULTS:
        for size in (0, 1, 7, 8, 9, 15, 16, 24, 32751, 32752, 32753, 32759, 32760, 32768, 40000):
            data = packed(short(faults, 5000))[:size]
            for out in (SUM, 0, 8, 15, 17, 24):
                for call in ("kewohiata_faithful", "kewohiata_nearest"):
                    yield summed(call, data, chance.randbytes(out))
    yield from largest_codes(chance)


def walk_sizes(most):
    """How many numbers a list has, and how many places the work area."""
    return [
        (0, 0), (0, 1), (1, 0), (2, 2), (2, 1), (2, 3), (3, 3), (65, 64), (65, 66), (most, most), (most, most + 1), (most, 0),
        (most + 1, most + 1), (most + 1, most), (most + 1, 2), (most + 1, 0), (most + 2, most + 2), (5000, 5000), (5000, 0), (0, 5000),
    ]  # fmt: skip


def walk_lengths(chance, of=DOUBLES):
    """1, else 4 for the work area or the values, else 2 or 3."""
    w = of.width
    for call, values in of.values.items():
        for faults in faults_of(w):
            for n, m in walk_sizes(w.length):
                for k in (values, 0, values - 1, values + 1) if n < 4 or n > w.length else (values,):
                    yield started(call, of.packed(short(faults, n, w.one)), chance.randbytes(of.size * m), chance.randbytes(SIZE * k))


def nearest_lengths(chance, of=DOUBLES):
    """1, else 4 for the values, else 2 or 3."""
    w = of.width
    for faults in faults_of(w):
        for n in (0, 1, 2, 3, 64, w.length, w.length + 1, w.length + 2, 5000):
            for k in (1, 0, 2, 40):
                yield array_nearest(of.packed(short(faults, n, w.one)), chance.randbytes(SIZE * k), of)


def parts_lengths(chance):
    """1, else 4 for the values, else 5, else 2 or 3."""
    for faults in FAULTS:
        for n in (0, 1, 2, 3, 64, LENGTH, LENGTH + 1, LENGTH + 2, 5000):
            for count in (0, 1, 2, PARTS, PARTS + 1, 40, 5000):
                for k in (1, 0, 2) if n < 4 or n > LENGTH else (1,):
                    yield parted(packed(short(faults, n)), chance.randbytes(SIZE * count), chance.randbytes(SIZE * k))


def register_lengths(chance):
    """4, else 2 or 3, else 9; of rounding 4, else 10. The largest register and the smallest leave no room."""
    turned = samples.turns(WORDS, samples.seed(5, 0))
    for data in (register_of(TOP - 1), register_of(-TOP), register_of(0), packed(turned)):
        for size in (0, 1, 8, REGISTER - 8, REGISTER - 1, REGISTER, REGISTER + 1, REGISTER + 8, REGISTER + 64):
            lent = (data + bytes(64))[:size]
            for entry in ENTRIES:
                for pattern in (ONE, UNIT, 0, SIGN, SIGN | UNIT, MAGNITUDE, LARGE, SIGN | LARGE, INFINITY, NAN, ONES):
                    yield from entered(entry, lent, pattern)
            for k in (1, 0, 2) if size % SIZE == 0 else ():
                yield rounded(lent, chance.randbytes(SIZE * k))


# how many places the area has that a sheet is read to, and how many the values
READ_LENGTHS = [(0, 1), (1, 1), (2, 1), (LENGTH - 1, 1), (LENGTH, 1), (LENGTH + 1, 1), (0, 0), (2, 0), (2, 2), (LENGTH, 0), (LENGTH, 2)]


def sheet_lengths(chance):
    """11, 12, 1, 11, 13, and 4 for the area or the values, each where the later ones hold too."""
    for version in (1, 2):
        for count in (0, 1, 2, LENGTH, LENGTH + 1, 2**32 - 1):
            for size in (0, 1, 4, 5, 6, 12, 13, 14, 20, 21, 22, 32756, 32757, 32758, 40000):
                data = (sheet([turn(chance)] * 4, version, count) + bytes(40000))[:size]
                for room, k in READ_LENGTHS:
                    if size < 100 or room >= LENGTH - 1 or count < LENGTH:
                        yield read(data, chance.randbytes(SIZE * room), chance.randbytes(SIZE * k))


# ---- registers
def start(k, r):
    """One of 15: words of zeros, of ones or of turns, under a top word that makes them small, the largest, the smallest, negative or middling."""
    words = [[0] * WORDS, [ONES] * WORDS, samples.turns(WORDS, r)][k % 3]
    words[-1] = [0, SIGN - 1, SIGN, ONES, r >> 20][k // 3 % 5]
    return packed(words)


def there_and_back(chance):
    """From each start numbers of six kinds, added or withdrawn, and then the opposite of each."""
    for k in range(15 * 6):
        r = samples.seed(1, k)
        data, turns = start(k, r), samples.turns(1 + r % 16, r)
        for back in (0, 1):
            data = yield from entries(data, [(ENTRIES[t >> 40 & 1 ^ back], samples.number(k // 15 * 2, t)) for t in turns])
            yield rounded(data, chance.randbytes(SIZE))


def register_examples(chance):
    """The registers of rules T10, T11 and T12."""
    data = yield from entries(register_of(0), [(WITHDRAW, ONE)])
    assert data == packed([0] * 16 + [2**64 - 2**50] + [ONES] * 16), data.hex()
    data = yield from entries(data, [(ADD, ONE)])
    assert not any(data), data.hex()
    yield from both_around(chance, register_of(TOP - 1))
    yield from both_around(chance, register_of(LIMIT))


def register_rounds(chance):
    """Roundings near each start; of 54 digits of which the last is one, at every 61st place, with an even and an odd digit before it; of words by turns."""
    for k in range(15):
        yield from both_around(chance, start(k, samples.seed(2, k)))
    for k in range(2 * WORDS):
        yield from both_around(chance, register_of((1 << 53 | samples.seed(3, k) >> 13 << 2 | k % 2 << 1 | 1) << k // 2 * 61))
    for k in range(WORDS):
        r = samples.seed(4, k)
        words = samples.turns(k, r) + [r >> r % 64] + [0] * (WORDS - 1 - k)
        for data in (words, [word ^ ONES for word in words]):
            yield rounded(packed(data), chance.randbytes(SIZE))


# ---- what arrays hold before a call
def held_before(chance, of=DOUBLES):
    """Zeros of both signs, NaNs and infinities in work areas and parts: an accepted call writes over them, a refused one leaves them."""
    w, base = of.width, BASES[of]
    one, sign, infinity = w.one, w.sign, w.infinity
    for held in [0, sign, 1, sign | 1, one, infinity, sign | infinity, *nans(w)]:
        for patterns in ([one, sign | one, UNIT], [sign, sign], [sign, 0, sign], [one, infinity], [w.limit + 1], [one] * (w.length + 1)):
            data, n = of.packed(patterns), len(patterns)
            for call, values in of.values.items():
                for m in (n, n - 1, n + 1):
                    yield started(call, data, of.packed([held] * m), packed([held] * values))
            for count in (1, 2, PARTS, 0, PARTS + 1) if of is DOUBLES else ():
                yield parted(data, packed([held] * count), packed([held]))
        for m in (64, 65, 66):
            yield stepped(base.state, [held] * m, 1, of=of)[0]


# ---- powers of two: rules WO3, W3 and W4
def largest_powers(chance, of=DOUBLES):
    """One number, each power of two that a list may have and the patterns beside it: e is found here by hand, and sigma is 2^(2+e). 2^0 less one pattern is a
    zero list, the largest magnitude and one more is refused."""
    w, power = of.width, of.width.power
    for k in range(w.top + 1):
        for pattern, e in ((power(k) - 1, k if k > 1 else 0), (power(k), k), (power(k) + 1, k + 1)):
            request = started(of.open, of.packed([pattern]), chance.randbytes(of.size), chance.randbytes(SIZE * TEN))
            begins = unpacked(request.after[2])[:2]
            wanted = (0, [2, 0]) if pattern == 0 else (35, begins) if k == w.top and pattern > w.limit else (0, [1, power(2 + e)])
            assert (request.code, begins) == wanted, f"opened with {pattern:016X}: {request.code}, {begins}, by hand it is {wanted}"
            yield request


def scaled_powers(chance, of=DOUBLES):
    """A close at each sound sigma of one number, 2^k units, with t' at the bound of rule W3, a pattern below it, and at one unit, where rule W4 scales sigma."""
    w, power, p = of.width, of.width.power, of.width.precision
    for k in range(2, w.top + 3):
        bound = power(k + 5 - p) if k >= p else 0
        for t in {1, bound, bound - 1} - {0, -1}:
            request, answer, _ = stepped(State(power(k), t, 0, 1, 1, 0), [0], 0, of=of)
            wanted = ("more", power(k + 2 - p)) if k >= p and t < bound else ("done", t)
            assert (answer[0], answer[1].sigma if answer[0] == "more" else answer[1]) == wanted, f"closed at {k}, {t:016X}: {answer}, by hand it is {wanted}"
            yield request


# ---- lists
def list_witnesses(chance, of=DOUBLES):
    """Every call on each list of tests/samples.py, with parts from none to one more than allowed; and every length at the ends of blocks."""
    for k, patterns in enumerate(of.samples.lists()):
        yield from list_requests(chance, patterns, of)
        if of is DOUBLES:
            yield parted(packed(patterns), chance.randbytes(SIZE * ((k + k // 10) % (PARTS + 2))), chance.randbytes(SIZE))
    for n in ENDS + [of.width.length]:
        for shape in (numbers, cancelled):
            patterns = shape(chance, n, of)
            yield from list_requests(chance, patterns, of)
            for order in ORDERS:
                yield from run_requests(chance, patterns, order, of)
    yield from list_requests(chance, of.samples.most_rounds(of.width.length), of)


def walk_witnesses(chance, of=DOUBLES):
    """Each of those lists walked block by block, in three orders."""
    for patterns in of.samples.lists():
        for order in ORDERS if is_allowed(patterns, of) else ():
            yield from run_requests(chance, patterns, order, of)


# those that either family of calls has
COMMON = [walk_witnesses, list_witnesses, walk_lengths, nearest_lengths, largest_powers, scaled_powers, held_before]
GROUPS = [*COMMON, sum_lengths, parts_lengths, register_lengths, sheet_lengths, there_and_back, register_examples, register_rounds]
