"""Requests drawn at random: lists, states, registers and sheets."""
import exact
import samples
import shapes
import walk
from calls import DOUBLES, SIZE, array_nearest, entered, parted, read, rounded, started, stepped, undivided
from exact import LENGTH, ONES
from samples import KINDS
from sequences import ADD, ENTRIES, ORDERS, is_allowed, list_requests, register_of, run_requests, turn, unread
from sheets import sheet
from widths import blocks_of

LISTS = 250  # in a batch
ENDS = [0, 1, 2, 31, 32, 33, 63, 64, 65, 127, 128, 129, 511, 512, 513]  # lengths at the ends of blocks, and where the exact sum takes another form
LIMIT = 2**2098 - 2**2044  # units from which on a register isn't rounded
TOP = 1 << exact.BITS - 1  # one unit more than the largest register


# ---- lists
def numbers(chance, n, of=DOUBLES):
    return shapes.numbers(of.walk, chance, n)


def cancelled(chance, n, of=DOUBLES):
    return shapes.cancelled(of.walk, chance, n)


def tie(chance, n, of=DOUBLES):
    """Two numbers halfway between two of the format, a third that may decide, and pairs that cancel."""
    return of.samples.tie(max(n - 3, 0), chance.randrange(8), turn(chance), turn(chance), turn(chance))


def ladder(chance, n, of=DOUBLES):
    """Pairs of powers of two that cancel, each some places below the last; then one unit, and zeros. Long ones aren't deep: each pair may be a round."""
    w = of.width
    distance = chance.randint(20 * w.precision // 53, 60 * w.precision // 53)
    deepest = w.top // distance if n <= 700 else 6
    return of.samples.ladder(n, 2 * chance.randint(0, min((n - 1) // 2, deepest)), distance) if n else []


def faulty(chance, n, of=DOUBLES):
    """NaNs, infinities and numbers above the limit."""
    return of.samples.faulty(n, chance.randrange(KINDS), turn(chance), turn(chance), turn(chance)) if n else []


def any_numbers(chance, n, of=DOUBLES):
    """Numbers of any kind, among them such as only some of are allowed."""
    return of.samples.plain(n, chance.randrange(KINDS), 0, 0, turn(chance))


SHAPES = [numbers] * 3 + [cancelled] * 5 + [tie] * 3 + [ladder] * 2 + [faulty, any_numbers]


def lengths(chance, most):
    """Mostly short, some at the ends of blocks, a few long."""
    for k in range(LISTS):
        if k < 12:
            yield chance.choice(ENDS[3:8])
        elif k < 16:
            yield chance.choice([*ENDS[8:], chance.randint(130, 700)])
        elif k < 19:
            yield chance.choice([1000, most // 2 - 1, most // 2, most - 61, most, chance.randint(701, most)])
        else:
            yield chance.choice([0, 1, 2, 3, chance.randint(4, 12), chance.randint(4, 40)])


def runs_of(chance, patterns, of):
    """In which orders a list is walked: where there is one block all are the same, and long walks cost too much."""
    blocks, rounds = blocks_of(len(patterns)), undivided(tuple(patterns), of)[0][2]
    if blocks * rounds > 150:
        return []
    return ORDERS if blocks > 1 and blocks * rounds <= 40 else chance.sample(ORDERS, 1)


def lists(chance, of=DOUBLES):
    for k, n in enumerate(lengths(chance, of.width.length)):
        patterns = chance.choice(SHAPES)(chance, n, of)
        yield from list_requests(chance, patterns, of)
        if is_allowed(patterns, of) and (k < 19 or k % 4 == 0):
            for order in runs_of(chance, patterns, of):
                yield from run_requests(chance, patterns, order, of)


# ---- lengths that don't fit
def misfits(chance, of=DOUBLES):
    """Short lists, and such of one number too many, with arrays of any length beside them."""
    for _ in range(15):
        n = chance.choice([0, 1, 2, 3, chance.randint(4, 70)] * 3 + [of.width.length + 1])
        data = of.packed(chance.choice(SHAPES)(chance, n, of))
        for call, values in of.values.items():
            m, k = n + chance.choice([0, 0, 1, -1]), values + chance.choice([0, 0, 1, -1])
            yield started(call, data, chance.randbytes(of.size * max(m, 0)), chance.randbytes(SIZE * k))
        yield array_nearest(data, chance.randbytes(SIZE * chance.randint(0, 2)), of)
        if of is DOUBLES:
            yield parted(data, chance.randbytes(SIZE * chance.randint(0, 9)), chance.randbytes(SIZE * chance.randint(0, 2)))


# ---- states that no call gave out
def block_of(chance, s):
    if chance.random() < 0.8:
        return walk.seeded(s.pending, turn(chance)) if s.pending else 0
    return chance.choice([chance.randint(0, 66), blocks_of(s.n), blocks_of(s.n) - 1, 63, 64, 2**32, 2**63, ONES]) % 2**64


def foreign_requests(chance, of):
    """Several steps of a sound state."""
    s, area = shapes.foreign(of.walk, chance)
    for _ in range(chance.choice([1, 3, 8])):
        request, answer, area = stepped(s, area, block_of(chance, s), unread(chance), of=of)
        yield request
        if answer[0] == "done":
            break
        s = answer[1] if answer[0] == "more" else s


def spoiled(chance, of):
    """A sound state and its area, with one or two things changed, mostly to what isn't sound."""
    w = of.width
    first, area = shapes.foreign(of.walk, chance)
    s, n = first, first.n
    some = [of.samples.number(chance.randrange(KINDS), turn(chance)), w.carried + 1, w.sign | w.carried + 1, first.sigma + 1, first.sigma - 1]
    some += [w.infinity, turn(chance) % (2 * w.sign) | w.infinity | 1]
    few = {"n": [0, n - 1, n + 1, n + 2**32, w.length + 1, ONES], "pending": [0, first.pending << 1, ONES]}
    few["rounds"] = [w.rounds + 1, w.rounds + 2, 2**32 - 1, 2**32, first.rounds + 2**32, ONES]
    most = of.walk.pattern_of(of.walk.units(first.sigma) >> w.precision)
    few["largest"] = [most + 1, w.sign, w.sign | most, w.sign | first.largest, of.walk.largest(area), *some]
    for what in chance.sample(["sigma", "t", "tau", "n", "pending", "rounds", "largest", "area", "length"], chance.randint(1, 2)):
        if what == "area":
            area[chance.randrange(len(area))] = chance.choice(some)
        elif what == "length":
            area = chance.choice([area[1:] or [0, 0], area + [0], [0] * (w.length + 1)])
        else:
            s = s._replace(**{what: chance.choice(few.get(what, some))})
    return s, area


def states(chance, of=DOUBLES):
    for _ in range(30):
        yield from foreign_requests(chance, of)
    for _ in range(30):
        s, area = spoiled(chance, of)
        yield stepped(s, area, chance.choice([0, 1, 63, 64, ONES, block_of(chance, s)]), unread(chance), of=of)[0]


# ---- registers
def whole_of(chance):
    """A register's whole number: small, of any size, near an end, or near the limit of rounding."""
    size = chance.choice([0, 1, 64, 2098, 2111, chance.randint(0, 2111)])
    near = chance.choice([0, -1, 1, -chance.getrandbits(60)])
    whole = chance.choice([0, chance.getrandbits(size), TOP - 1 - chance.getrandbits(chance.randint(0, 60)), LIMIT + near])
    return max(-TOP, min(TOP - 1, chance.choice([1, -1]) * whole - chance.randrange(2)))


def halfway(chance):
    """54 bits and the last of them 1, perhaps a unit more or less, at a place of chance."""
    odd = 1 << 53 | chance.getrandbits(53) | 1
    return chance.choice([1, -1]) * ((odd << chance.randint(0, 2046)) + chance.choice([0, 0, 1, -1]))


def register_run(chance):
    """Numbers in and out again, in another order: the register ends where it began. What is refused on the way isn't taken out."""
    data = first = register_of(whole_of(chance))
    held = []
    for _ in range(chance.randint(1, 8)):
        entry, pattern = chance.choice(ENTRIES), samples.number(chance.randrange(KINDS), turn(chance))
        requests = entered(entry, data, pattern)
        yield from requests
        held += [(entry, pattern)] if requests[0].code == 0 else []
        data = requests[0].after[0]
    yield rounded(data, chance.randbytes(SIZE))
    chance.shuffle(held)
    for entry, pattern in held:
        requests = entered(ENTRIES[entry == ADD], data, pattern)
        yield from requests
        if requests[0].code:
            return
        data = requests[0].after[0]
    assert data == first, f"the register {first.hex()} doesn't end where it began: {held}"


def registers(chance):
    for _ in range(25):
        yield from register_run(chance)
    for _ in range(25):
        yield rounded(register_of(chance.choice([whole_of, halfway])(chance)), chance.randbytes(SIZE))


# ---- sheets
def sheets(chance):
    for _ in range(25):
        n = chance.choice([0, 1, 2, 5, 64, chance.randint(0, 200)])
        patterns = [turn(chance) for _ in range(n)]
        count = chance.choice([n] * 6 + [n + 1, max(n - 1, 0), LENGTH, LENGTH + 1, 2**31, 2**32 - 1])
        data = sheet(patterns, chance.choice([1] * 9 + [0, 2, 255]), count)
        data = chance.choice([data] * 6 + [data[:-1], data + b"\1", data[: chance.randint(0, 6)]])
        yield read(data, chance.randbytes(SIZE * max(n + chance.choice([0, 0, 1, 7, -1]), 0)), chance.randbytes(SIZE * chance.choice([1] * 9 + [0, 2])))


GROUPS = [lists, misfits, states, registers, sheets]
