"""The C calls: each as a request to the driver, with the answer that docs/SCOPE.md asks for.

The answers come from the models of tests/exact.py (sums, parts and registers in whole units), tests/walk.py (the faithful walk), tests/grades.py (grades),
tests/farewell.py (weights) and tests/weighted.py (pairs); what is said here is how they lie in arrays and which lengths are refused. Sheets are read, written
and rescued as by tests/sheets.py. An array is its bytes, of whatever its elements are. The walk and the nearest sum have calls at two widths, which are a
family each.
"""
import collections
import functools
import struct

import exact
import farewell
import grades
import samples
import sheets
import walk
import weighted
from exact import Refused
from states import State

# the calls in the order of the driver's numbers, and of what their arrays are, in struct's letters: bytes, numbers of 64 bits, the same with a sign, doubles,
# numbers of 32 bits, floats
CALLS = {
    "kewohiata_faithful": "BB",
    "kewohiata_nearest": "BB",
    "kewohiata_register_add": "B",
    "kewohiata_register_withdraw": "B",
    "kewohiata_walk_open": "QdQ",
    "kewohiata_walk_step": "Qd",
    "kewohiata_walk_faithful": "QdQ",
    "kewohiata_list_nearest": "QQ",
    "kewohiata_list_parts": "QdQ",
    "kewohiata_words_add": "Q",
    "kewohiata_words_withdraw": "Q",
    "kewohiata_words_round": "QQ",
    "kewohiata_sheet_read": "BQQ",
    "kewohiata_weights_hand_on": "QQ",
    "kewohiata_sheet_write": "QBQ",
    "kewohiata_words_merge": "QQQ",
    "kewohiata_list_grade": "QQ",
    "kewohiata_sheet_rescue": "BBBQ",
    "kewohiata_pairs_products": "QQQ",
    "kewohiata_pairs_nearest": "QQQ",
    "kewohiata_lanes_add": "qQ",
    "kewohiata_lanes_withdraw": "qQ",
    "kewohiata_lanes_settle": "qQQ",
    "kewohiata_single_open": "IfQ",
    "kewohiata_single_step": "Qf",
    "kewohiata_single_faithful": "IfQ",
    "kewohiata_single_nearest": "IQ",
}
NUMBERS = {call: number for number, call in enumerate(CALLS)}
SIZE, SUM, REGISTER = 8, 16, 8 * exact.WORDS  # bytes of a number, of a sum in bytes, and of a register
ARRAYS = 4  # of a call, at most
TEN = 10  # numbers of a state
REPORT = 4  # numbers of a rescue's report


class Family:
    """The calls of the walk and the nearest sum at a width, and the models that answer them."""

    def __init__(self, models, named, *names):
        self.walk, self.sums, self.samples = models
        self.width, self.named = self.walk.width, named  # what its groups of requests have before their names
        self.open, self.step, self.faithful, self.nearest = names
        self.size = self.width.bits // 8  # bytes of a pattern
        self.values = {self.open: TEN, self.faithful: 2}  # numbers that a walk's call writes
        self.packed, self.unpacked = self.width.packed, self.width.unpacked


WALK_NAMES = "kewohiata_walk_open", "kewohiata_walk_step", "kewohiata_walk_faithful", "kewohiata_list_nearest"
SINGLE_NAMES = "kewohiata_single_open", "kewohiata_single_step", "kewohiata_single_faithful", "kewohiata_single_nearest"
DOUBLES = Family((walk.DOUBLES, exact.DOUBLES, samples.DOUBLES), "", *WALK_NAMES)
SINGLES = Family((walk.SINGLES, exact.SINGLES, samples.SINGLES), "single_", *SINGLE_NAMES)
VALUES = DOUBLES.values


def family(call):
    return SINGLES if call in SINGLE_NAMES else DOUBLES


# Before and behind each array, where no call may write. Those of bytes begin at no multiple of 8, nor do those of numbers of 32 bits.
BESIDE = {"B": b"\xA5" * 9, "Q": b"\xA5" * 4 * SIZE, "q": b"\xA5" * 4 * SIZE, "d": b"\xA5" * 4 * SIZE, "I": b"\xA5" * 20, "f": b"\xA5" * 20}

# What is asked (arrays and number), what must come back (code and arrays), and of a faithful sum where it stands (array, place in bytes) and the exact sum; of
# an opening or a step the ensemble that it names, and of a call on lanes the count that it is given.
Request = collections.namedtuple("Request", "call arrays number code after sum ensemble count", defaults=[0, 0])


# ---- numbers in bytes
def packed(numbers):
    return struct.pack(f"<{len(numbers)}Q", *numbers)


def unpacked(data):
    return list(struct.unpack(f"<{len(data) // SIZE}Q", data))


def lanes_packed(lanes):
    return struct.pack(f"<{len(lanes)}q", *lanes)


def lanes_unpacked(data):
    return list(struct.unpack(f"<{len(data) // SIZE}q", data))


def heard(number, place):
    """A refusal's code, rule C3."""
    return number + 32 * (place + 1) if number in (2, 3, 14, 19, 23) else number


# ---- what goes through the pipes
def padded(numbers):
    return [*numbers, *[0] * ARRAYS][:ARRAYS]


def laid(call, arrays):
    """Each array between its guards."""
    return [BESIDE[of] + array + BESIDE[of] for of, array in zip(CALLS[call], arrays)]


def wire(request):
    """A request as the driver reads it."""
    sizes, whole = [struct.calcsize(of) for of in CALLS[request.call]], laid(request.call, request.arrays)
    at = [len(BESIDE[of]) // size for of, size in zip(CALLS[request.call], sizes)]
    lengths = [len(array) // size for array, size in zip(request.arrays, sizes)]
    numbers = [NUMBERS[request.call], request.number, request.ensemble, request.count]
    head = [*numbers, *padded(at), *padded(lengths), *padded(map(len, whole))]
    return packed(head) + b"".join(whole)


def answered(request):
    """The answer that the driver has to write: the code, and each array between its guards."""
    return [packed([request.code])] + laid(request.call, request.after)


def apart(request, answer):
    """An answer's parts: the code, and each array between its guards."""
    parts, at = [], 0
    for length in map(len, answered(request)):
        parts.append(answer[at : at + length])
        at += length
    return parts


# ---- the comparison
def one_nan(of, part):
    """A part of an answer as it is compared. Of doubles each NaN is the same, and of floats."""
    if of not in "df":
        return part
    w = DOUBLES.width if of == "d" else SINGLES.width
    return w.packed([w.nan if p % w.sign > w.infinity else p for p in w.unpacked(part)])


def compared(request, parts):
    return [one_nan(of, part) for of, part in zip("Q" + CALLS[request.call], parts)]


def same(request, one, other):
    """Whether two answers are the same, as they are compared."""
    return compared(request, apart(request, one)) == compared(request, apart(request, other))


def where(of, at):
    """A place among the bytes of an array between its guards."""
    at, size = at - len(BESIDE[of]), struct.calcsize(of)
    return f"byte {at}" if of == "B" else f"place {at // size}, byte {at % size},"


def sum_wrong(request, parts):
    """What is wrong with a faithful sum."""
    array, byte, total = request.sum
    of, at = family(request.call), len(BESIDE[CALLS[request.call][array]]) + byte
    (pattern,) = unpacked(parts[1 + array][at : at + SIZE])
    if pattern >> of.width.bits or pattern % of.width.sign >= of.width.infinity or not of.walk.is_faithful(pattern, total):
        return f"{pattern:016X} is not faithful to {total} units"
    if total and abs(of.sums.units(pattern) - total) << of.width.digits >= abs(total):
        return f"{pattern:016X} is too far from {total} units"
    return None


def difference(request, answer):
    """What is wrong with an answer, or None."""
    wanted = answered(request)
    alike = answer == b"".join(wanted)
    parts = wanted if alike else apart(request, answer)
    found = sum_wrong(request, parts) if request.sum else None
    if found or alike:
        return found
    if parts[0] != wanted[0]:
        return f"code {unpacked(parts[0])[0]}, asked for is {request.code}"
    for k, (of, one, other) in enumerate(zip(CALLS[request.call], compared(request, parts)[1:], compared(request, wanted)[1:])):
        for at, (got, asked) in enumerate(zip(one, other)):
            if got != asked:
                return f"array {k}, {where(of, at)} is {got:02X}, asked for is {asked:02X}"
    return None


def shown(request):
    """The inputs, in full."""
    lines = [f"  {request.call} number {request.number:016X}, ensemble {request.ensemble:08X}, count {request.count}"]
    return "\n".join(lines + [f"  array {k}, {len(array)} bytes: {array.hex().upper()}" for k, array in enumerate(request.arrays)])


# ---- a request by its model
def asked(call, arrays, model, number=0, ensemble=0):
    """The model answers the arrays afterwards, and of a faithful sum where it stands; or it refuses, and every array stays."""
    try:
        after, found = model()
    except Refused as refusal:
        return Request(call, arrays, number, heard(*refusal.args), arrays, None, ensemble)
    return Request(call, arrays, number, 0, after, found, ensemble)


def accepted(answer):
    """The answer of the walk's model, unless it is a refusal."""
    if answer[0] == "refused":
        raise Refused(*answer[1:])
    return answer


# ---- lists, whose sums several calls are asked for
@functools.lru_cache(maxsize=1)
def undivided(patterns, of=DOUBLES):
    """The undivided walk of a list (a tuple): its answer, and the remainders."""
    area = [0] * len(patterns)
    return of.walk.faithful(patterns, area), area


@functools.lru_cache(maxsize=1)
def total_of(patterns, of=DOUBLES):
    return of.walk.exact_sum(patterns)


@functools.lru_cache(maxsize=1)
def nearest_of(patterns, of=DOUBLES):
    of.sums.judge(patterns)
    return of.sums.nearest(total_of(patterns, of)) or of.sums.zero(patterns)


def byte_lengths(data, out):
    """Rule C6, for a sum."""
    if len(data) > SIZE * exact.LENGTH:
        raise Refused(1, 0)
    if len(data) % SIZE or len(out) != SUM:
        raise Refused(4, 0)


def summed(call, data, out):
    """Either sum on bytes: the pattern, then the rounds, 0 for nearest."""
    def model():
        byte_lengths(data, out)
        patterns = tuple(unpacked(data))
        if call == "kewohiata_nearest":
            return [data, packed([nearest_of(patterns), 0])], None
        return [data, packed(accepted(undivided(patterns)[0])[1:])], (1, 0, total_of(patterns))

    return asked(call, [data, out], model)


def array_lengths(data, fits, of=DOUBLES):
    """1 for too many numbers; else 4 where another array hasn't the length that it must have."""
    if len(data) > of.size * of.width.length:
        raise Refused(1, 0)
    if not fits:
        raise Refused(4, 0)


def array_nearest(data, out, of=DOUBLES):
    def model():
        array_lengths(data, len(out) == SIZE, of)
        return [data, packed([nearest_of(tuple(of.unpacked(data)), of)])], None

    return asked(of.nearest, [data, out], model)


def parted(data, area, out):
    """1, 4, 5, and then 2 or 3."""
    def model():
        array_lengths(data, len(out) == SIZE)
        parts, all_told = exact.sum_in_parts(unpacked(data), len(area) // SIZE)
        return [data, packed(parts), packed([all_told])], None

    return asked("kewohiata_list_parts", [data, area, out], model)


# ---- the walk
def ten(answer):
    """A walk in ten numbers: 1, the state's eight and what is told; or 2, the sum's pattern, the rounds and seven zeros."""
    return packed([1, *answer[1], answer[2]] if answer[0] == "more" else [2, *answer[1:], *[0] * 7])


def started(call, data, work, values, ensemble=0):
    """An opening, for an ensemble, or the undivided call."""
    of = family(call)

    def model():
        array_lengths(data, len(work) == len(data) and len(values) == SIZE * of.values[call], of)
        patterns = tuple(of.unpacked(data))
        if call == of.open:
            area = of.unpacked(work)
            answer = accepted(of.walk.opening(patterns, area, ensemble))
            return [data, of.packed(area), ten(answer)], (2, SIZE, total_of(patterns, of)) if answer[0] == "done" else None
        answer, area = undivided(patterns, of)
        return [data, of.packed(area), packed(accepted(answer)[1:])], (2, 0, total_of(patterns, of))

    return asked(call, [data, work, values], model, ensemble=ensemble)


def step_of(numbers, area, block, ensemble, total=None, of=DOUBLES):
    """A step on a state's numbers, however many; the model's answer, and the area afterwards. The exact sum is given where the step is one of a walk."""
    arrays, after = [packed(numbers), of.packed(area)], list(area)
    answer = of.walk.step(State(*numbers[1:9]), after, block, ensemble) if len(numbers) == TEN else ("refused", 4, 0)

    def model():
        return [ten(accepted(answer)), of.packed(after)], (0, SIZE, total) if answer[0] == "done" and total is not None else None

    return asked(of.step, arrays, model, block, ensemble), answer, after


def stepped(s, area, block, unread=(1, 0), total=None, of=DOUBLES):
    """The same on a state, for its own ensemble, with the first number and the last, which are of no effect."""
    return step_of([unread[0], *s, unread[1]], area, block, s.ensemble, total, of)


# ---- registers
def entered(entry, data, pattern):
    """An addition or a withdrawal by both of its calls, on bytes and on words; words are whole."""
    register = exact.Register(unpacked(data) if len(data) == REGISTER else [])

    def model():
        register.enter(pattern, 1 if entry[0] == "kewohiata_register_add" else -1)
        return [packed(register.words)], None

    request = asked(entry[0], [data], model, pattern)
    return [request] if len(data) % SIZE else [request, request._replace(call=entry[1])]


def rounded(data, out):
    def model():
        if len(out) != SIZE:
            raise Refused(4, 0)
        return [data, packed([exact.Register(unpacked(data)).round()])], None

    return asked("kewohiata_words_round", [data, out], model)


def merged(one, other, out, twice=False):
    """Two registers into a third. Where the first is handed in twice, the second stays aside."""
    def model():
        register = exact.Register(unpacked(out))
        register.merge(exact.Register(unpacked(one)), exact.Register(unpacked(one if twice else other)))
        return [one, other, packed(register.words)], None

    return asked("kewohiata_words_merge", [one, other, out], model, int(twice))


# ---- lanes
def lanes_entered(call, data, count, pattern, out):
    """An addition to lanes or a withdrawal: 4, 25, 2 or 3, 24."""
    lanes = exact.Lanes(lanes_unpacked(data), count)

    def model():
        if len(out) != SIZE:
            raise Refused(4, 0)
        lanes.enter(pattern, 1 if call == "kewohiata_lanes_add" else -1)
        return [lanes_packed(lanes.lanes), packed([lanes.count])], None

    return asked(call, [data, out], model, pattern)._replace(count=count)


def lanes_settled(data, count, words, out):
    """4, 25, 9."""
    lanes = exact.Lanes(lanes_unpacked(data), count)

    def model():
        if len(out) != SIZE:
            raise Refused(4, 0)
        after = lanes.settle(unpacked(words))
        return [lanes_packed(lanes.lanes), packed(after), packed([lanes.count])], None

    return asked("kewohiata_lanes_settle", [data, words, out], model)._replace(count=count)


# ---- grades
def graded(data, claim, out):
    """1, 4, 2 or 3, 20."""
    def model():
        array_lengths(data, len(out) == SIZE)
        return [data, packed([grades.grade(unpacked(data), claim)])], None

    return asked("kewohiata_list_grade", [data, out], model, claim)


# ---- weights
def handed(data, leaver, out):
    def model():
        return [data, packed(farewell.hand_on(unpacked(data), leaver, len(out) // SIZE))], None

    return asked("kewohiata_weights_hand_on", [data, out], model, leaver)


# ---- pairs
def multiplied(one, other, out, squares=False):
    """1, 22, 4, and then 2 or 23. Where the first list is handed in twice, the second stays aside."""
    def model():
        return [one, other, packed(weighted.products(unpacked(one), unpacked(one if squares else other), len(out) // SIZE))], None

    return asked("kewohiata_pairs_products", [one, other, out], model, int(squares))


def weighed(one, other, out, squares=False):
    """The same order, where 4 is for the value."""
    def model():
        return [one, other, packed([weighted.nearest_sum(unpacked(one), unpacked(one if squares else other), len(out) == SIZE)])], None

    return asked("kewohiata_pairs_nearest", [one, other, out], model, int(squares))


# ---- sheets
def read(sheet, area, out):
    """ "On a sheet: 11 for fewer than 5 bytes, 12, 1, 11, 13, 4": the other arrays' lengths come last. """
    def model():
        patterns = packed(sheets.read(sheet))
        if len(area) < len(patterns) or len(out) != SIZE:
            raise Refused(4, 0)
        return [sheet, patterns + area[len(patterns) :], packed([len(patterns) // SIZE])], None

    return asked("kewohiata_sheet_read", [sheet, area, out], model)


def written(data, area, out):
    """1, and 4 for an area that is shorter than the sheet or for the values. The bytes are those that tests/sheets.py writes."""
    def model():
        sheet = sheets.sheet(unpacked(data))
        array_lengths(data, len(area) >= len(sheet) and len(out) == SIZE)
        return [data, sheet + area[len(sheet) :], packed([len(sheet)])], None

    return asked("kewohiata_sheet_write", [data, area, out], model)


def rescued(damaged, area, marks, report):
    """11 for fewer than 5 bytes, 12, 1, and 4 for either area that is too short or for the report."""
    def model():
        saved, told, missing, over = sheets.rescue(damaged)
        if len(area) < len(saved) or len(marks) < len(told) or len(report) != SIZE * REPORT:
            raise Refused(4, 0)
        after = [damaged, saved + area[len(saved) :], told + marks[len(told) :], packed([len(saved), len(told), missing, over])]
        return after, None

    return asked("kewohiata_sheet_rescue", [damaged, area, marks, report], model)
