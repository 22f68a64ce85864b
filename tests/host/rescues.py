"""Requests to rescue a damaged sheet: cut at every byte, spoiled at every byte, counts beyond what is there and below it, areas that fit and that don't, and
every refusal beside a later one. What is saved is read, summed and rescued again."""
import sheets
from calls import REPORT, SIZE, array_nearest, packed, read, rescued
from exact import INFINITY, LENGTH, MAGNITUDE, NAN, ONE, SIGN, Refused
from sequences import turn
from sheets import sheet

LARGE = MAGNITUDE + 1
# what a list refuses, of either sign: NaNs that are quiet and signalling, infinities, the next number beyond 2^1000, the largest; and what it doesn't
BAD = [sign | p for sign in (0, SIGN) for p in (NAN, INFINITY + 1, SIGN - 1, INFINITY, LARGE, INFINITY - 1)]
GOOD = [sign | p for sign in (0, SIGN) for p in (0, 1, 2**52 - 1, 2**52, ONE, MAGNITUDE - 1, MAGNITUDE)]
THREE = [ONE, SIGN | NAN, 0xFE60_0102_0304_0506]
FOUR = [SIGN | LARGE, *THREE]


def saved(data):
    """What the model saves of a sheet: its bytes and marks, none where it is refused."""
    try:
        return sheets.rescue(data)[:2]
    except Refused:
        return b"", b""


def tried(chance, data, longer=0):
    """A rescue to areas with so many bytes behind; and what is saved, read to its own length, summed, and rescued again."""
    area, marks = saved(data)
    request = rescued(data, chance.randbytes(len(area) + longer), chance.randbytes(len(marks) + longer), chance.randbytes(SIZE * REPORT))
    yield request
    if request.code == 0:
        numbers = packed(sheets.read(area))
        many = len(numbers) // SIZE
        again = rescued(area, chance.randbytes(len(area)), chance.randbytes(many), chance.randbytes(SIZE * REPORT))
        taken, summed = read(area, chance.randbytes(len(numbers)), chance.randbytes(SIZE)), array_nearest(numbers, chance.randbytes(SIZE))
        assert again.after == [area, area, bytes(many), packed([len(area), many, 0, 0])], "a saved sheet, rescued again, is another one"
        assert taken.code == summed.code == 0, "a saved sheet or its list is refused"
        yield from (taken, summed, again)


# ---- in every run
def worked():
    """By hand: a good sheet; one cut in its third entry; one with a byte too many, and with none of two counted; a NaN and a number that is too large."""
    whole, three = sheet([ONE, SIGN]), sheet(THREE)
    nan, large = sheet([NAN, ONE], count=3), sheet([LARGE])
    return [
        (whole, whole, b"\0\0", 0, 0),
        (three[:28], sheet([ONE]), b"\0\1", 1, 7),
        (whole + b"\1", whole, b"\0\0", 0, 1),
        (sheet([], count=2), sheet([]), b"", 2, 0),
        (nan, sheet([ONE]), b"\1\0", 1, 0),
        (large, sheet([]), b"\2", 0, 0),
        (sheet([ONE, NAN], count=1), sheet([ONE]), b"\0", 0, 8),
    ]


def rescue_witnesses(chance):
    for data, area, marks, missing, over in worked():
        for request in tried(chance, data, 3):
            yield request
            if request.arrays[0] == data and request.call == "kewohiata_sheet_rescue" and len(request.arrays[1]) > len(area):
                told = request.after[1][: len(area)], request.after[2][: len(marks)], request.after[3]
                assert told == (area, marks, packed([len(area), len(marks), missing, over])), f"{data.hex()}: by hand {area.hex()}"


def sheets_cut(chance):
    """Sheets of three and four, cut at every byte, and longer ones around the ends of entries."""
    for patterns in (THREE, FOUR, [ONE] * 3, BAD[:3]):
        for count in (0, 1, len(patterns) - 1, len(patterns), len(patterns) + 1, LENGTH):
            data = sheet(patterns, count=count)
            for end in range(len(data) + 1):
                yield from tried(chance, data[:end], end % 3)
    for patterns in ([chance.choice(BAD + GOOD) for _ in range(LENGTH)], [ONE] * LENGTH, [LARGE] * LENGTH):
        for gone in (0, 1, 7, 8, 9, 8 * 2047, 8 * 4093, 8 * 4094):
            data = sheet(patterns)
            yield from tried(chance, data[: len(data) - gone])
        yield from tried(chance, sheet(patterns) + chance.randbytes(9), 1)


def bytes_spoiled(chance):
    """A sheet of three with each byte turned to each other value."""
    data = sheet([ONE, 0x7E6F_FFFF_FFFF_FFFF, 0xFEDC_BA98_7654_3210])
    for place in range(len(data)):
        for value in range(256):
            yield from tried(chance, data[:place] + bytes([value]) + data[place + 1 :])


def counts_apart(chance):
    """Counts above what is there, up to the greatest, and below it; above 4,094 they are refused whatever is there."""
    for n in (0, 1, 2, 64, LENGTH - 1, LENGTH, LENGTH + 1):
        patterns = [chance.choice(BAD + GOOD) for _ in range(n)]
        for count in (0, 1, 2, 63, 64, 65, n - 1, n, n + 1, 255, 256, LENGTH - 1, LENGTH, LENGTH + 1, 2**16, 2**24, 2**31, 2**32 - 1):
            yield from tried(chance, sheet(patterns, count=max(count, 0)) + chance.randbytes(chance.choice([0, 0, 1, 7])), chance.choice([0, 1]))


def rescue_areas(chance):
    """Either area exact, a byte short, longer; both short; a report of another length: beside 11, 12 and 1 too."""
    for patterns in ([], [ONE], BAD[:1], THREE, FOUR, [ONE] * 64):
        cut, other, many = sheet(patterns, count=len(patterns) + 1)[:-1], sheet(patterns, version=2), sheet(patterns, count=LENGTH + 1)
        for data in (sheet(patterns), cut, other, many, b"\2\0\0\0", b""):
            area, marks = saved(data)
            for room in sorted({0, 4, 5, max(len(area) - 8, 0), max(len(area) - 1, 0), len(area), len(area) + 1, len(data), 32758}):
                for spots in sorted({0, max(len(marks) - 1, 0), len(marks), len(marks) + 1, 4095}):
                    for report in (REPORT, 0, 3, 5):
                        yield rescued(data, chance.randbytes(room), chance.randbytes(spots), chance.randbytes(SIZE * report))


# ---- at random
def rescues(chance):
    """Random sheets, of which some entries are bad, cut, spoiled, and with another count."""
    for _ in range(20):
        n = chance.choice([0, 1, 2, 3, chance.randint(4, 40), chance.randint(41, 300)])
        patterns = [chance.choice([turn(chance), chance.choice(GOOD), chance.choice(GOOD + BAD)]) for _ in range(n)]
        data = bytearray(sheet(patterns, count=chance.choice([n, n, n + 1, max(n - 1, 0), chance.randint(0, LENGTH), chance.getrandbits(32)])))
        if chance.random() < 0.2:
            data[chance.randrange(len(data))] = chance.getrandbits(8)
        cut = chance.choice([len(data), len(data), chance.randint(0, len(data))])
        yield from tried(chance, bytes(data[:cut]) + chance.randbytes(chance.choice([0, 0, 3, 8])), chance.choice([0, 0, 1, 50]))


FIXED = [rescue_witnesses, sheets_cut, bytes_spoiled, counts_apart, rescue_areas]
DRAWN = [rescues]
