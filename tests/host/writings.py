"""Requests to write a list as a sheet: what is written is read back, every refusal stands beside a later one, and tools/sheet makes the same bytes."""
import os
import subprocess
import sys

from calls import SIZE, packed, read, written
from exact import INFINITY, LENGTH, NAN, ONE, ONES, SIGN
from sequences import turn
from sheets import sheet

TOOL = os.path.join(os.path.dirname(os.path.abspath(__file__)), "..", "..", "tools", "sheet")
HEADER = 5
# NaNs that are signalling, quiet, with a sign, with every payload's end; infinities, both zeros, the ends of the subnormals, and eight bytes that all differ
STRANGE = [INFINITY + 1, SIGN | INFINITY + 1, NAN, SIGN | NAN, NAN | 0xDEADBEEF, INFINITY | 0x4000000000001, SIGN - 1, ONES, INFINITY, SIGN | INFINITY]
STRANGE += [0, SIGN, 1, SIGN | 1, 2**52 - 1, 2**52, 0x0102030405060708, 0xF8E7D6C5B4A39281]
COUNTS = [0, 1, 2, 64, 65, 255, 256, 257, 515, LENGTH - 1, LENGTH]


def size_of(patterns):
    return HEADER + SIZE * len(patterns)


def written_and_read(chance, patterns, longer):
    """A list written to an area with so many bytes behind, and the sheet read back to an area with some places behind."""
    yield written(packed(patterns), chance.randbytes(size_of(patterns) + longer), chance.randbytes(SIZE))
    yield read(sheet(patterns), chance.randbytes(SIZE * (len(patterns) + longer % 3)), chance.randbytes(SIZE))


# ---- in every run
def sheets_written(chance):
    """Lists of any patterns, in areas that fit and longer ones, whose bytes behind have to stay."""
    lists = [STRANGE, *([p] for p in STRANGE)] + [[turn(chance) for _ in range(n)] for n in COUNTS] + [[ONE] * n for n in COUNTS]
    lists += [[chance.choice(STRANGE) for _ in range(n)] for n in COUNTS]
    for patterns in lists:
        for longer in (0, 1, 7, 8, 1000):
            yield from written_and_read(chance, patterns, longer)


def write_refusals(chance):
    """1, also where the area is too short or the values have another length; 4 for either, and only where the area is shorter."""
    for n in (0, 1, 2, 64, LENGTH - 1, LENGTH, LENGTH + 1, LENGTH + 2, 5000):
        data = packed([chance.choice(STRANGE) for _ in range(n)])
        fits = HEADER + len(data)
        for room in sorted({0, 1, 4, 5, 6, max(fits - 8, 0), fits - 1, fits, fits + 1, fits + 8, 32756, 32757, 32758}):
            for values in (1, 0, 2, 5):
                yield written(data, chance.randbytes(room), chance.randbytes(SIZE * values))


def made(patterns):
    """What tools/sheet makes of a list."""
    text = "\n".join(f"pattern:{pattern:016X}" for pattern in patterns)
    return subprocess.run([sys.executable, TOOL, "make"], input=text.encode(), capture_output=True, check=True).stdout


def as_the_tool(chance):
    """The library writes the bytes that tools/sheet makes of the same list."""
    for n in (0, 1, 64, 258, LENGTH):
        patterns = (STRANGE + [turn(chance) for _ in range(LENGTH)])[:n]
        request, bytes_of = written(packed(patterns), chance.randbytes(size_of(patterns) + 3), chance.randbytes(SIZE)), made(patterns)
        yield request._replace(after=[request.arrays[0], bytes_of + request.arrays[1][len(bytes_of) :], packed([len(bytes_of)])])


# ---- at random
def writings(chance):
    for _ in range(20):
        n = chance.choice([0, 1, 2, 3, 64, chance.randint(4, 40), chance.randint(41, 600)])
        patterns = [chance.choice([turn(chance), chance.choice(STRANGE)]) for _ in range(n)]
        yield from written_and_read(chance, patterns, chance.choice([0, 0, 1, 2, chance.randint(3, 99)]))
        room = max(size_of(patterns) + chance.choice([-9, -8, -1, 0, 1]), 0)
        yield written(packed(patterns), chance.randbytes(room), chance.randbytes(SIZE * chance.choice([1] * 4 + [0, 2])))


FIXED = [sheets_written, write_refusals, as_the_tool]
DRAWN = [writings]
