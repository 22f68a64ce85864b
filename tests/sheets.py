#!/usr/bin/env python3
"""Runs the sheet program, crates/sum_sheet/out/sum_sheet, over the sheets of tests/sheets and compares what it prints byte by byte.

    python3 tests/sheets.py          exit status 1 where one differs
    python3 tests/sheets.py --make   writes tests/sheets/NAME.sheet and NAME.out

NAME.sheet is what the program reads and NAME.out what it must print: rule O5's order of refusals is written here, the sums are those of tests/walk.py and
tests/exact.py, and where a line is written by hand beside its sheet the two have to agree. Nothing of the library is used. Each sheet is read as a file and
through a pipe in small pieces, each written when the program has taken the one before, and there are inputs longer than the program's buffer.
"""
import array
import fcntl
import math
import os
import struct
import subprocess
import sys
import termios
import time

sys.dont_write_bytecode = True
import built  # noqa: E402
import command  # noqa: E402
import exact  # noqa: E402
import kit  # noqa: E402
import samples  # noqa: E402
import walk  # noqa: E402
from exact import Refused  # noqa: E402

HERE = os.path.dirname(os.path.abspath(__file__))
FOLDER = os.path.join(HERE, "sheets")
BUFFER = 32758
SECONDS = 60  # within which the program has to end
SIGN, INFINITY, ONE, LIMIT = exact.SIGN, exact.INFINITY, exact.ONE, exact.MAGNITUDE
TOP, TINY = 0x4630000000000000, 0x3CA0000000000000  # 2^100, 2^-53


# ---- rule H1
def sheet(patterns, version=1, count=None):
    header = bytes([version]) + (len(patterns) if count is None else count).to_bytes(4, "big")
    return header + b"".join(pattern.to_bytes(8, "big") for pattern in patterns)


def count_of(data):
    """The count that a sheet's header tells, or the refusal: 11 for fewer than 5 bytes, 12, 1."""
    if len(data) < 5:
        raise Refused(11, 0)
    if data[0] != 1:
        raise Refused(12, 0)
    count = int.from_bytes(data[1:5], "big")
    if count > exact.LENGTH:
        raise Refused(1, 0)
    return count


def read(data):
    """The patterns of a sheet, or the refusal: the header's, then 11, 13."""
    count = count_of(data)
    if len(data) < 5 + 8 * count:
        raise Refused(11, 0)
    if len(data) > 5 + 8 * count:
        raise Refused(13, 0)
    return [int.from_bytes(data[i : i + 8], "big") for i in range(5, len(data), 8)]


# ---- rules H7 to H10
def mark(entry):
    """Of an entry's 8 bytes, as a double: 0 kept, 1 not finite, 2 too large."""
    (x,) = struct.unpack(">d", entry)
    return 1 if not math.isfinite(x) else 2 if abs(x) > 2.0**1000 else 0


def rescue(data):
    """The sheet that is saved of a damaged one, the marks, how many entries are missing and how many bytes lie over; or the header's refusal."""
    count = count_of(data)
    entries = [data[i : i + 8] for i in range(5, len(data), 8)][:count]
    entries = [entry for entry in entries if len(entry) == 8]
    marks = bytes(map(mark, entries))
    kept = [entry for entry, told in zip(entries, marks) if told == 0]
    return b"\1" + len(kept).to_bytes(4, "big") + b"".join(kept), marks, count - len(entries), len(data) - 5 - 8 * len(entries)


def printed(data):
    """What the program prints of its input, of which it reads as much as its buffer holds."""
    try:
        patterns = read(data[:BUFFER])
        near = exact.nearest_sum(patterns)
    except Refused as refused:
        number, place = refused.args
        return f"refused {number} at {place}\n" if number in (2, 3) else f"refused {number}\n"
    told, sum_of, rounds = walk.faithful(patterns, [0] * len(patterns))
    assert told == "done"
    return f"count {len(patterns)}\nfaithful {sum_of:016X} rounds {rounds}\nnearest {near:016X}\n"


# ---- the sheets: a name, the bytes, and what is printed where it is written by hand
def three(count, faithful, rounds, near):
    return f"count {count}\nfaithful {faithful} rounds {rounds}\nnearest {near}\n"


ZEROS = "0" * 16
MINUS = "8" + "0" * 15
UNITY = "3FF" + "0" * 13
RANDOM = samples.filled(4094, 0, samples.seed(7, 1))
LADDER = samples.ladder(4094, 102, 41)

SHEETS = [
    ("example", sheet([TOP, ONE, SIGN + TOP]), three(3, UNITY, 2, UNITY)),
    # lengths
    ("bytes_0", b"", "refused 11\n"),
    ("bytes_1", b"\1", "refused 11\n"),
    ("bytes_4", bytes(4), "refused 11\n"),
    ("bytes_5", sheet([]), three(0, ZEROS, 0, ZEROS)),
    ("bytes_6", sheet([]) + b"\0", "refused 13\n"),
    ("short_by_one", sheet([ONE, ONE])[:-1], "refused 11\n"),
    ("short_by_a_pattern", sheet([ONE], count=2), "refused 11\n"),
    ("long_by_one", sheet([ONE, ONE]) + b"\0", "refused 13\n"),
    ("long_by_a_pattern", sheet([ONE, ONE], count=1), "refused 13\n"),
    # the order of refusals
    ("version_2_alone", b"\2", "refused 11\n"),
    ("version_0", sheet([ONE], version=0), "refused 12\n"),
    ("version_2_too_many", sheet([], version=2, count=2**32 - 1), "refused 12\n"),
    ("too_many_alone", sheet([], count=0x1000), "refused 1\n"),
    ("too_many_by_one", sheet([ONE], count=4095), "refused 1\n"),
    ("too_many_most", sheet([], count=2**32 - 1), "refused 1\n"),
    ("count_little_endian", b"\1\1\0\0\0" + sheet([ONE])[5:], "refused 1\n"),
    ("short_and_nan", sheet([INFINITY], count=2), "refused 11\n"),
    ("long_and_nan", sheet([INFINITY, ONE], count=1), "refused 13\n"),
    # faults of a list
    ("infinity_first", sheet([INFINITY]), "refused 2 at 0\n"),
    ("nan_third", sheet([ONE, SIGN, 0x7FF8000000000001, INFINITY]), "refused 2 at 2\n"),
    ("above_first", sheet([LIMIT + 1]), "refused 3 at 0\n"),
    ("above_second", sheet([ONE, SIGN + LIMIT + 1, INFINITY]), "refused 3 at 1\n"),
    ("fault_at_10", sheet([ONE] * 10 + [SIGN + INFINITY - 1, INFINITY]), "refused 3 at 10\n"),
    ("fault_last", sheet([LIMIT] * 4093 + [SIGN + INFINITY]), "refused 2 at 4093\n"),
    # sums
    ("one", sheet([ONE]), three(1, UNITY, 1, UNITY)),
    ("minus_zeros", sheet([SIGN, SIGN]), three(2, MINUS, 0, MINUS)),
    ("both_zeros", sheet([SIGN, 0]), three(2, ZEROS, 0, ZEROS)),
    ("cancelled", sheet([ONE, SIGN + ONE]), three(2, ZEROS, 1, ZEROS)),
    ("tie", sheet([ONE, TINY]), three(2, UNITY, 1, UNITY)),
    ("faithful_not_nearest", sheet([ONE, TINY, 1]), three(3, UNITY, 1, "3FF0000000000001")),
    ("two_units", sheet([1, 1]), three(2, "0000000000000002", 1, "0000000000000002")),
    ("negative", sheet([SIGN + ONE, SIGN + TINY, SIGN + 1]), three(3, "BFF" + "0" * 13, 1, "BFF0000000000001")),
    ("limits", sheet([LIMIT, LIMIT]), three(2, "7E8" + "0" * 13, 1, "7E8" + "0" * 13)),
    ("all_digits", sheet([0x0123456789ABCDEF]), three(1, "0123456789ABCDEF", 1, "0123456789ABCDEF")),
    ("subnormals", sheet([0xFEDCBA987654F, SIGN + 0x123456789ABCD] * 5), None),
    ("ten_numbers", sheet(samples.filled(10, 5, samples.seed(7, 2))), None),
    ("numbers_65", sheet(samples.cancelling(65, 0, *[samples.seed(7, 3)] * 3)), None),
    ("numbers_1000", sheet(samples.filled(1000, 0, samples.seed(7, 4))), None),
    ("numbers_4094", sheet(RANDOM), None),
    # the longest lines: 4 digits of count and 2 of rounds
    ("rounds_51", sheet(LADDER), three(4094, "0000000000000001", 51, "0000000000000001")),
]

# longer than the buffer: how many bytes, what they begin with, and what is printed
LONGER = [
    (BUFFER, sheet(RANDOM), "refused 13\n"),
    (BUFFER + 1, sheet(RANDOM), "refused 13\n"),
    (40000, sheet([ONE]), "refused 13\n"),
    (40000, b"\2", "refused 12\n"),
    (200000, sheet(RANDOM), "refused 13\n"),
    (200000, sheet([], count=4095), "refused 1\n"),
]


# ---- running the program
def started(stdin):
    words = [*kit.run_prefix(), built.SHEET_PROGRAM.path]
    return subprocess.Popen(words, stdin=stdin, stdout=subprocess.PIPE, stderr=subprocess.PIPE, cwd=FOLDER)


def ended(process, data=None):
    """What the program printed; where it failed, or had to be stopped, more than that."""
    try:
        out, err = process.communicate(data, timeout=SECONDS)
    except subprocess.TimeoutExpired:
        process.kill()
        out, err = process.communicate()
    return out if process.returncode == 0 and not err else (process.returncode, out, err)


def from_file(path):
    with open(path, "rb") as stdin:
        return ended(started(stdin))


def waiting(pipe):
    """How many bytes of a pipe nobody has read yet."""
    count = array.array("i", [0])
    fcntl.ioctl(pipe, termios.FIONREAD, count)
    return count[0]


def in_pieces(data, size):
    """Through a pipe, each piece when the program has taken the one before. A program that has read enough may have ended before the last."""
    process, limit = started(subprocess.PIPE), time.monotonic() + SECONDS
    try:
        for i in range(0, len(data), size):
            while waiting(process.stdin) and process.poll() is None:
                if time.monotonic() > limit:
                    process.kill()
                time.sleep(0.0005)
            os.write(process.stdin.fileno(), data[i : i + size])
    except BrokenPipeError:
        pass
    return ended(process)


def at_once(data):
    return ended(started(subprocess.PIPE), data)


def piece(length):
    """Neither 7 nor 997 divides the header or a pattern; the shortest sheets, of which 7 bytes would be most, come byte by byte."""
    return 1 if length < 64 else 7 if length < 1000 else 997


# ---- the check
DIFFERENCES = []


def same(name, got, expected):
    """Whether the program printed what it must; where not, it is a difference."""
    if got != expected:
        DIFFERENCES.append((name, got, expected))
    return got == expected


def flipped(data, i):
    return data[:i] + bytes([data[i] ^ 1]) + data[i + 1 :]


def notices(name, got, expected):
    """A test that can't fail shows nothing: each byte of the expected lines turned, and one more or less, has to be a difference."""
    before = len(DIFFERENCES)
    wrong = [flipped(expected, i) for i in range(len(expected))] + [expected[:-1], expected + b"\n"]
    noticed = sum(not same(name, got, other) for other in wrong)
    del DIFFERENCES[before:]
    if noticed != len(wrong):
        DIFFERENCES.append((name, "a wrong line passed", noticed, len(wrong)))


def held(name):
    """What the two files of a sheet hold."""
    with open(os.path.join(FOLDER, name + ".sheet"), "rb") as data, open(os.path.join(FOLDER, name + ".out"), "rb") as lines:
        return data.read(), lines.read()


def check_sheet(name, data, by_hand):
    expected = printed(data).encode()
    same(name + ": by hand", expected, (by_hand or expected.decode()).encode())
    same(name + ": the files", held(name), (data, expected))
    got = from_file(os.path.join(FOLDER, name + ".sheet"))
    same(name + ": from a file", got, expected)
    notices(name, got, expected)
    same(name + ": in pieces", in_pieces(data, piece(len(data))), expected)


def check_longer(length, start, expected):
    data = (start + bytes(length))[:length]
    same(f"{length} bytes", printed(data), expected)
    same(f"{length} bytes at once", at_once(data), expected.encode())
    same(f"{length} bytes in pieces", in_pieces(data, 4999), expected.encode())


def make():
    os.makedirs(FOLDER, exist_ok=True)
    for name, data, by_hand in SHEETS:
        lines = printed(data)
        assert by_hand in (None, lines), (name, lines)
        for suffix, content in ((".sheet", data), (".out", lines.encode())):
            with open(os.path.join(FOLDER, name + suffix), "wb") as f:
                f.write(content)
    print(f"sheets: {len(SHEETS)} made")
    return 0


def main():
    if command.asked(__doc__, ["--make"]):
        return make()
    try:
        built.need(built.SHEET_PROGRAM)
    except command.Trouble as trouble:
        print(f"sheets: {trouble}")
        return 1
    names = {name for name, _, _ in SHEETS}
    same("the folder", set(os.listdir(FOLDER)), {name + suffix for name in names for suffix in (".sheet", ".out")})
    for entry in SHEETS:
        check_sheet(*entry)
    for entry in LONGER:
        check_longer(*entry)
    example, lines = held("example")
    for i in range(len(example)):
        if at_once(flipped(example, i)) == lines:
            DIFFERENCES.append(("example", "a byte that the program doesn't read", i))
    for difference in DIFFERENCES[:9]:
        print("sheets:", *difference)
    print(f"sheets: {len(SHEETS)} sheets, {len(LONGER)} inputs longer than the buffer; {len(DIFFERENCES)} differences")
    return 1 if DIFFERENCES else 0


if __name__ == "__main__":
    sys.exit(main())
