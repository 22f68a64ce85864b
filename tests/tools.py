#!/usr/bin/env python3
"""Holds tools/sheet to the scope's sheets and to exact fractions, and the sheets of examples/ to their texts. Needs nothing built.

    python3 tests/tools.py        exit status 1 on a difference

The other side is tests/sheets.py, which writes sheets by its own hand, and the expected output of the sheet program in tests/sheets/*.out.
"""
import fractions
import math
import os
import random
import re
import subprocess
import sys

sys.dont_write_bytecode = True
import command  # noqa: E402
import sheets  # noqa: E402
import walk  # noqa: E402

ROOT = os.path.dirname(sheets.HERE)
TOOL = os.path.join(ROOT, "tools", "sheet")
EXAMPLES = os.path.join(ROOT, "examples")
HALF_UNIT = fractions.Fraction(1, 2**1075)

DIFFERENCES = []
COUNTS = {"checks": 0, "noticed": 0}


def expect(name, held, *more):
    COUNTS["checks"] += 1
    if not held:
        DIFFERENCES.append((name, *more))
    return held


def ran(*words, stdin=b""):
    """The status, standard output and standard error of the tool. A traceback is never an answer."""
    ended = subprocess.run([sys.executable, TOOL, *words], input=stdin, capture_output=True, check=False)
    expect("no traceback", b"Traceback" not in ended.stderr and ended.returncode in (0, 1, 2), words, ended.stderr)
    return ended.returncode, ended.stdout, ended.stderr.decode()


# ---- make
def made(texts):
    """The patterns of the sheet that make answers, given as words and as lines; the two have to be the same."""
    words = ran("make", *texts)
    lines = ran("make", stdin="\n".join(f" {text}  # a comment 7" for text in texts).encode())
    expect("words and lines", words[:2] == lines[:2] and words[0] == 0, texts[:3], words[0], words[2], lines[2])
    expect("what is said of them", re.sub(r"line \d+: ", "", lines[2]) == words[2], words[2], lines[2])
    patterns = sheets.read(words[1])
    expect("sheet", words[1] == sheets.sheet(patterns), texts[:3])
    return patterns


def is_nearest(pattern, exact):
    """Whether no double is nearer to an exact number below the largest double, ties to the even pattern; the sign of a zero is the number's."""
    size, low = abs(exact) * 2**1074, pattern % sheets.SIGN
    below, here, above = (walk.units(p) if p >= 0 else -math.inf for p in (low - 1, low, low + 1))
    near = [abs(size - other) for other in (below, above)]
    distance = abs(size - here)
    return distance < min(near) or (distance == min(near) and low % 2 == 0)


def numbers(chance, n):
    """Patterns of finite doubles over the whole range, with the ends among them."""
    ends = [0, 1, 2, 2**52 - 1, 2**52, 2**52 + 1, sheets.ONE, sheets.LIMIT, sheets.INFINITY - 1]
    some = [p | s for p in ends for s in (0, sheets.SIGN)]
    return some + [chance.randrange(sheets.INFINITY) | chance.getrandbits(1) << 63 for _ in range(n)]


def check_round_trips(chance):
    """Each double in decimal, in hexadecimal and as its pattern is read back."""
    patterns = numbers(chance, 400)
    doubles = [walk.double(p) for p in patterns]
    for name, texts in (
        ("decimal", [repr(x) for x in doubles]),
        ("17 digits", [f"{x:.16e}" for x in doubles]),
        ("hexadecimal", [x.hex() for x in doubles]),
        ("capitals", [x.hex().upper() for x in doubles]),
        ("pattern", [f"pattern:{p:016X}" for p in patterns]),
        ("small letters", [f"pattern:{p:016x}" for p in patterns]),
    ):
        got = made(texts)
        expect(f"round trip: {name}", got == patterns, next(((t, p, q) for t, p, q in zip(texts, patterns, got) if p != q), len(got)))


def check_rounding(chance):
    """Numbers between two doubles: the middle, and a little to either side, exactly in decimal and in hexadecimal."""
    texts, exact = [], []
    for p in numbers(chance, 40):
        low = p % sheets.SIGN
        if low < sheets.INFINITY - 1:
            middle = (walk.units(low) + walk.units(low + 1)) * HALF_UNIT
            for x in (middle, middle - HALF_UNIT / 2**40, middle + HALF_UNIT / 2**40):
                sign = -1 if p & sheets.SIGN else 1
                whole, digits = x * 2**1120, 1120
                assert whole.denominator == 1
                texts += [f"{'-' if sign < 0 else ''}0x{whole.numerator:x}p-{digits}", f"{'-' if sign < 0 else '+'}{whole.numerator * 5**digits}e-{digits}"]
                exact += [sign * x] * 2
    got = made(texts)
    for text, x, pattern in zip(texts, exact, got):
        expect("nearest", is_nearest(pattern, x) and (pattern >= sheets.SIGN) == (x < 0), text[:40], f"{pattern:016X}")
    wrong = [(x, pattern ^ 1) for x, pattern in zip(exact, got)]
    COUNTS["noticed"] += sum(expect("a neighbour is noticed", not is_nearest(pattern, x), f"{pattern:016X}") for x, pattern in wrong)


def check_words():
    for texts, patterns in (
        ([], []),
        (["1", "-1", "+1", ".5", "5.", "1E2", "0x.8", "0XAP1", "-0"], [walk.bits(x) for x in (1.0, -1.0, 1.0, 0.5, 5.0, 100.0, 0.5, 20.0, -0.0)]),
        (["1e-400", "-1e-400", "0x1p-9999999999999999999999", "0e999999"], [0, sheets.SIGN, 0, 0]),
        (["inf", "-Infinity", "nan"], [sheets.INFINITY, sheets.SIGN + sheets.INFINITY, 0x7FF8000000000000]),
    ):
        expect("words", made(texts) == patterns, texts)
    expect("4,094 numbers", made(["1"] * 4094) == [sheets.ONE] * 4094)


def check_texts():
    """Comments of any bytes, a byte order mark, ends of lines of every kind, and words across the pieces in which a text is read."""
    for text, patterns in (
        ("\ufeff# Z\u00fcrich \u2013 N\u00ba 3\n1 # \u4e00\n2".encode(), [1.0, 2.0]),
        (b"1 # \xff\xfe no UTF-8\n2#3\n", [1.0, 2.0]),
        (b"1 # a\r\n2 # b\r3 # c\n4", [1.0, 2.0, 3.0, 4.0]),
        (b"\t1\x0c2\xc2\xa03", [1.0, 2.0, 3.0]),
        (b"#" * 65530 + b"\n" + b"12345.75 " * 4, [12345.75] * 4),
        (b"1#" + b"x" * 200000 + b"\n2", [1.0, 2.0]),
        (b"\n" * 65535 + b"0x1.8p+1", [3.0]),
    ):
        status, out, said = ran("make", stdin=text)
        expect("text", (status, out, said) == (0, sheets.sheet([walk.bits(x) for x in patterns]), ""), text[:40], status, out[:40], said)


def check_lines():
    """The line of a bad word."""
    for text, line in ((b"abc", 1), (b"1\n2\n\n3 # 4\n 5 6x 7\n", 5), (b"# \xc3\xa4\r\n1\r\n--1\r\n", 3), (b"1\n\xff2\n", 2), (b"1\n1e400", 2)):
        status, out, said = ran("make", stdin=text)
        expect("line", (status, out) == (2, b"") and said.startswith(f"tools/sheet: line {line}: ") and said.count("\n") == 1, text, said)


def check_zeros():
    """A number that isn't zero and becomes zero is told, and one that is zero or doesn't is not."""
    for texts, count, first in (
        (["1e-330"], 1, "1e-330"),
        (["0", "-0.0", "0e5", "0x0p3", "0e-400", "0x.0p-9999", "pattern:0000000000000000", "pattern:8000000000000000", "4.9e-324", "0x1p-1074"], 0, ""),
        (["1", "-0.001e-330", "0x.Fp-1100", "1e-324"], 3, "-0.001e-330"),
    ):
        status, out, said = ran("make", *texts)
        told = f"{count} of the numbers became zero" in said and said.rstrip().endswith(f"the first is {first}") if count else said == ""
        expect("zeros", status == 0 and len(out) == 5 + 8 * len(texts) and told, texts, said)
    said = ran("make", stdin=b"1\n2 1e-330\n")[2]
    expect("the line of a zero", said.endswith("the first is line 2: 1e-330\n"), said)


def check_long():
    """A list that is too long is told at once: of an input without end too, on many lines or on one."""
    for words in (["1"] * 4095, ["nan"] * 5000):
        status, out, said = ran("make", *words)
        expect("4,095 words", (status, out) == (2, b"") and "at most 4094 numbers" in said and said.count("\n") == 1, status, said)
    for piece, line in ((b"1\n", 4095), (b"1 ", 1), (b"#\n1\n\n", 12284)):
        with subprocess.Popen([sys.executable, TOOL, "make"], stdin=subprocess.PIPE, stdout=subprocess.PIPE, stderr=subprocess.PIPE) as process:
            try:
                for _ in range(1000):  # megabytes more than a pipe holds: it has to stop reading
                    process.stdin.write(piece * 20000)
                stopped = False
            except BrokenPipeError:
                stopped = True
            process.stdin = None
            out, said = process.communicate(timeout=60)
        told = said.decode().startswith(f"tools/sheet: line {line}: a list has at most 4094 numbers")
        expect("without end", stopped and (process.returncode, out) == (2, b"") and told, piece, stopped, said)


def check_help():
    for words in (["--help"], ["make", "--help"], ["show", "--help"], ["make", "-h", "1"], ["show", "x", "-h"]):
        status, out, said = ran(*words)
        expect("help", status == 0 and out.startswith(b"Makes a contribution sheet") and said == "", words, status, said)


def check_closed():
    """Closed or full outputs and a closed input are trouble, in one line."""
    for redirect, words in (("<&-", "make"), ("<&-", "show -"), (">&-", "make 1"), (">&-", f"show {sheets.FOLDER}/example.sheet"), (">/dev/full", "make 1")):
        line = f"exec '{sys.executable}' '{TOOL}' {words} {redirect}"
        ended = subprocess.run(["bash", "-c", line], stdin=subprocess.DEVNULL, capture_output=True, check=False)
        expect("closed", ended.returncode == 2 and ended.stderr.startswith(b"tools/sheet: ") and ended.stderr.count(b"\n") == 1, line, ended)


def check_trouble():
    bad = ["abc", "0x", "1_0", "1e", "1.2.3", "--1", "0x1.8p", "pattern:7FF", "pattern:7FF000000000000G", "7FF0000000000000G"]
    bad += ["1e400", "-0x1p1024", "", "１", "1,5"]
    calls = [(["make", "1", word], b"") for word in bad] + [(["make"], word.encode()) for word in bad if word] + [(["make"], b"1\n\xff\n")]
    calls += [(words, b"") for words in ([], ["sum"], ["show"], ["show", "a", "b"], ["show", "no such file"], ["show", ROOT], ["show", ""])]
    for words, stdin in calls:
        status, out, said = ran(*words, stdin=stdin)
        expect("trouble", (status, out) == (2, b"") and said.startswith("tools/sheet: ") and said.count("\n") == 1, words, stdin, status, out, said)


# ---- show
def told(data, name="-"):
    """What show says of a sheet: its status and its lines."""
    status, out, said = ran("show", name, stdin=data)
    expect("nothing on standard error", said == "", said)
    return status, out.decode().splitlines()


def is_shown(status, lines, data, printed):
    """Whether show's lines say what the program prints of the sheet, and the numbers that it has."""
    first, *_ = printed.splitlines()
    refused = first.startswith("refused")
    if status != (1 if refused else 0) or (refused and lines[-1].split(":")[0] != first) or len(lines[-1].split(": ")) > 2:
        return False
    try:
        patterns = sheets.read(data[: sheets.BUFFER])
    except sheets.Refused:
        return len(lines) == 1
    numbers_shown = lines[1:-1] if refused else lines[1:]
    wanted = [[str(place), f"{p:016X}", repr(walk.double(p))] for place, p in enumerate(patterns)]
    faults = [walk.refusal([p], [0]) for p in patterns]
    marks = [[f"refused {fault[1]}"] if fault else [] for fault in faults]
    got = [line.split("  refused ") for line in numbers_shown]
    return (
        lines[0] == f"count {len(patterns)}"
        and [parts[0].split() for parts in got] == wanted
        and [[f"refused {part.split(':')[0]}" for part in parts[1:]] for parts in got] == marks
        and (not refused) == (not any(marks))
    )


def check_sheets():
    for name, _, _ in sheets.SHEETS:
        data, printed = sheets.held(name)
        status, lines = told(b"", os.path.join(sheets.FOLDER, name + ".sheet"))
        expect(f"show {name}", is_shown(status, lines, data, printed.decode()), status, lines[:3], lines[-1:])
    for length, start, printed in sheets.LONGER:
        data = (start + bytes(length))[:length]
        expect(f"show {length} bytes", is_shown(*told(data), data, printed))


def check_notices():
    """A test that can't fail shows nothing: show's lines of one sheet must not pass for those of another, nor with a character turned."""
    data, printed = sheets.held("above_second")
    status, lines = told(data)
    expect("standard input", (status, lines) == told(b"", os.path.join(sheets.FOLDER, "above_second.sheet")))
    for i in range(len(data)):
        COUNTS["noticed"] += expect("another sheet is noticed", told(sheets.flipped(data, i)) != (status, lines), i)
    for k, line in enumerate(lines):
        for i in (j for j in range(len(line.split(": ")[0])) if line[j] != " "):
            turned = lines[:k] + [line[:i] + chr(ord(line[i]) ^ 1) + line[i + 1 :]] + lines[k + 1 :]
            COUNTS["noticed"] += expect("a turned character is noticed", not is_shown(status, turned, data, printed.decode()), turned[k])
    for other in (1 - status, 2):
        COUNTS["noticed"] += expect("another status is noticed", not is_shown(other, lines, data, printed.decode()), other)


# ---- examples
def check_examples():
    """Each sheet of examples/ is what make makes of its text."""
    names = sorted(os.listdir(EXAMPLES))
    texts = {name[:-4] for name in names if name.endswith(".txt")}
    expect("examples", texts and texts == {name[:-6] for name in names if name.endswith(".sheet")}, names)
    for name in sorted(texts):
        with open(os.path.join(EXAMPLES, name + ".txt"), "rb") as text, open(os.path.join(EXAMPLES, name + ".sheet"), "rb") as sheet:
            expect(f"examples/{name}", ran("make", stdin=text.read())[1] == sheet.read())


def main():
    command.asked(__doc__)
    chance = random.Random(1)
    check_round_trips(chance)
    check_rounding(chance)
    check_words()
    check_texts()
    check_lines()
    check_zeros()
    check_long()
    check_help()
    check_closed()
    check_trouble()
    check_sheets()
    check_notices()
    check_examples()
    for difference in DIFFERENCES[:9]:
        print("tools:", *(str(part)[:300] for part in difference))
    print(f"tools: {COUNTS['checks']} checks, {COUNTS['noticed']} wrong answers noticed, {len(DIFFERENCES)} differences")
    return 1 if DIFFERENCES else 0


if __name__ == "__main__":
    sys.exit(main())
