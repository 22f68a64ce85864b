#!/usr/bin/env python3
"""include/kewohiata.h as compilers take it, and the calls in every floating-point environment of x86-64.

    python3 tests/environment.py        exit status 1 on a difference

The header is compiled as C99 and C++11 by the kit's compiler, and by gcc and g++ where they are, with every warning an error; its names are held to numbers
written here. Then tests/host/environment.c is built unoptimised, optimised and with fast mathematics, and asked in each environment: kewohiata_environment
has to say yes to round to nearest with subnormals and no to every other, and the calls on whole numbers have to answer what exact integers do in all of them.
That the sums of the walk, at both widths, and the products of pairs, are wrong in some is shown too: it is why the question is there. Under gcc's -Ofast the
program starts in such an environment.
"""
import itertools
import os
import re
import random
import shutil
import struct
import subprocess
import sys

sys.dont_write_bytecode = True
import built  # noqa: E402
import command  # noqa: E402
import exact  # noqa: E402
import farewell  # noqa: E402
import grades  # noqa: E402
import kit  # noqa: E402
import samples  # noqa: E402
import weighted  # noqa: E402
import widths  # noqa: E402

ROOT = built.ROOT
PLACE = os.path.join(ROOT, "target", "environment")
SOURCE = os.path.join(ROOT, "tests", "host", "environment.c")
WARNINGS = ["-Wall", "-Wextra", "-pedantic", "-Werror"]

# the control word: bits 13 and 14 the direction, 15 flush-to-zero, 6 denormals-as-zero; 0x1F80 masks every exception
USUAL, DOWN, UP, FLUSH, ZEROED = 0x1F80, 0x2000, 0x4000, 0x8000, 0x40
ENVIRONMENTS = {
    "as usual": USUAL,
    "with flags raised": USUAL | 0x3F,
    "downward": USUAL | DOWN,
    "upward": USUAL | UP,
    "towards zero": USUAL | DOWN | UP,
    "flush-to-zero": USUAL | FLUSH,
    "denormals-as-zero": USUAL | ZEROED,
    "both": USUAL | FLUSH | ZEROED,
    "both, upward": USUAL | UP | FLUSH | ZEROED,
}
GOOD = {"as usual", "with flags raised"}
ENVIRONMENT, NEAREST, ADD, WITHDRAW, FAITHFUL, LIST_NEAREST, WORDS_ROUND, PARTS, WALK, READ, HAND_ON, WRITE, MERGE, GRADE, STEP, RESCUE, PAIRED, LANED = range(18)
SINGLE_NEAREST, SINGLE_FAITHFUL, SINGLE_WALK, SINGLE_STEP = range(18, 22)

LISTS = 150
SUBNORMAL = 0x36EB6  # at both widths
WEIGHTS = [0x3E28000000000000, 0, 0x3E10000000000000, 0x3E10000000000000, 0x3FEFFFFFFD800000]  # those of tests/host/environment.c

# the header's names: a refusal's number, a length, a place in a walk's ten numbers, the version
NAMES = {
    "TOO_MANY": 1, "NOT_FINITE": 2, "TOO_LARGE": 3, "WRONG_LENGTH": 4, "WRONG_PARTS": 5, "NO_SUCH_BLOCK": 6, "BLOCK_NOT_PENDING": 7, "UNSOUND_NUMBERS": 8,
    "REGISTER_FULL": 9, "NO_FINITE_DOUBLE": 10, "SHEET_TOO_SHORT": 11, "OTHER_VERSION": 12, "SHEET_TOO_LONG": 13, "NOT_A_WEIGHT": 14,
    "WRONG_TOTAL": 15, "NO_SUCH_CLOCK": 16, "NO_OTHER_WEIGHT": 17, "UNSOUND_SET": 18, "UNSOUND_WORK": 19, "CLAIM_NOT_FINITE": 20,
    "OTHER_ENSEMBLE": 21, "LENGTHS_DIFFER": 22, "FACTOR_OUTSIDE": 23, "TOO_MANY_CALLS": 24, "NO_ROOM": 25, "LANES": 66, "CALLS_MOST": 2**30,
    "GRADE_EXACT": 0, "GRADE_NEAREST": 1, "GRADE_FAITHFUL": 2, "GRADE_WRONG": 3, "LIST_MOST": 4094, "LIST_BYTES_MOST": 32752, "PAIRS_MOST": 2047,
    "BLOCK": 64, "STATE": 10, "FAITHFUL": 2, "VALUE": 1, "SUM_BYTES": 16, "WORDS": 33, "REGISTER_BYTES": 264, "PARTS_MOST": 8,
    "SINGLES_MOST": 2046, "SINGLE_ROUNDS_MOST": 20, "ROUNDS_MOST": 51, "SHEET_HEADER": 5, "SHEET_BYTES_MOST": 32757, "ACCEPTED": 0, "MORE": 1,
    "DONE": 2, "STATE_KIND": 0, "STATE_SIGMA": 1, "STATE_T": 2,
    "STATE_TAU": 3, "STATE_N": 4, "STATE_PENDING": 5, "STATE_ROUNDS": 6, "STATE_ENSEMBLE": 7, "STATE_LARGEST": 8, "STATE_TOLD": 9, "DONE_SUM": 1,
    "DONE_ROUNDS": 2, "VERSION_MAJOR": 0, "VERSION_MINOR": 13, "VERSION_PATCH": 0, "REPORT": 4, "REPORT_WRITTEN": 0, "REPORT_TAKEN": 1, "REPORT_MISSING": 2,
    "REPORT_OVER": 3, "MARK_KEPT": 0, "MARK_NOT_FINITE": 1, "MARK_TOO_LARGE": 2,
}  # fmt: skip

DIFFERENCES = []
WRONG = {width: f"wrong {width.name} sums of the walk" for width in (widths.DOUBLES, widths.SINGLES)}
COUNTS = {"compilations": 0, "answers": 0, **{wrong: 0 for wrong in WRONG.values()}, "wrong products": 0}


def expect(name, held, *more):
    if not held:
        DIFFERENCES.append((name, *more))
    return held


# ---- the header
def uses():
    """A text that includes the header twice, and asks every name and helper for what it is: an array of a wrong number of places is an error."""
    lines = ['#include "kewohiata.h"', '#include "kewohiata.h"', "int main(void)", "{"]
    asked = {f"KEWOHIATA_{name} == {number}": name for name, number in NAMES.items()}
    asked["sizeof KEWOHIATA_VERSION == 7"] = "VERSION"
    lines += [f"    typedef char is_{name}[{condition} ? 1 : -1];" for condition, name in asked.items()]
    lines += [f"    (void)sizeof(is_{name});" for name in asked.values()]
    for condition in (
        "kewohiata_pattern(-1.5) == 0xBFF8000000000000u",
        "kewohiata_pattern(kewohiata_double(0x36EB6)) == 0x36EB6",
        "kewohiata_single_pattern(-1.5f) == 0xBFC00000u",
        "kewohiata_single_pattern(kewohiata_single(0x36EB6)) == 0x36EB6",
        "kewohiata_refusal(0) == KEWOHIATA_ACCEPTED && !kewohiata_tells_place(0)",
        "kewohiata_refusal(4) == KEWOHIATA_WRONG_LENGTH && !kewohiata_tells_place(4)",
        "kewohiata_refusal(34) == KEWOHIATA_NOT_FINITE && kewohiata_tells_place(34) && kewohiata_place(34) == 0",
        "kewohiata_refusal(131011) == KEWOHIATA_TOO_LARGE && kewohiata_place(131011) == 4093",
        "kewohiata_refusal(131022) == KEWOHIATA_NOT_A_WEIGHT && kewohiata_place(131022) == 4093",
        "kewohiata_refusal(131027) == KEWOHIATA_UNSOUND_WORK && kewohiata_place(131027) == 4093",
        "kewohiata_blocks(0) == 0 && kewohiata_blocks(1) == 1 && kewohiata_blocks(64) == 1 && kewohiata_blocks(65) == 2 && kewohiata_blocks(4094) == 64",
        "kewohiata_environment()",
    ):
        lines += [f"    if (!({condition}))", "        return 1;"]
    return "\n".join([*lines, "    return 0;", "}", ""])


def compiled(words):
    done = subprocess.run(words, stdout=subprocess.PIPE, stderr=subprocess.STDOUT, text=True, check=False)
    COUNTS["compilations"] += 1
    return expect(" ".join(words), done.returncode == 0, done.stdout)


def check_header():
    with open(os.path.join(kit.INCLUDE, "kewohiata.h"), encoding="utf-8") as f:
        named = set(re.findall(r"KEWOHIATA_(\w+) = ", f.read()))
    expect("the header has these names and no other", named == set(NAMES), sorted(named ^ set(NAMES)))
    for name, language in (("header.c", ["-std=c99"]), ("header.cc", ["-std=c++11"]), ("header.c", ["-std=c11"]), ("header.cc", ["-std=c++17"])):
        source, program = os.path.join(PLACE, name), os.path.join(PLACE, "header")
        with open(source, "w", encoding="utf-8") as f:
            f.write(uses())
        for target in ("x86_64", "aarch64"):
            own = [kit.clang(), f"--target={target}-unknown-linux-gnu", *language, "-isystem", kit.HEADERS]
            compiled([*own, *WARNINGS, "-I", kit.INCLUDE, "-c", source, "-o", program + ".o"])
        compiler = shutil.which("g++" if name.endswith("cc") else "gcc")
        for level in ("-O0", "-O2") if compiler else ():
            if compiled([compiler, *language, level, *WARNINGS, "-I", kit.INCLUDE, source, "-o", program]):
                expect(f"{name} by {compiler} {level}", subprocess.run([program], check=False).returncode == 0)


# ---- the program
def programs(archive):
    """A name, the program, and the words before its path: by the kit's compiler, and by gcc on x86-64 where there is one."""
    for name, words in (("O0", ["-O0"]), ("O2", ["-O2"]), ("fast", ["-O3", "-ffast-math"])):
        program = os.path.join(PLACE, f"kit-{name}")
        if all([compiled(one) for one in kit.c_commands(SOURCE, [archive], program, "-pedantic", *words)]):
            yield f"the kit's compiler, {' '.join(words)}", program, kit.run_prefix()
    if shutil.which("gcc"):
        for level in ("-O0", "-O2", "-Ofast"):
            program = os.path.join(PLACE, f"gcc{level}")
            if compiled(["gcc", "-std=c99", level, *WARNINGS, "-I", kit.INCLUDE, SOURCE, archive, "-o", program]):
                yield f"gcc {level}", program, []


def answers(program, prefix, requests):
    """Of each request, control word, call and list, the control word afterwards, the code and 33 values."""
    wires = b"".join(struct.pack(f"<{3 + len(numbers)}Q", control, call, len(numbers), *numbers) for control, call, numbers in requests)
    done = subprocess.run([*prefix, program], input=wires, stdout=subprocess.PIPE, check=False)
    if done.returncode or len(done.stdout) != 280 * len(requests):
        raise RuntimeError(f"{program} ended with status {done.returncode} and {len(done.stdout)} bytes for {len(requests)} requests")
    COUNTS["answers"] += len(requests)
    numbers = [struct.unpack("<35Q", done.stdout[i : i + 280]) for i in range(0, len(done.stdout), 280)]
    return [(one[0], one[1], list(one[2:])) for one in numbers]


def lists(chance, of=samples.DOUBLES):
    """Lists of tiny numbers, of clock size and of every size, and some where a bit of a direction shows."""
    w = of.width
    one, sign, half = w.one, w.sign, w.two_to(-w.precision)
    yield [one, SUBNORMAL, one | sign]
    yield [1, 1]
    yield [one, half, 1]
    yield [one | sign, sign | half, sign | 1]
    for k in range(LISTS):
        yield [chance.getrandbits(w.precision - 3) | sign * chance.getrandbits(1) for _ in range(chance.randrange(2, 9))]
        yield of.filled(chance.randrange(2, 70), 0, samples.seed(3, k))


def whole(numbers, sign):
    register = exact.Register([0] * exact.WORDS)
    for pattern in numbers:
        register.enter(pattern, sign)
    return register


def wanted(call, numbers):
    """The values of a call on whole numbers, from the first on."""
    if call in (NEAREST, LIST_NEAREST):
        return [exact.nearest_sum(numbers)]
    if call == SINGLE_NEAREST:
        return [exact.SINGLES.nearest_sum(numbers)]
    if call == WORDS_ROUND:
        return [whole(numbers, 1).round()]
    if call == HAND_ON:
        return farewell.hand_on(WEIGHTS, len(numbers) % 5, 5)
    if call == GRADE:
        return [exact.nearest_sum(numbers), grades.grade(numbers, exact.nearest_sum(numbers))]
    if call == LANED:
        register = whole(numbers[::2], 1)
        for pattern in numbers[1::2]:
            register.enter(pattern, -1)
        return register.words
    if call == READ:
        return (numbers + [0] * 32)[:32] + [len(numbers)]
    if call == WRITE:
        return (numbers + [0] * 31)[:31] + [2**32 + len(numbers), 5 + 8 * len(numbers)]
    if call == RESCUE:
        kept = numbers[1:]
        return [5 + 8 * len(kept), len(numbers), 1, 3] + (kept + [0] * 28)[:28] + [1]
    if call == PARTS:
        parts, all_of_it = exact.sum_in_parts(numbers, exact.PARTS)
        return parts + [int(all_of_it)]
    return whole(numbers, -1 if call == WITHDRAW else 1).words


def check_calls(name, program, prefix, some):
    """The calls on whole numbers answer the same everywhere; the walk's are counted where they are wrong."""
    calls = [NEAREST, ADD, WITHDRAW] + [LIST_NEAREST, WORDS_ROUND, PARTS, READ, HAND_ON, WRITE, MERGE, GRADE, RESCUE, LANED]
    check_whole(name, program, prefix, some, calls)


def check_whole(name, program, prefix, some, calls):
    right = {(call, k): wanted(call, numbers) for call in calls for k, numbers in enumerate(some)}
    for what, control in ENVIRONMENTS.items():
        asked = [(call, k) for call in calls for k in range(len(some))]
        for (call, k), (after, code, values) in zip(asked, answers(program, prefix, [(control, call, some[k]) for call, k in asked])):
            expected = right[call, k]
            held = code == 0 and values == expected + [0] * (33 - len(expected)) and after | 0x3F == control | 0x3F
            expect(f"{name}, {what}: call {call}", held, [f"{p:016X}" for p in some[k]], code, [f"{v:X}" for v in values[: len(expected)]])


# sigma, t, and the sigma that rule W4 goes on with: 2^-51 times the first, below the least normal number; in binary32 2^-22 times
SCALED = {
    STEP: [(0x032 << 52, 1 << 52, 0x0004000000000000), (0x033 << 52, 2 << 52, 0x0008000000000000)],
    SINGLE_STEP: [(0x15 << 23, 1 << 23, 0x00200000), (0x16 << 23, 2 << 23, 0x00400000)],
}


def check_scaled(name, program, prefix, call):
    """Rule F4: a sigma is scaled without an operation on doubles, so that it is right where subnormal results are flushed too."""
    nearest = {what: control for what, control in ENVIRONMENTS.items() if not control & (DOWN | UP)}
    asked = [(what, control, sigma, t, scaled) for what, control in nearest.items() for sigma, t, scaled in SCALED[call]]
    for (what, _, sigma, t, scaled), (_, code, values) in zip(asked, answers(program, prefix, [(one[1], call, [one[2], one[3]]) for one in asked])):
        expect(f"{name}, {what}: scaled", (code, values[:10]) == (0, [1, scaled, t, 0, 1, 1, 1, 0, 0, 0]), f"{sigma:016X}", code, [f"{v:X}" for v in values[:10]])


def is_faithful(pattern, numbers, sums=exact.DOUBLES):
    """No number of the format strictly between the sum and the exact sum, and the exact sum where that is one."""
    total = sum(map(sums.units, numbers))
    here, near = sums.units(pattern), sums.nearest(total)
    if sums.units(near) == total:
        return pattern == near
    beside = [sums.units(near + step) for step in (-1, 0, 1)]  # the numbers around a sum that is none and isn't near zero
    return here in beside and not any(min(here, total) < other < max(here, total) for other in beside)


def check_walk(name, program, prefix, some, calls=(FAITHFUL, WALK), sums=exact.DOUBLES):
    """In the usual environment every sum is faithful; with both switches on, the first list's is 0 in one round."""
    for call, (what, control) in itertools.product(calls, ENVIRONMENTS.items()):
        told = answers(program, prefix, [(control, call, numbers) for numbers in some])
        wrong = [k for k, (_, code, values) in enumerate(told) if code or not is_faithful(values[0], some[k], sums)]
        if what in GOOD:
            expect(f"{name}, {what}: the walk, call {call}", not wrong and told[0][2][:2] == [SUBNORMAL, 2], wrong)
        else:
            COUNTS[WRONG[sums.width]] += len(wrong)
        if what == "both":
            expect(f"{name}, {what}: {{1, 36EB6, -1}} is 0 in 1 round, call {call}", told[0][1] == 0 and told[0][2][:2] == [0, 1], told[0])


def pairs_of(numbers):
    """The values of the calls on pairs, as tests/host/environment.c makes them of a list."""
    one = [p & ~(0x7FF << 52) | exact.ONE for p in numbers[:16]]
    other = one[1:] + one[:1]
    products = weighted.products(one, other, 2 * len(one))
    return products + [0] * (32 - len(products)) + [weighted.nearest_sum(one, other)]


def check_pairs(name, program, prefix, some):
    """Where numbers are rounded to nearest the products are right, subnormal numbers or not, since none are met; elsewhere some are wrong."""
    right = [pairs_of(numbers) for numbers in some]
    for what, control in ENVIRONMENTS.items():
        told = answers(program, prefix, [(control, PAIRED, numbers) for numbers in some])
        wrong = [k for k, (after, code, values) in enumerate(told) if code or values != right[k] or after | 0x3F != control | 0x3F]
        if control & (DOWN | UP):
            COUNTS["wrong products"] += len(wrong)
        else:
            expect(f"{name}, {what}: pairs", not wrong, wrong)


def check_environment(name, program, prefix):
    """The header's function says yes to the usual environment alone, and of the start what the control word says."""
    for what, control in ENVIRONMENTS.items():
        after, said, _ = answers(program, prefix, [(control, ENVIRONMENT, [])])[0]
        expect(f"{name}, {what}: kewohiata_environment", said == (what in GOOD) and after | 0x3F == control | 0x3F, said, f"{after:X}")
    after, said, _ = answers(program, prefix, [(0, ENVIRONMENT, [])])[0]
    usual = after | 0x3F == USUAL | 0x3F
    expect(f"{name}, at the start: kewohiata_environment", said == usual, said, f"{after:X}")
    expect(f"{name}, at the start", usual or name == "gcc -Ofast", f"{after:X}")


def check_notices():
    """A test that can't fail shows nothing: a neighbour of a nearest sum is not faithful where the sum is a double, nor two steps away."""
    for pattern, numbers, held in (
        (exact.ONE, [exact.ONE], True),
        (exact.ONE + 1, [exact.ONE], False),
        (exact.ONE, [exact.ONE, 0x3CA0000000000000, 1], True),
        (exact.ONE + 1, [exact.ONE, 0x3CA0000000000000, 1], True),
        (exact.ONE + 2, [exact.ONE, 0x3CA0000000000000, 1], False),
        (exact.ONE - 1, [exact.ONE, 0x3CA0000000000000, 1], False),
        (0, [exact.ONE, SUBNORMAL, exact.SIGN | exact.ONE], False),
    ):
        expect("is_faithful", is_faithful(pattern, numbers) == held, f"{pattern:016X}", numbers)
    for pattern, held in ((0x3F7FFFFF, False), (0x3F800000, True), (0x3F800001, True), (0x3F800002, False)):
        expect("is_faithful", is_faithful(pattern, [0x3F800000, 0x33800000, 1], exact.SINGLES) == held, f"{pattern:08X}")


def main():
    command.asked(__doc__)
    os.makedirs(PLACE, exist_ok=True)
    archive = built.need(built.ARCHIVE)
    some, singles = list(lists(random.Random(1))), list(lists(random.Random(2), samples.SINGLES))
    check_header()
    check_notices()
    tried = 0
    for name, program, prefix in programs(archive):
        tried += 1
        check_environment(name, program, prefix)
        check_calls(name, program, prefix, some)
        check_whole(name, program, prefix, singles, [SINGLE_NEAREST])
        check_scaled(name, program, prefix, STEP)
        check_scaled(name, program, prefix, SINGLE_STEP)
        check_walk(name, program, prefix, some)
        check_walk(name, program, prefix, singles, (SINGLE_FAITHFUL, SINGLE_WALK), exact.SINGLES)
        check_pairs(name, program, prefix, some)
    expect("programs", tried >= 3, tried)
    for wrong in WRONG.values():
        expect("the walk is wrong in some environment", COUNTS[wrong] > tried * LISTS, wrong)
    expect("products are wrong in some environment", COUNTS["wrong products"] > tried * LISTS)
    for difference in DIFFERENCES[:9]:
        print("environment:", *(str(part)[:400] for part in difference))
    print(f"environment: {tried} programs, {len(ENVIRONMENTS)} environments, {', '.join(f'{n} {what}' for what, n in COUNTS.items())}; "
          f"{len(DIFFERENCES)} differences")  # fmt: skip
    return 1 if DIFFERENCES else 0


if __name__ == "__main__":
    sys.exit(main())
