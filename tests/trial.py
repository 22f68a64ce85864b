#!/usr/bin/env python3
"""What crates/trial must write: the sums of its lists, in exact integers.

    python3 tests/trial.py > crates/trial/stdout     the expected lines
    python3 tests/trial.py --check                   exit status 1 where crates/trial/stdout differs

The sums are those of tests/exact.py and tests/walk.py, which know nothing of the library's code. Only the lists and the lines' layout are written the same way
in both places.
"""
import itertools
import os
import sys

sys.dont_write_bytecode = True
import command  # noqa: E402
import exact  # noqa: E402
import samples  # noqa: E402
import walk  # noqa: E402

LENGTHS = [64, 65, exact.LENGTH, exact.LENGTH + 1]
HELD = 0x3FF8000000000000  # what the work area holds at first


def lists():
    """Of each length numbers of every magnitude, and then such of which all but two or three in the middle cancel; and the ladder."""
    for n in LENGTHS:
        numbers = samples.filled(n, 0, samples.START ^ n)
        yield numbers
        kept = n // 2 - 1
        yield numbers[: n - kept] + [p ^ exact.SIGN for p in reversed(numbers[:kept])]
    yield samples.ladder(2047, 102, 41)


def refused(number, place):
    return f" refused {number} place {place}"


def nearest_told(numbers):
    try:
        return f" {exact.nearest_sum(numbers):016x}"
    except exact.Refused as refusal:
        return refused(*refusal.args)


def walk_told(answer, work):
    """An answer, and a number that changes with every bit of the work area."""
    mix = samples.START
    for p in work:
        mix = samples.following(mix ^ p)
    told = refused(*answer[1:]) if answer[0] == "refused" else f" {answer[1]:016x} rounds {answer[2]}"
    return f"{told} work {mix:016x}"


def lines_of(numbers, work):
    """The lines of a list. Each call finds in the work area what the one before left there."""
    yield f"list of {len(numbers)} nearest{nearest_told(numbers)}"
    answer = walk.faithful(numbers, work)
    yield f"undivided{walk_told(answer, work)}"
    for order in (walk.rising, walk.falling, walk.seeded):
        answer, steps = walk.run(numbers, work, order, samples.endless(samples.START))
        yield f"{order.__name__} steps {steps}{walk_told(answer, work)}"


def lines():
    area = [HELD] * (exact.LENGTH + 1)
    for numbers in lists():
        work = area[: len(numbers)]
        yield from lines_of(numbers, work)
        area[: len(numbers)] = work


def main():
    words = command.asked(__doc__, ["--check"])
    wanted = list(lines())
    if not words:
        print("\n".join(wanted))
        return 0
    with open(os.path.join(os.path.dirname(__file__), "..", "crates", "trial", "stdout"), encoding="ascii") as f:
        held = f.read().split("\n")
    differing = [k for k, (line, other) in enumerate(itertools.zip_longest(wanted + [""], held), 1) if line != other]
    print(f"trial: {len(wanted)} lines; of crates/trial/stdout differ {differing[:9] or 'none'}")
    return 1 if differing else 0


if __name__ == "__main__":
    sys.exit(main())
