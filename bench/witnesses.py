"""Lists on which the answers are compared and nothing is timed: those of the tests, where a likely mistake in a walk shows (the order of T, restarts, 51
rounds, zeros, refusals), and some thousand by their generator."""
import os
import random
import struct
import sys

TESTS = os.path.join(os.path.dirname(os.path.dirname(os.path.abspath(__file__))), "tests")
sys.path[:0] = [TESTS, os.path.join(TESTS, "host")]
import drawn  # noqa: E402
import exact  # noqa: E402
import samples  # noqa: E402

BATCHES = 8


def patterns(seed):
    """Every list as patterns. An empty list has no bytes to hand over."""
    yield from samples.lists()
    chance = random.Random(seed)
    for _ in range(BATCHES):
        for n in drawn.lengths(chance, exact.LENGTH):
            yield chance.choice(drawn.SHAPES)(chance, n)


def write(path, seed):
    """The file that main.c reads, a list to a case; answers how many there are."""
    made = [numbers for numbers in patterns(seed) if 0 < len(numbers) <= exact.LENGTH]
    with open(path, "wb") as f:
        for numbers in made:
            f.write(struct.pack(f"={2 + len(numbers)}Q", len(numbers), 1, *numbers))
    return len(made)
