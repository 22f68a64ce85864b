#!/usr/bin/env python3
"""The C calls against exact integers: builds the archive and tests/host/driver.c with the kit alone, hands the driver seeded requests in batches, and compares
each answer, its code and every element of every array, with what docs/SCOPE.md asks for. A NaN in an array of doubles is compared by being one.

    python3 tests/host.py                  20,000 lists, and a short run against answers with one flipped bit
    python3 tests/host.py --lists 200000   a larger run
    python3 tests/host.py --seed 7         with other random numbers
    python3 tests/host.py --flip           every answer has one bit flipped, and each must be reported

The requests on binary32 numbers also go to tests/host/floats.c, a walk in this machine's own floats: where it differs, the exact integers are wrong or it is.

A difference is printed with its inputs, and the exit status is 1.
"""
import argparse
import collections
import itertools
import multiprocessing
import os
import random
import subprocess
import sys
import time

HERE = os.path.dirname(os.path.abspath(__file__))
ROOT = os.path.dirname(HERE)
sys.dont_write_bytecode = True
sys.path[:0] = [HERE, os.path.join(HERE, "host")]
import built  # noqa: E402
import calls  # noqa: E402
import claims  # noqa: E402
import drawn  # noqa: E402
import ensembles  # noqa: E402
import farewells  # noqa: E402
import fixed  # noqa: E402
import kit  # noqa: E402
import lanes  # noqa: E402
import merges  # noqa: E402
import products  # noqa: E402
import remainders  # noqa: E402
import rescues  # noqa: E402
import settlings  # noqa: E402
import shuffles  # noqa: E402
import singles  # noqa: E402
import strangers  # noqa: E402
import writings  # noqa: E402

PLACE = os.path.join(ROOT, "target", "host")
OTHERS = claims, ensembles, farewells, lanes, merges, products, remainders, rescues, settlings, shuffles, strangers, writings, singles
FIXED = fixed.GROUPS + [group for other in OTHERS for group in other.FIXED]
DRAWN = drawn.GROUPS + [group for other in OTHERS for group in other.DRAWN]
LISTS = 20000
PROGRESS = 8  # seconds between lines
TOGETHER = 500  # requests that the driver is handed at once: each may have arrays of 32 KB
FLIPPED = ["sum_lengths", "register_lengths", 0, 1]  # the batches of the short run: every kind of call is in them

# which refusals each call has: every one must have been met, and no other may be; 0 is an accepted call
SUMS, ENTRIES = {0, 1, 2, 3, 4}, {0, 2, 3, 4, 9}
REFUSALS = {
    "kewohiata_faithful": SUMS,
    "kewohiata_nearest": SUMS,
    "kewohiata_register_add": ENTRIES,
    "kewohiata_register_withdraw": ENTRIES,
    "kewohiata_walk_open": SUMS,
    "kewohiata_walk_step": {0, 4, 6, 7, 8, 18, 19, 21},
    "kewohiata_walk_faithful": SUMS,
    "kewohiata_list_nearest": SUMS,
    "kewohiata_list_parts": SUMS | {5},
    "kewohiata_words_add": ENTRIES,
    "kewohiata_words_withdraw": ENTRIES,
    "kewohiata_words_round": {0, 4, 10},
    "kewohiata_sheet_read": {0, 1, 4, 11, 12, 13},
    "kewohiata_weights_hand_on": {0, 1, 2, 3, 4, 14, 15, 16, 17},
    "kewohiata_sheet_write": {0, 1, 4},
    "kewohiata_words_merge": {0, 4, 9},
    "kewohiata_list_grade": SUMS | {20},
    "kewohiata_sheet_rescue": {0, 1, 4, 11, 12},
    "kewohiata_pairs_products": {0, 1, 2, 4, 22, 23},
    "kewohiata_pairs_nearest": {0, 1, 2, 4, 22, 23},
    "kewohiata_lanes_add": {0, 2, 3, 4, 24, 25},
    "kewohiata_lanes_withdraw": {0, 2, 3, 4, 24, 25},
    "kewohiata_lanes_settle": {0, 4, 9, 25},
    "kewohiata_single_open": SUMS,
    "kewohiata_single_step": {0, 4, 6, 7, 8, 18, 19, 21},
    "kewohiata_single_faithful": SUMS,
    "kewohiata_single_nearest": SUMS,
}

# the words that run a driver, and which calls it has
Driver = collections.namedtuple("Driver", "words calls")


# ---- building, with the kit alone
def run(*words):
    done = subprocess.run(words, stdout=subprocess.PIPE, stderr=subprocess.STDOUT, text=True, check=False)
    if done.returncode:
        sys.exit(f"{done.stdout}\nhost: {' '.join(words)} ended with status {done.returncode}")


def source(name):
    return os.path.join(HERE, "host", f"{name}.c")


def compiled(name, program, *more):
    """The object file of a C file, for a program."""
    made = os.path.join(PLACE, f"{program}-{name}.o")
    words = ["-std=gnu99", "-O2", "-Wall", "-Wextra", "-Werror", "-ffreestanding", "-fno-builtin", "-fPIC", "-I", kit.INCLUDE, "-isystem", kit.HEADERS]
    run(kit.clang(), f"--target={kit.TARGET}", *words, *more, "-c", source(name), "-o", made)
    return made


def driver():
    """The driver with the archive."""
    made = os.path.join(PLACE, "driver")
    for words in kit.c_commands(source("driver"), [built.need(built.ARCHIVE)], made):
        run(*words)
    return Driver([*kit.run_prefix(), made], set(REFUSALS))


def floats_driver():
    """The same with the walk in floats, which has the calls on binary32 numbers alone; linked without a C library."""
    made, objects = os.path.join(PLACE, "floats"), [compiled("driver", "floats", "-DFLOATS"), compiled("floats", "floats"), compiled("alone", "floats")]
    run(os.path.join(kit.toolchain(), "bin", "ld.lld"), "-static", *objects, "-o", made)
    return Driver([made], set(calls.SINGLE_NAMES))


def build():
    """The drivers, of which the last is no archive's."""
    os.makedirs(PLACE, exist_ok=True)
    return [driver(), floats_driver()]


# ---- a batch
def batches(wanted):
    """The names of the batches in which so many lists are tried: those of the fixed groups, and the random ones' numbers."""
    return [group.__name__ for group in FIXED] + list(range(-(-wanted // drawn.LISTS)))


def requests_of(seed, name):
    """The requests of a batch. Its random numbers depend on the seed and its name alone."""
    chance = random.Random(f"{seed}/{name}")
    for group in DRAWN if isinstance(name, int) else [group for group in FIXED if group.__name__ == name]:
        yield from group(chance)


def answers_of(requests, words):
    """What a driver answers to such calls as it has, one after the other."""
    wires = b"".join(map(calls.wire, requests))
    process = subprocess.run(words, input=wires, capture_output=True, check=False)
    if process.returncode:
        raise RuntimeError(f"the driver ended with status {process.returncode}: {process.stderr.decode(errors='replace')}")
    lengths = [sum(map(len, calls.answered(request))) for request in requests]
    if sum(lengths) != len(process.stdout):
        raise RuntimeError(f"{len(process.stdout)} bytes of answers, asked for are {sum(lengths)}")
    ends = list(itertools.accumulate(lengths))
    return [process.stdout[end - length : end] for length, end in zip(lengths, ends)]


def flipped(request, answer, chance):
    """The answer with one bit turned over; another where a NaN would stay one."""
    while True:
        bit = chance.randrange(8 * len(answer))
        turned = answer[: bit // 8] + bytes([answer[bit // 8] ^ 1 << bit % 8]) + answer[bit // 8 + 1 :]
        if not calls.same(request, answer, turned):
            return turned


def met(request):
    return request.call, request.code % 32


def compared(work):
    """The batch's name, the answers met, how many are reported to differ, and the first report. Flipped answers go the same way as all others."""
    seed, name, flip, drivers = work
    requests, chance = requests_of(seed, name), random.Random(f"{seed}/{name}/flip")
    counts, reports, first = collections.Counter(), 0, None
    for some in iter(lambda: list(itertools.islice(requests, TOGETHER)), []):
        for words, has in drivers:
            own = [request for request in some if request.call in has]
            for request, answer in zip(own, answers_of(own, words)):
                found = calls.difference(request, flipped(request, answer, chance) if flip else answer)
                counts[met(request)] += 1
                if found:
                    reports += 1
                    first = first or f"{os.path.basename(words[-1])}: {found}:\n{calls.shown(request)}"
    return name, counts, reports, first


# ---- the run
def wrong_of(seed, name, reports, demanded, first):
    """By how many the reports of a batch are too many or too few. The first is shown in full: one that is understood explains most others."""
    if reports != demanded:
        print(f"host: seed {seed} batch {name}: {reports} differences are reported, demanded are {demanded}; the first: {first}")
    return abs(reports - demanded)


def compare(pool, seed, names, flip, drivers):
    """Every batch: no answer may be reported, and of flipped ones each must be. Answers how many of each kind were met, and how many of them are wrong."""
    what, wrong = ("flipped", "flipped bits passed") if flip else ("compared", "differences")
    began = said = time.time()
    counts, bad, done = collections.Counter(), 0, 0
    results = pool.imap_unordered(compared, [(seed, name, flip, drivers) for name in names])
    while done < len(names):
        try:
            name, more, reports, first = results.next(timeout=1)
            done += 1
            counts += more
            bad += wrong_of(seed, name, reports, sum(more.values()) if flip else 0, first)
        except multiprocessing.TimeoutError:
            pass
        if time.time() - said >= PROGRESS or done == len(names):
            said = time.time()
            print(f"host: {what}: {done} of {len(names)} batches, {sum(counts.values())} calls, {bad} {wrong}, {said - began:.0f} s", flush=True)
    return counts, bad


def uncovered(counts):
    """Refusals that should have been met and were not, or the other way round."""
    for call, wanted in REFUSALS.items():
        refusals = {number for name, number in counts if name == call}
        if refusals != wanted:
            yield f"host: {call} met {sorted(refusals)}, its refusals are {sorted(wanted)}"


def table(counts):
    for call in REFUSALS:
        numbers = sorted((number, n) for (name, number), n in counts.items() if name == call)
        print(f"host: {call}: " + ", ".join(f"{n} {'accepted' if number == 0 else f'refused {number}'}" for number, n in numbers))


def main():
    words = argparse.ArgumentParser(description=__doc__, formatter_class=argparse.RawDescriptionHelpFormatter)
    words.add_argument("--lists", type=int, default=LISTS)
    words.add_argument("--seed", type=int, default=1)
    words.add_argument("--flip", action="store_true")
    asked = words.parse_args()
    print(f"host: seed {asked.seed}", flush=True)
    drivers = build()
    names = batches(asked.lists)
    with multiprocessing.Pool(os.cpu_count()) as pool:
        counts, bad = compare(pool, asked.seed, names, asked.flip, drivers)
        turned, passed = (counts, 0) if asked.flip else compare(pool, asked.seed, FLIPPED, True, drivers)
    bad += passed
    table(counts)
    gaps = list(uncovered(counts)) + [f"host: no answer of {call} was flipped" for call in sorted(REFUSALS.keys() - {call for call, _ in turned})]
    what = f"{asked.lists} lists, {sum(counts.values())} calls of the archive and of the walk in floats"
    print("\n".join(gaps + [f"host: {what}, {bad} {'flipped bits passed' if asked.flip else 'differences'}"]))
    return 1 if bad or gaps else 0


if __name__ == "__main__":
    sys.exit(main())
