#!/usr/bin/env python3
"""Times Python's math.fsum on the lists of a file, in a process of its own, and answers the requests that main.c answers. The lists are Python lists of
floats, made before anything is timed; what is timed is a loop over the lists of a case that calls math.fsum on each.

    bench/fsum.py FILE        takes requests on standard input; bench/run makes them
"""
import math
import struct
import sys
import time

sys.dont_write_bytecode = True
import lists as made  # noqa: E402


def least(case, repetitions):
    best, fsum, clock = math.inf, math.fsum, time.perf_counter_ns
    for _ in range(repetitions):
        began = clock()
        for numbers in case:
            fsum(numbers)
        best = min(best, clock() - began)
    return best / len(case)


def main():
    if len(sys.argv) != 2 or sys.argv[1] in ("-h", "--help"):
        print(__doc__.strip(), file=sys.stdout if len(sys.argv) == 2 else sys.stderr)
        return 0 if len(sys.argv) == 2 else 2
    cases = list(made.read(sys.argv[1]))
    for line in sys.stdin:
        verb, k, repetitions = line.split()
        if verb == "time":
            print(f"{least(cases[int(k)], int(repetitions)):.3f}", flush=True)
        else:
            patterns = (struct.unpack("=Q", struct.pack("=d", math.fsum(numbers)))[0] for numbers in cases[int(k)])
            print("ok", *(f"{p:016X}" for p in patterns), flush=True)
    return 0


if __name__ == "__main__":
    sys.exit(main())
