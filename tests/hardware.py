"""The faithful walk in the machine's own numbers, with no integer in the arithmetic: a second model beside tests/walk.py's.

Python has doubles alone. A sum or difference of two binary32 numbers is computed as a double and rounded once more, to binary32, and that is what one rounding
would give. Either the double is exact. Or the exact sum has more than 53 digits, and then the smaller number is below 2^-27 times the leading digit of the
larger: less than a quarter of its last place, even of the last place of its neighbour towards zero. So the exact sum is rounded to the larger number, and the
double, which lies no further from it than 2^-27 times that digit, is too. Among subnormal numbers sums are exact in both. Products are by powers of two.
"""
import functools
import math
import operator

from states import State


class Hardware:
    """A state and its work area. Of ensembles it knows nothing, as the base's walk: its states are of number 0. The former walk is the base's in this too, that
    it looks for mu in the area."""

    def __init__(self, width, s, area, former=False):
        self.width, self.given, self.former = width, list(area), former
        self.sigma, self.t, self.tau, self.largest = map(self.number, (s.sigma, s.t, s.tau, s.largest))
        self.n, self.pending, self.rounds = s.n, s.pending, s.rounds
        self.area = [width.value(p) for p in area]
        self.m = math.ceil(math.log2(self.n + 2)) if self.n > -2 else 0

    def number(self, pattern):
        """Of a state: its numbers have 64 bits, and a longer pattern than the width has is no number's."""
        return math.nan if pattern >> self.width.bits else self.width.value(pattern)

    def rounded(self, x):
        """A sum or difference, as the width has it."""
        return x if self.width.number == "d" else self.width.value(self.width.bits_of(x))

    def add(self, x, y):
        return self.rounded(x + y)

    def sub(self, x, y):
        return self.rounded(x - y)

    def patterns(self):
        """Of the area. Where there is a NaN nothing is written, and Python may not keep its digits."""
        return [self.width.bits_of(x) if x == x else p for x, p in zip(self.area, self.given)]

    def sound(self):
        m, sigma, w = self.m, self.sigma, self.width
        if not (0 < self.n < w.length + 1 and self.rounds < w.rounds + 1 and self.pending and self.pending.bit_length() <= math.ceil(self.n / 64)):
            return False
        if not (2.0 ** (m + w.unit) <= sigma <= 2.0 ** (m + w.magnitude) and math.frexp(sigma)[0] == 0.5):
            return False
        if not (self.largest * 2.0**w.precision <= sigma and math.copysign(1.0, self.largest) == 1.0):
            return False
        most = 2.0 ** (w.magnitude + math.ceil(math.log2(w.length + 2)))
        return abs(self.t) <= most and abs(self.tau) <= most and all(abs(x) <= math.ldexp(sigma, -m) for x in self.area)

    def fault(self):
        """Of a state that isn't sound: the first of the three that would not be sound with the others mended."""
        whole = Hardware(self.width, State(self.width.one, 0, 0, self.n, 1, 0), [])
        whole.sigma, whole.t, whole.tau, whole.rounds, whole.largest = self.sigma, self.t, self.tau, self.rounds, self.largest
        if not whole.sound():
            return "refused", 8, 0
        whole.pending = self.pending
        if not whole.sound():
            return "refused", 18, 0
        return "refused", 19, [abs(x) <= math.ldexp(self.sigma, -self.m) for x in self.area].index(False)

    def step(self, block):
        if len(self.area) != self.n:
            return "refused", 4, 0
        if not self.sound():
            return self.fault()
        if block >= math.ceil(self.n / 64):
            return "refused", 6, 0
        if not self.pending & 2**block:
            return "refused", 7, 0
        for i in range(64 * block, min(64 * block + 64, self.n)):
            q = self.sub(self.add(self.sigma, self.area[i]), self.sigma)
            self.area[i] = self.sub(self.area[i], q)
            self.tau = self.add(self.tau, q)
            self.largest = max(self.largest, abs(self.area[i]))
        self.pending ^= 2**block
        return self.more(self.largest) if self.pending else self.close()

    def more(self, told):
        bits = self.width.bits_of
        kept = State(bits(self.sigma), bits(self.t), bits(self.tau), self.n, self.pending, self.rounds, 0, bits(self.largest))
        return "more", kept, bits(told)

    def open(self, sigma, t):
        told, self.largest = self.largest, 0.0
        self.sigma, self.t, self.tau, self.pending = sigma, t, 0.0, 2 ** math.ceil(self.n / 64) - 1
        return self.more(told)

    def looked_for(self):
        return max((abs(x) for x in self.area), default=0.0)

    def fresh(self, mu):
        fraction, e = math.frexp(mu)
        return self.open(math.ldexp(1.0, self.m + (e - 1 if fraction == 0.5 else e)), 0.0)

    def close(self):
        self.rounds += 1
        t, tau, sigma, w = self.t, self.tau, self.sigma, self.width
        total = self.add(t, tau)
        if total == 0.0:
            mu = self.looked_for() if self.former else self.largest
            return self.fresh(mu) if mu else ("done", 0, self.rounds)
        if sigma <= 2.0 ** (w.unit + w.digits) or abs(total) >= 2.0 ** (2 * self.m + 1 - w.precision) * sigma:
            rest = functools.reduce(self.add, self.area, 0.0)
            return "done", w.bits_of(self.add(total, self.add(self.sub(tau, self.sub(total, t)), rest))), self.rounds
        return self.open(2.0 ** (self.m - w.precision) * sigma, total)


def hardware_walk(width, patterns):
    """The undivided walk of an allowed list as it was before a state kept its largest remainder: the answer and the remainders."""
    w = Hardware(width, State(0, 0, 0, len(patterns), 0, 0), patterns, former=True)
    answer = w.fresh(w.looked_for()) if any(w.area) else ("done", width.bits_of(functools.reduce(operator.add, w.area) if w.area else 0.0), 0)
    while answer[0] == "more":
        answer = w.step((w.pending & -w.pending).bit_length() - 1)
    return answer, w.patterns()
