#!/usr/bin/env python3
"""The faithful walk in exact integers, at both widths, written from the scope alone: tests/trial.py and tests/host.py hold the library to it.

    python3 tests/walk.py        checks it against the machine's own numbers, against exact sums and against its cases; exit status 1 on a difference

Calls take and give patterns: a list, a work area (which they change) and a state's four numbers. Inside, a number is its whole units, and -0 is a zero of its
own. An answer is ("more", State, told), ("done", pattern, rounds) or ("refused", number, place); what is told is a pattern too.
"""
import collections
import fractions
import functools
import itertools
import random
import sys

sys.dont_write_bytecode = True
import command  # noqa: E402
import exact  # noqa: E402
import former  # noqa: E402
import widths  # noqa: E402
from hardware import Hardware, hardware_walk  # noqa: E402
from shapes import cancelled, foreign, ladder, numbers, two_blocks  # noqa: E402
from states import State  # noqa: E402
from widths import BLOCK, blocks_of, exponent_of  # noqa: E402

UNSOUND = (8, 18, 19)  # the refusals of a state that isn't sound


# ---- what no width has a say in
class MinusZero(int):
    """The zero that is equal to 0 in every sum and comparison, and has the other sign."""


MINUS = MinusZero(0)


# orders: of the pending blocks, which is next; a turn is any number of 64 bits
def rising(pending, turn):
    return (pending & -pending).bit_length() - 1


def falling(pending, turn):
    return pending.bit_length() - 1


def seeded(pending, turn):
    """The first at or above the turn's place; where none is, the lowest."""
    start = turn % 64
    return start + rising(pending >> start, turn) if pending >> start else rising(pending, turn)


class Walk:
    """The walk at a width."""

    def __init__(self, width):
        self.width = width

    # ---- numbers as whole units
    def units(self, pattern):
        w = self.width
        exponent, fraction = divmod(pattern % w.sign, 1 << w.digits)
        assert exponent < w.fields
        size = fraction if exponent == 0 else (1 << w.digits | fraction) << exponent - 1
        if pattern < w.sign:
            return size
        return -size if size else MINUS

    def pattern_of(self, x):
        w, size = self.width, abs(x)
        shift = max(size.bit_length() - w.precision, 0)
        significand = size >> shift
        assert significand << shift == size and shift < w.fields - 2, "no finite number of the format"
        pattern = (shift + 1 << w.digits) + significand - (1 << w.digits) if significand >> w.digits else significand
        return pattern + w.sign if x < 0 or x is MINUS else pattern

    def rounded(self, x):
        """The nearest number that has as many digits as a significand, ties to the even one. The floor and its follower are the two around x, for a negative x
        too."""
        extra = x.bit_length() - self.width.precision
        if extra <= 0:
            return x
        floor = x >> extra
        rest, half = x - (floor << extra), 1 << extra - 1
        if rest > half or (rest == half and floor & 1):
            floor += 1
        assert floor.bit_length() + extra <= self.width.beyond, "overflow"
        return floor << extra

    def add(self, x, y):
        """A zero sum is -0 only where both are -0."""
        total = x + y
        return self.rounded(total) if total else MINUS if x is MINUS and y is MINUS else 0

    def sub(self, x, y):
        return self.add(x, -y if y else 0 if y is MINUS else MINUS)

    def exact_sum(self, patterns):
        """S, which is MINUS where the list is nothing but -0 (rule S3)."""
        return MINUS if set(patterns) == {self.width.sign} else sum(map(self.units, patterns))

    def is_faithful(self, pattern, total):
        """No number of the format strictly between them, and equal where the sum is one; -0 where the sum is MINUS, and nowhere else."""
        extra = max(total.bit_length() - self.width.precision, 0)
        floor = total >> extra << extra
        return (pattern == self.width.sign) == (total is MINUS) and self.units(pattern) in ((floor,) if floor == total else (floor, floor + (1 << extra)))

    # ---- the walk's numbers
    def largest(self, area):
        """The largest magnitude, as a pattern: without their sign, patterns are in the order of their magnitudes, and infinities and NaNs above all."""
        return max(map((self.width.sign - 1).__and__, area), default=0)

    def sigma_of(self, n, mu):
        """2^(M+e), e the least whole number with mu, a pattern, at most 2^e."""
        return 1 << exponent_of(n) + (self.units(mu) - 1).bit_length()

    def round_of(self, n, sigma, t, rounds, ensemble=0):
        """A new round: tau and the largest remainder are +0, and all blocks pending."""
        return State(self.pattern_of(sigma), self.pattern_of(t), 0, n, (1 << blocks_of(n)) - 1, rounds, ensemble)

    def refusal(self, patterns, area):
        w = self.width
        if len(patterns) > w.length:
            return "refused", 1, 0
        if len(area) != len(patterns):
            return "refused", 4, 0
        for place, p in enumerate(patterns):
            if p % w.sign > w.limit:
                return "refused", 2 if p % w.sign >= w.infinity else 3, place
        return None

    def opening(self, patterns, area, ensemble=0):
        refused = self.refusal(patterns, area)
        if refused:
            return refused
        area[:] = patterns
        if not self.largest(area):  # rule S3: as IEEE 754 adds zeros, from the first on
            return "done", self.pattern_of(functools.reduce(self.add, map(self.units, area)) if area else 0), 0
        return "more", self.round_of(len(area), self.sigma_of(len(area), self.largest(area)), 0, 0, ensemble), 0

    def plus_opening(self, patterns, area):
        """The opening as it was before rule S3 knew -0. The two may differ on lists of nothing but -0 and on no others."""
        refused = self.refusal(patterns, area)
        if refused:
            return refused
        area[:] = patterns
        if not self.largest(area):
            return "done", 0, 0
        return "more", self.round_of(len(area), self.sigma_of(len(area), self.largest(area)), 0, 0), 0

    def sound(self, s, area):
        """The test in one piece, as it was when one refusal, 8, was given for all of it."""
        w = self.width
        if not (1 <= s.n <= w.length and 0 <= s.rounds <= w.rounds and 0 < s.pending < 1 << blocks_of(s.n)):
            return False
        if s.sigma >= w.infinity or s.t >= 2 * w.sign or s.tau >= 2 * w.sign or s.t % w.sign > w.carried or s.tau % w.sign > w.carried:
            return False
        sigma, m = self.units(s.sigma), exponent_of(s.n)
        if sigma & sigma - 1 or not 1 << m <= sigma <= self.units(w.limit) << m:
            return False
        if s.largest >= w.infinity or self.units(s.largest) << w.precision > sigma:
            return False
        return self.largest(area) <= self.pattern_of(sigma >> m)

    def sound_numbers(self, s):
        """Rules WS3, WS4, WS6, WS7 and WS15. A pattern with a sign is above all that have none, and so is a NaN's or an infinity's above a number's. A state's
        numbers have 64 bits, of which a pattern may be too short to fill all."""
        w = self.width
        if not (0 < s.n <= w.length and s.rounds <= w.rounds and 0 < s.sigma < w.infinity):
            return False
        m = exponent_of(s.n)
        k = self.units(s.sigma).bit_length() - 1
        if self.units(s.sigma) != 2**k or not m <= k <= m + w.top or s.largest > self.pattern_of(2**k >> w.precision):
            return False
        return (s.t | s.tau) >> w.bits == 0 and s.t & w.sign - 1 <= w.carried and s.tau & w.sign - 1 <= w.carried

    def unsound(self, s, area):
        """The refusal of a state that isn't sound, and its place: 8 for its numbers, 18 for its set, 19 for the lowest work number that is too large."""
        if not self.sound_numbers(s):
            return 8, 0
        if not s.pending or s.pending >> blocks_of(s.n):
            return 18, 0
        most = self.pattern_of(self.units(s.sigma) >> exponent_of(s.n))
        return (19, [p % self.width.sign <= most for p in area].index(False)) if self.largest(area) > most else None

    def closed_by(self, mu, s, area):
        """The four rules, with mu for the first two of them. What is told is the number of the round that closes."""
        sigma, t, tau, m, rounds, precision = self.units(s.sigma), self.units(s.t), self.units(s.tau), exponent_of(s.n), s.rounds + 1, self.width.precision
        total = self.add(t, tau)
        if total == 0 and not mu:
            return "done", 0, rounds
        if total == 0:
            return "more", self.round_of(s.n, self.sigma_of(s.n, mu), 0, rounds, s.ensemble), s.largest
        if sigma <= self.width.least_normal or abs(total) << precision >= sigma << 2 * m + 1:
            rest = 0
            for p in area:
                rest = self.add(rest, self.units(p))
            return "done", self.pattern_of(self.add(total, self.add(self.sub(tau, self.sub(total, t)), rest))), rounds
        return "more", self.round_of(s.n, (sigma << m) >> precision, total, rounds, s.ensemble), s.largest

    def close(self, s, area):
        """mu is the number that the state has kept."""
        return self.closed_by(s.largest, s, area)

    def former_close(self, s, area):
        """The close as it was before a state kept one: mu is looked for in the area. In a run the two may never differ."""
        return self.closed_by(self.largest(area), s, area)

    def step(self, s, area, block, ensemble, at_close=None):
        """Refusals in the order 4, 21, 8, 18, 19, 6, 7. The close is the one of now, unless it is told another."""
        if len(area) != s.n:
            return "refused", 4, 0
        if ensemble != s.ensemble:
            return "refused", 21, 0
        fault = self.unsound(s, area)
        if fault:
            return "refused", *fault
        if block >= blocks_of(s.n):
            return "refused", 6, 0
        if not s.pending >> block & 1:
            return "refused", 7, 0
        sigma, tau, most = self.units(s.sigma), self.units(s.tau), self.units(s.largest)
        for place in range(BLOCK * block, min(BLOCK * block + BLOCK, s.n)):
            p = self.units(area[place])
            q = self.sub(self.add(sigma, p), sigma)
            rest = self.sub(p, q)
            area[place] = self.pattern_of(rest)
            tau, most = self.add(tau, q), max(most, abs(rest))
        s = s._replace(tau=self.pattern_of(tau), largest=self.pattern_of(most), pending=s.pending - (1 << block))
        return ("more", s, s.largest) if s.pending else (at_close or self.close)(s, area)

    def run(self, patterns, area, order=rising, turns=itertools.repeat(0), ensemble=0):
        """The walk block by block to its end: the answer, and how many steps there were."""
        answer, steps = self.opening(patterns, area, ensemble), 0
        while answer[0] == "more":
            answer = self.step(answer[1], area, order(answer[1].pending, next(turns)), ensemble)
            steps += 1
        return answer, steps

    def faithful(self, patterns, area):
        """The undivided call: blocks in rising order."""
        return self.run(patterns, area)[0]


DOUBLES, SINGLES = Walk(widths.DOUBLES), Walk(widths.SINGLES)

# what a test of binary64 alone asks for
SIGN, double, bits = widths.DOUBLES.sign, widths.DOUBLES.value, widths.DOUBLES.bits_of
units, pattern_of, add, sub, refusal, opening, step = (getattr(DOUBLES, name) for name in "units pattern_of add sub refusal opening step".split())
run, faithful = DOUBLES.run, DOUBLES.faithful


# ---- the checks
DIFFERENCES = []
COUNTS = collections.Counter()


def expect(name, held, *more):
    COUNTS["checks"] += 1
    if not held:
        DIFFERENCES.append((name,) + more)


def taken_blocks(s, area):
    """The numbers of the blocks that this round has had."""
    return [p for b in range(blocks_of(s.n)) if not s.pending >> b & 1 for p in area[BLOCK * b : BLOCK * b + BLOCK]]


def watched_step(walk, s, area, block, patterns):
    """A step of a run. It is held to the same with the close of before, and what it keeps and tells to the area (rules WS13 and WS14)."""
    other = list(area)
    answer = walk.step(s, area, block, s.ensemble)
    expect("as before", walk.step(s, other, block, s.ensemble, walk.former_close) == answer and other == area, patterns, s, block)
    if answer[0] == "more":
        now, told = answer[1:]
        closes = now.rounds > s.rounds
        COUNTS["restarts"] += closes and now.t == 0
        expect("kept", now.largest == walk.largest(taken_blocks(now, area)) and (now.largest == 0 or not closes), patterns, s, block)
        expect("told", told == (walk.largest(area) if closes else now.largest), patterns, s, block)
    return answer


def watched(walk, patterns, area, order, chance):
    """A run with each step looked at: the answer, and how many steps there were."""
    answer, steps = walk.opening(patterns, area, chance.getrandbits(32)), 0
    expect("an opening tells +0", answer[0] == "done" or answer[2] == answer[1].largest == 0, patterns)
    while answer[0] == "more":
        answer = watched_step(walk, answer[1], area, order(answer[1].pending, chance.getrandbits(64)), patterns)
        steps += 1
    return answer, steps


def conserved(walk, patterns, area, chance):
    """A walk in an order of chance, with the sum in it looked at after each step; tau is exact and never -0. Each step is the one of before, in the machine's
    numbers too."""
    units = walk.units
    total, answer = sum(map(units, patterns)), walk.opening(patterns, area)
    while answer[0] == "more":
        s, before = answer[1], Hardware(walk.width, answer[1], area, former=True)
        expect("sound", walk.sound(s, area), patterns)
        expect("conserved", units(s.t) + units(s.tau) + sum(map(units, area)) == total and s.tau != walk.width.sign, patterns)
        block = seeded(s.pending, chance.getrandbits(64))
        answer = walk.step(s, area, block, s.ensemble)
        expect("as before, in the machine's numbers", before.step(block) == answer and before.patterns() == area, patterns, s, block)
    return answer


def rounds_most(width, n):
    """From the largest magnitude down to the least normal number, in steps of what a round takes off."""
    m = exponent_of(n)
    return 1 + -(-(width.magnitude - width.unit - width.digits + m) // (width.precision - m))


def check_list(walk, patterns, chance):
    w, n = walk.width, len(patterns)
    area = [w.bits_of(1.5)] * n
    answer, steps = walk.run(patterns, area)
    _, pattern, rounds = answer
    COUNTS["lists"] += 1
    COUNTS[w.name, "rounds", rounds] += 1
    expect("faithful", walk.is_faithful(pattern, walk.exact_sum(patterns)), patterns, answer)
    opened, before = [0] * n, [0] * n
    same = walk.opening(patterns, opened) == walk.plus_opening(patterns, before) and opened == before
    expect("opening", same != (set(patterns) == {w.sign}), patterns)
    expect("the machine's numbers", hardware_walk(w, patterns) == (answer, area), patterns, answer)
    expect("rounds", steps == rounds * blocks_of(n) and rounds <= rounds_most(w, n), patterns, answer)
    for order in (falling, seeded):
        other = [0] * n
        expect("order", watched(walk, patterns, other, order, chance) == (answer, steps) and other == area, patterns, order)
    if n <= 200:
        other = [0] * n
        expect("order", conserved(walk, patterns, other, chance) == answer and other == area, patterns)
    if walk is DOUBLES:
        other = [0] * n
        expect("before there were two widths", former.faithful(patterns, other) == answer and other == area, patterns)


def check_lists(walk, chance):
    p, most = walk.width.precision, walk.width.length
    for n in [1, 2, 3, 5, 62, 63, 64, 65, 66, 127, 128, 129, 200] * 12:
        for shape in (numbers, cancelled):
            check_list(walk, shape(walk, chance, n), chance)
    for n in (1000, most // 2 - 1, most // 2, most - 61, most):
        for shape in (numbers, cancelled):
            check_list(walk, shape(walk, chance, n), chance)
    for n, distance in ((40, p - 3), (64, p - 6), (300, p - 8), (1000, p - 10)):
        check_list(walk, ladder(walk, n, distance, 20), chance)


def answer_of(walk, patterns):
    area = [walk.width.bits_of(1.5)] * len(patterns)
    return walk.faithful(patterns, area), area


def cases(w):
    """The cases of rules T1 to T12, and lists at which a likely mistake shows: the list, its sum, the rounds and the remainders."""
    one, sign, p, bits = w.one, w.sign, w.precision, w.bits_of
    tiny, top = w.two_to(-p), w.two_to(100)
    return [
        ([], 0, 0, []),
        ([one], one, 1, [0]),
        ([sign, sign], sign, 0, [sign, sign]),
        ([one, sign | one], 0, 1, [0, 0]),
        ([one, tiny], one, 1, [0, tiny]),
        ([one, tiny, 1], one, 1, [0, tiny, 1]),
        ([top, one, sign | top], one, 2, [0, 0, 0]),
        ([1, 1], 2, 1, [0, 0]),
        ([sign], sign, 0, [sign]),
        ([sign, 0], 0, 0, [sign, 0]),  # rule S3: +0 beside -0
        ([0, sign], 0, 0, [0, sign]),
        ([one, sign | one, sign], 0, 1, [0, 0, sign]),  # and -0 beside numbers that cancel
        ([sign] * 65, sign, 0, [sign] * 65),
        ([sign] * 64 + [0], 0, 0, [sign] * 64 + [0]),
        ([sign, one, sign], one, 1, [sign, 0, sign]),  # a remainder of -0 stays
        ([1 << p - 3, sign | (1 << p - 3) - 1], 1, 1, [0, 0]),  # sigma is the least normal number and t' one unit: finished
        ([1 << p - 2, sign | (1 << p - 2) - 1], 1, 2, [0, 0]),  # sigma is twice that and t' one unit: another round
        ([one, sign | one - 128], bits(2.0 ** (7 - p)), 1, [0, 0]),  # t' is just 2^(2M+1) eps sigma: finished
        ([one, sign | one - 124], bits(2.0 ** (7 - p) - 2.0 ** (2 - p)), 2, [0, 0]),  # less: another round
        ([one, sign | one - 512, w.two_to(2 - p) + 65], bits(2.0 ** (9 - p) + 2.0 ** (2 - p)) + 1, 2, [0, 0, w.two_to(3 - 2 * p)]),  # tau2 and T, added first
    ]


def check_witnesses(walk, chance):
    w, most, half = walk.width, walk.width.length, walk.width.length // 2
    one, large, p = w.one, w.limit + 1, w.precision
    for k, (patterns, pattern, rounds, area) in enumerate(cases(w), 1):
        expect("case", answer_of(walk, patterns) == (("done", pattern, rounds), area), w.name, k)
        check_list(walk, patterns, chance)
    expect("case 9", answer_of(walk, [large]) == (("refused", 3, 0), [w.bits_of(1.5)]))
    expect("too many", walk.opening([w.infinity] * (most + 1), [0]) == ("refused", 1, 0))
    for n, second, places, refused in [
        (2, one, 1, (4, 0)), (2, one, 3, (4, 0)), (2, w.infinity, 1, (4, 0)), (2, large, 3, (4, 0)), (2, w.infinity, 2, (2, 1)), (0, 0, 1, (4, 0)),
        (most, w.infinity, most + 1, (4, 0)), (most + 1, one, 2, (1, 0)), (most + 1, w.infinity, most, (1, 0)), (most + 1, one, most + 1, (1, 0)),
    ]:
        for call in (walk.opening, walk.faithful):
            patterns, area = ([one, second] + [one] * n)[:n], [0] * places
            expect("lengths", call(patterns, area) == ("refused", *refused) and area == [0] * places, w.name, n, places, call)
    expect("lowest", walk.opening([one, large, w.infinity], [0, 0, 0]) == ("refused", 3, 1))
    by_blocks, k = two_blocks(w, [0] * 64)
    expect("T", answer_of(walk, by_blocks)[0] == ("done", w.two_to(k), 1))
    expect("T by blocks", w.bits_of(2.0**k + (2.0 ** (k - p) + sum([2.0 ** (k - 2 * p - 1)] * 64))) == w.two_to(k) + 1)
    for n in (half, most):
        longest = ladder(walk, n, p - exponent_of(most), 0)
        expect("most rounds", answer_of(walk, longest)[0] == ("done", 1, w.rounds + 1), w.name, n)
    check_list(walk, ladder(walk, half, p - exponent_of(most), 0), chance)
    check_list(walk, by_blocks, chance)
    expect("all pending", walk.opening([one] * most, [0] * most)[1].pending == 2 ** -(-most // 64) - 1)


def numberless(answer):
    """An answer as a walk gives it that knows no ensembles."""
    return ("more", answer[1]._replace(ensemble=0), answer[2]) if answer[0] == "more" else answer


def both_steps(walk, s, area, block, ensemble=None):
    """A step in integers, held to the same in the machine's numbers, which know no ensembles. It names the state's own, unless it is told another."""
    named = s.ensemble if ensemble is None else ensemble
    other = Hardware(walk.width, s, area)
    held, before = other.step(block) if named == s.ensemble or len(area) != s.n else ("refused", 21, 0), list(area)
    answer = walk.step(s, area, block, named)
    COUNTS["steps"] += 1
    COUNTS["step", answer[0] if answer[0] != "refused" else answer[1]] += 1
    expect("step", held == numberless(answer) and other.patterns() == area, s, block, answer, held)
    expect("refusal writes nothing", answer[0] != "refused" or before == area, s, block)
    right = len(before) == s.n and named == s.ensemble
    expect("8, 18 and 19", (answer[0] == "refused" and answer[1] in UNSOUND) == (right and not walk.sound(s, before)), s, block, answer)
    if walk is DOUBLES:
        expect("before there were two widths", former.step(s, before, block, named) == answer and before == area, s, block, answer)
    if answer[0] == "more":
        now, told = answer[1:]
        expect("ensemble", now.ensemble == s.ensemble, s, block, answer)
        expect("kept and told", s.largest <= told and now.largest == (told if now.rounds == s.rounds else 0), s, block, answer)
    return answer


def check_foreign(walk, chance):
    for _ in range(4000):
        s, area = foreign(walk, chance)
        expect("sound", walk.sound(s, area), s)
        for _ in range(chance.choice([1, 3, 8])):
            answer = both_steps(walk, s, area, seeded(s.pending, chance.getrandbits(64)) if chance.random() < 0.9 else chance.randint(0, 66))
            if answer[0] == "done" or answer[0] == "refused" and answer[1] in UNSOUND:
                break
            s = answer[1] if answer[0] == "more" else s
        named = s.ensemble ^ 1 << chance.randrange(32)
        expect("another ensemble", both_steps(walk, s, area, chance.randint(0, 66), named) == ("refused", 21, 0), s, named)


def check_foreign_witnesses(walk):
    w, p = walk.width, walk.width.precision
    one, two_to, sigma = w.one, w.two_to, w.two_to(8)
    # rounds: as many closed as may be and not finished is more with one more, after which 8; finished with one more
    s = State(sigma, 0, 0, 1, 1, w.rounds)
    area = [two_to(-60)]
    answer = both_steps(walk, s, area, 0)
    expect("a round more", answer == ("more", State(two_to(-58), 0, 0, 1, 1, w.rounds + 1), two_to(-60)), answer)
    expect("a round more, next", both_steps(walk, answer[1], area, 0) == ("refused", 8, 0))
    expect("a round more, finished", both_steps(walk, s, [one], 0) == ("done", one, w.rounds + 1))
    # tau passes what it may be, after which 8
    s, area = State(two_to(w.magnitude + 7), 0, w.carried, 65, 3, 0), [w.limit] * 65
    answer = both_steps(walk, s, area, 0)
    tau = walk.pattern_of(walk.units(w.carried) + (1 << w.top + 6))
    expect("tau", answer == ("more", s._replace(tau=tau, pending=2), 0), answer)
    expect("tau, next", both_steps(walk, answer[1], area, 1) == ("refused", 8, 0))
    # tau is added to in the order of places: the first is half of its last place, and the tie is to the even
    half, middle = w.carried - (p << w.digits), 1 << w.digits - 1
    for terms, last in (((half, half + middle), 1), ((half + middle, half), 2)):
        answer = both_steps(walk, s, [*terms] + [0] * 63, 0)
        expect("tau's order", answer == ("more", s._replace(tau=w.carried + last, pending=2), 0), answer)
    # rule W4 with a block that was not taken: too large for the next sigma
    s, area = State(sigma, two_to(10 - p), 0, 65, 1, 0), [0] * 64 + [one]
    answer = both_steps(walk, s, area, 0)
    expect("rule W4", answer == ("more", State(two_to(15 - p), two_to(10 - p), 0, 65, 3, 1), 0), answer)
    expect("rule W4, next", both_steps(walk, answer[1], area, 0) == ("refused", 19, 64))
    # a finish by rule W3 that answers +0
    answer = both_steps(walk, State(sigma, one, 0, 65, 1, 0), [0] * 64 + [w.sign | one], 0)
    expect("+0 by rule W3", answer == ("done", 0, 1), answer)


def check_kept_numbers(walk):
    """Foreign states at whose close the kept number isn't the area's largest. In the first, block 2 was neither pending nor taken: a call gives out the state
    behind block 0, and of that one the close of before restarts where the close of now answers +0."""
    two_to, p = walk.width.two_to, walk.width.precision
    sigma, tiny, small = two_to(8), two_to(-60), two_to(-70)
    area = [0] * 128 + [tiny]
    given_out = both_steps(walk, State(sigma, 0, 0, 129, 3, 0), area, 0)
    expect("given out", given_out == ("more", State(sigma, 0, 0, 129, 2, 0), 0) and area == [0] * 128 + [tiny], given_out)
    s, restart = given_out[1], State(two_to(-52), 0, 0, 129, 7, 1)
    before = Hardware(walk.width, s, area, former=True).step(1)
    expect("before", walk.step(s, list(area), 1, 0, walk.former_close) == before == ("more", restart, 0))
    expect("now", both_steps(walk, s, area, 1) == ("done", 0, 1))
    # it alone decides: with nothing left a round begins, and one too small for what is left is followed by 19
    area = [0] * 129
    answer = both_steps(walk, s._replace(largest=tiny), area, 1)
    expect("nothing left", answer == ("more", restart, tiny), answer)
    expect("nothing left, before", walk.step(s._replace(largest=tiny), list(area), 1, 0, walk.former_close) == ("done", 0, 1))
    area = [0] * 128 + [tiny]
    answer = both_steps(walk, s._replace(largest=small), area, 1)
    expect("too small", answer == ("more", State(two_to(-62), 0, 0, 129, 7, 1), small), answer)
    expect("too small, next", both_steps(walk, answer[1], area, 0) == ("refused", 19, 128))
    # a restart from the number alone, larger than anything left; and from the block's own, where that is larger
    for kept, mu in ((two_to(8 - p), two_to(8 - p)), (small, tiny)):
        answer = both_steps(walk, State(sigma, 0, 0, 1, 1, 0, 0, kept), [walk.width.sign | tiny], 0)
        expect("the larger", answer == ("more", State(walk.pattern_of(walk.sigma_of(1, mu)), 0, 0, 1, 1, 1), mu), answer)


def changes(w, m):
    """Of a sound state of 65 numbers, with sigma 2^8 and block 1 pending: what is changed, the block of the step, and its refusal."""
    sign, infinity, nan, sigma, most, carried = w.sign, w.infinity, w.infinity + 1, w.two_to(8), w.two_to(8 - w.precision), w.carried
    yield from [
        ({}, 0, 7), ({}, 2, 6), ({}, 63, 6), ({}, 64, 6), ({}, 2**63, 6), ({"pending": 1}, 1, 7), ({"pending": 0}, 1, 18), ({"pending": 4}, 1, 18),
        ({"pending": 2**64 - 1}, 1, 18), ({"pending": 0, "rounds": w.rounds + 1}, 1, 8), ({"n": 64}, 9, 4), ({"n": 66}, 9, 4), ({"n": 0}, 9, 4),
        ({"n": 2**64 - 1}, 9, 4), ({"rounds": w.rounds + 1}, 9, 8), ({"sigma": sigma + 1}, 1, 8), ({"sigma": sign | sigma}, 1, 8), ({"sigma": 0}, 1, 8),
        ({"sigma": nan}, 1, 8), ({"sigma": infinity}, 1, 8), ({"sigma": w.two_to(w.magnitude + 1 + m)}, 1, 8), ({"t": carried + 1}, 1, 8),
        ({"t": sign | nan}, 1, 8), ({"t": sign | infinity}, 1, 8), ({"tau": sign | carried + 1}, 1, 8), ({"tau": nan}, 1, 8), ({"tau": infinity}, 1, 8),
        ({"largest": sign}, 1, 8), ({"largest": sign | 1}, 1, 8), ({"largest": most + 1}, 1, 8), ({"largest": most}, 0, 7),
        ({"largest": sign | most}, 9, 8), ({"largest": nan}, 9, 8), ({"largest": sign | nan}, 0, 8), ({"largest": infinity}, 0, 8),
        ({"largest": sign | infinity}, 0, 8), ({"largest": sign, "pending": 0}, 9, 8), ({"largest": sign, "n": 64}, 9, 4),
    ]  # fmt: skip
    for wide in [1 << k for k in range(w.bits, 64)]:  # bits that no pattern of the width has
        for what, number in (("sigma", sigma), ("t", 0), ("t", sign), ("tau", 0), ("largest", 0)):
            yield from [({what: wide | number}, 1, 8), ({what: wide | number, "pending": 0}, 9, 8), ({what: wide | number, "n": 64}, 9, 4)]


def check_refusals(walk):
    w, p = walk.width, walk.width.precision
    sign, nan, two_to = w.sign, w.infinity + 1, w.two_to
    m, s, area = 7, State(two_to(8), sign, sign, 65, 2, 0), [sign] * 64 + [two_to(1)]
    for change, block, number in changes(w, m):
        expect("refusal", both_steps(walk, s._replace(**change), list(area), block) == ("refused", number, 0), w.name, change, block, number)
    expect("refusal", both_steps(walk, s._replace(sigma=two_to(7)), area, 9) == ("refused", 19, 64))
    for place, pattern in ((0, nan), (0, sign | w.infinity), (64, nan), (63, two_to(1) + 1), (64, sign | two_to(1) + 1)):
        bad = area[:place] + [pattern] + [nan] * (64 - place)
        for last in (bad, bad[: place + 1] + area[place + 1 :]):  # the lowest of several, and one alone
            for block in (1, 0, 2):
                expect("refusal", both_steps(walk, s, last, block) == ("refused", 19, place), place, pattern)
            expect("refusal", both_steps(walk, s._replace(pending=0), last, 0) == ("refused", 18, 0), place, pattern)
            expect("refusal", both_steps(walk, s._replace(rounds=w.rounds + 1), last, 0) == ("refused", 8, 0), place, pattern)
    for n in (0, w.length + 1):
        expect("refusal", both_steps(walk, s._replace(n=n), [0] * n, 0) == ("refused", 8, 0), n)
    low = walk.pattern_of(1 << m)
    expect("least sigma", both_steps(walk, s._replace(sigma=low), [1] * 65, 1)[0] == "done")
    expect("below it", both_steps(walk, s._replace(sigma=low // 2), [0] * 65, 1) == ("refused", 8, 0))
    # eps times sigma in units: below 2^p of them it is less than one, and from there on each unit more is too much
    limits = (m, 1, True), (p - 1, 0, False), (p - 1, 1, True), (p, 1, False), (p, 2, True), (p + 1, 2, False), (p + 1, 3, True), (p + 7, 129, True)
    for k, kept, refused in limits:
        answer = both_steps(walk, s._replace(sigma=walk.pattern_of(1 << k), largest=kept), [0] * 65, 1)
        expect("eps times sigma", (answer == ("refused", 8, 0)) == refused, k, kept, answer)


# ---- the widths
# of each width: the exponents of a unit and of the least normal number, 1, the sign, the infinity, the largest magnitude, the largest t, M at most, the longest
# list and the most rounds, all by hand
BY_HAND = {
    DOUBLES: (-1074, -1022, 0x3FF0000000000000, 0x8000000000000000, 0x7FF0000000000000, 0x7E70000000000000, 0x7F30000000000000, 12, 4094, 51),
    SINGLES: (-149, -126, 0x3F800000, 0x80000000, 0x7F800000, 0x71800000, 0x77000000, 11, 2046, 20),
}


def check_width(walk, chance):
    """The record's numbers, and what a pattern is, by the machine."""
    w = walk.width
    known = w.unit, w.unit + w.digits, w.one, w.sign, w.infinity, w.limit, w.carried, exponent_of(w.length), w.length, w.rounds + 1
    expect("by hand", known == BY_HAND[walk], w.name, known)
    expect("the stopping test", 2 ** (2 * exponent_of(w.length) + 1) <= 2**w.precision and rounds_most(w, w.length) == w.rounds + 1, w.name)
    for k in range(3000):
        pattern = chance.randrange(w.infinity) if k % 3 else chance.choice([0, w.infinity - 2, w.least_normal]) + chance.randrange(2)
        expect("units", walk.units(pattern) * fractions.Fraction(2) ** w.unit == w.value(pattern) and w.bits_of(w.value(pattern)) == pattern, w.name, pattern)


def check_one_width(chance):
    """The functions of before there were two, on one number at a time."""
    w = DOUBLES.width
    for _ in range(3000):
        pattern = signed_pattern = chance.randrange(w.infinity - (1 << w.digits)) | chance.getrandbits(1) << 63
        expect("units", DOUBLES.units(pattern) == former.units(pattern) and DOUBLES.pattern_of(DOUBLES.units(pattern)) == signed_pattern, pattern)
        total = chance.getrandbits(chance.randint(1, 2090))
        total = chance.choice([1, -1]) * chance.choice([total, (1 << 53 | chance.getrandbits(53) | 1) << chance.randint(0, 2030)])  # or a tie
        expect("rounded", DOUBLES.rounded(total) == former.rounded(total) and exact.nearest(total) == former.nearest(total), total)
        anything = chance.getrandbits(64) | chance.choice([0, w.infinity])
        anything = chance.choice([anything, w.limit + chance.randint(-1, 1), w.infinity + chance.randint(-1, 1)])
        expect("fault", exact.fault(anything) == former.fault(anything) and exact.size(anything % w.sign) == former.size(anything % w.sign), anything)
        area = [0] * chance.randint(1, 2)
        expect("refusal", DOUBLES.refusal([0, anything], area) == former.refusal([0, anything], area), anything, len(area))


def check_nearest(chance):
    """The nearest binary32 number, by the machine: a whole number of up to 53 bits is a double, which it rounds once."""
    w = SINGLES.width
    for _ in range(3000):
        whole = chance.getrandbits(chance.randint(1, 53)) * chance.choice([1, -1])
        whole = chance.choice([whole, whole | (1 << 25) - 1, (whole >> 25 << 1 | 1) << 24])
        nearest = w.bits_of(whole * 2.0**w.unit)
        expect("nearest", exact.SINGLES.nearest(whole) % w.sign == nearest % w.sign and (nearest == 0 or nearest >> 31 == (whole < 0)), whole)
        expect("rounded", SINGLES.rounded(whole) == SINGLES.units(nearest), whole)
    sums = [exact.SINGLES.nearest_sum(patterns) for patterns in ([w.sign] * 3, [w.sign, 0], [])]
    expect("zero", sums == [w.sign, 0, 0], sums)
    faults = [exact.SINGLES.fault(p | sign) for sign in (0, w.sign) for p in (w.limit, w.limit + 1, w.infinity - 1, w.infinity, w.infinity + 1)]
    expect("fault", faults == [0, 3, 3, 2, 2] * 2, faults)


def check_longer_list(chance):
    """Why a list of binary32 has no more than 2,046 numbers, of which M is 11: with one more M would be 12, 2^(2M+1) eps above 1, and this sum not faithful."""
    longer = Walk(widths.Width(*[2047 if name == "length" else value for name, value in widths.SINGLES._asdict().items()]))
    few = [0x3F800000, 0x3F000000, 0xB3800000, 0xB3000000, 0xB3000000]  # 1, 1/2, -2^-24, -2^-25, -2^-25
    for walk, n, wanted in ((SINGLES, 2046, 0x3FBFFFFF), (longer, 2046, 0x3FBFFFFF), (longer, 2047, 0x3FC00000)):
        answer = answer_of(walk, few + [0] * (n - 5))[0]
        total = walk.exact_sum(few)
        expect("one number more", answer[:2] == ("done", wanted) and walk.is_faithful(wanted, total) == (n == 2046), n, answer)
    expect("one number more", SINGLES.exact_sum(few) == SINGLES.units(0x3FBFFFFF) and exact.SINGLES.nearest_sum(few) == 0x3FBFFFFF)
    expect("one number more", answer_of(SINGLES, few + [0] * 2042)[0] == ("refused", 1, 0))
    check_list(SINGLES, few + [0] * 2041, chance)


def main():
    command.asked(__doc__)
    chance = random.Random(1)
    for walk in (DOUBLES, SINGLES):
        check_width(walk, chance)
        check_witnesses(walk, chance)
        check_refusals(walk)
        check_foreign_witnesses(walk)
        check_kept_numbers(walk)
        check_foreign(walk, chance)
        check_lists(walk, chance)
    check_one_width(chance)
    check_nearest(chance)
    check_longer_list(chance)
    rounds = ", ".join(f"{walk.width.name} with rounds {sorted(k[2] for k in COUNTS if k[0] == walk.width.name)}" for walk in (DOUBLES, SINGLES))
    steps = {k[1]: n for k, n in COUNTS.items() if k[0] == "step"}
    for difference in DIFFERENCES[:9]:
        print(*(text if len(text) < 500 else text[:500] + " .." for text in map(str, difference)))
    runs = f"{COUNTS['lists']} lists, {rounds}, {COUNTS['restarts']} restarts held to those of before"
    print(f"walk: {runs}, {COUNTS['steps']} foreign steps {steps}; {COUNTS['checks']} checks, {len(DIFFERENCES)} differences")
    return 1 if DIFFERENCES else 0


if __name__ == "__main__":
    sys.exit(main())
