"""The nearest sum, at both widths, and at binary64 the parts and the register, also the one that carries later, in exact integers, written from the scope
alone: they know nothing of the library's code.

Calls take and give patterns. Inside, a number is its whole units. A refusal is raised.
"""
import widths

PARTS, WORDS = 8, 33
NAN = widths.DOUBLES.nan  # what each NaN is shown as
UNIT = 1
BITS, ONES = 64 * WORDS, 2**64 - 1
LANES, CALLS = 66, 2**30


class Refused(Exception):
    """A refusal's number and place, 0 where none is told."""


class Sums:
    """Lists at a width, and their nearest sums."""

    def __init__(self, width):
        self.width = width

    def size(self, magnitude):
        """The units of a pattern without its sign."""
        exponent, fraction = divmod(magnitude, 1 << self.width.digits)
        return fraction if exponent == 0 else (2**self.width.digits + fraction) << (exponent - 1)

    def units(self, pattern):
        sign = self.width.sign
        return -self.size(pattern % sign) if pattern >= sign else self.size(pattern)

    def nearest(self, number):
        """The pattern of the number nearest a whole number of units. Patterns are in the order of their magnitudes: of the two around the number's the nearer,
        at a tie the even one."""
        goal = abs(number)
        low, high = 0, self.width.infinity
        while high - low > 1:
            middle = (low + high) // 2
            low, high = (middle, high) if self.size(middle) <= goal else (low, middle)
        below, above = goal - self.size(low), self.size(high) - goal
        magnitude = high if above < below or (above == below and low % 2) else low
        return magnitude + self.width.sign if number < 0 else magnitude

    def fault(self, pattern):
        magnitude = pattern % self.width.sign
        return 2 if magnitude >= self.width.infinity else 3 if magnitude > self.width.limit else 0

    def judge(self, patterns, parts=1):
        if len(patterns) > self.width.length:
            raise Refused(1, 0)
        if not 1 <= parts <= PARTS:
            raise Refused(5, 0)
        for place, pattern in enumerate(patterns):
            if self.fault(pattern):
                raise Refused(self.fault(pattern), place)

    def zero(self, patterns):
        """Rule S3: what a list with the exact sum zero answers."""
        return self.width.sign if patterns and all(pattern == self.width.sign for pattern in patterns) else 0

    def nearest_sum(self, patterns):
        self.judge(patterns)
        return self.nearest(sum(map(self.units, patterns))) or self.zero(patterns)


DOUBLES, SINGLES = Sums(widths.DOUBLES), Sums(widths.SINGLES)

# what is asked of binary64 alone
LENGTH, MAGNITUDE, SIGN, INFINITY, ONE = (getattr(widths.DOUBLES, name) for name in "length limit sign infinity one".split())
size, units, nearest, fault, judge, zero, nearest_sum = (
    getattr(DOUBLES, name) for name in "size units nearest fault judge zero nearest_sum".split()
)  # fmt: skip


def sum_in_parts(patterns, count):
    """The parts, and whether they add up to the sum."""
    judge(patterns, count)
    rest, parts = sum(map(units, patterns)), []
    for _ in range(count):
        parts.append(nearest(rest))
        rest -= units(parts[-1])
    parts[0] = parts[0] or zero(patterns)
    return parts, rest == 0


class Register:
    """Words, least significant first, in two's complement. Calls are tried with a wrong number of them too."""

    def __init__(self, words):
        self.words = list(words)

    def whole(self):
        natural = sum(word << 64 * i for i, word in enumerate(self.words))
        return natural - (1 << BITS) if natural >> (BITS - 1) else natural

    def store(self, whole):
        self.words = [whole >> 64 * i & ONES for i in range(WORDS)]

    def become(self, whole):
        """The same, unless it is outside 2112 bits."""
        if not -(1 << BITS - 1) <= whole < 1 << BITS - 1:
            raise Refused(9, 0)
        self.store(whole)

    def enter(self, pattern, sign):
        """Addition (sign 1) and withdrawal (sign -1)."""
        if len(self.words) != WORDS:
            raise Refused(4, 0)
        if fault(pattern):
            raise Refused(fault(pattern), 0)
        self.become(self.whole() + sign * units(pattern))

    def merge(self, one, other):
        """The sum of two other registers."""
        if {len(self.words), len(one.words), len(other.words)} != {WORDS}:
            raise Refused(4, 0)
        self.become(one.whole() + other.whole())

    def round(self):
        if len(self.words) != WORDS:
            raise Refused(4, 0)
        if abs(self.whole()) >= 2**2098 - 2**2044:
            raise Refused(10, 0)
        return nearest(self.whole())


class Lanes:
    """Lanes of 32 bits each, least significant first, and how many additions and withdrawals they have taken since they were settled."""

    def __init__(self, lanes, count):
        self.lanes, self.count = list(lanes), count

    def whole(self):
        return sum(lane << 32 * i for i, lane in enumerate(self.lanes))

    def look(self):
        if len(self.lanes) != LANES:
            raise Refused(4, 0)
        if self.count > CALLS or any(abs(lane) > (self.count + 1) << 32 for lane in self.lanes):
            raise Refused(25, 0)

    def enter(self, pattern, sign):
        """Addition (sign 1) and withdrawal (sign -1)."""
        self.look()
        if fault(pattern):
            raise Refused(fault(pattern), 0)
        if self.count == CALLS:
            raise Refused(24, 0)
        number = sign * units(pattern)
        one, rest = (1 if number > 0 else -1), abs(number)
        for i in range(LANES):
            self.lanes[i] += one * (rest >> 32 * i & 2**32 - 1)
        self.count += 1

    def settle(self, words):
        """The words, and the lanes in two's complement with a sign in the top one."""
        if len(words) != WORDS:
            raise Refused(4, 0)
        self.look()
        register = Register(words)
        register.become(self.whole())
        digits = [word >> shift & 2**32 - 1 for word in register.words for shift in (0, 32)]
        self.lanes, self.count = digits[:-1] + [digits[-1] - (digits[-1] >> 31 << 32)], 0
        return register.words
