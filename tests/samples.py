"""What the tests run on, at both widths: numbers and lists from a generator, as patterns."""
import shapes
import widths
from exact import ONES, UNIT

START = 0x9E3779B97F4A7C15


def following(r):
    """xorshift64: r ^= r << 13, r ^= r >> 7, r ^= r << 17, in 64 bits."""
    r ^= r << 13 & ONES
    r ^= r >> 7
    return r ^ r << 17 & ONES


def seed(group, k):
    """Where case k of a group begins: three turns from START with digits turned over, k's and from the 32nd on the group's."""
    return following(following(following(START ^ group << 32 ^ k)))


def endless(r):
    """The turns of the generator after r."""
    while True:
        r = following(r)
        yield r


def turns(n, r):
    """The first n of them."""
    return [turn for _, turn in zip(range(n), endless(r))]


KINDS = 11  # of numbers


def mirrored(numbers, flip):
    """The second half is the first backwards with the bits of `flip` turned over: with the sign alone they cancel, with the last bit too they nearly do."""
    half = len(numbers) // 2
    return numbers[: len(numbers) - half] + [p ^ flip for p in reversed(numbers[:half])]


class Samples:
    """Numbers and lists at a width."""

    def __init__(self, width):
        self.width = width
        sign, limit, infinity, one, place = width.sign, width.limit, width.infinity, width.one, 1 << width.digits
        self.special = [
            limit,
            sign + limit,
            limit + 1,
            sign + limit + 1,
            infinity - 1,
            sign + infinity - 1,
            infinity,
            sign + infinity,
            infinity + 1,
            width.nan,
            2 * sign - 1,
        ]
        # the kinds of numbers: from which magnitude on, and how many magnitudes; the last kind is the special ones
        self.ranges = [
            (0, limit + 1),  # every allowed one
            (0, 2 * place),  # subnormals and the smallest others
            (0, 8),  # a few units
            (0, 1),  # zeros
            (one, place),  # from 1 to 2
            (one - 63 * place, 128 * place),  # 128 exponents around 1
            (limit - 2 * place, 2 * place + 1),  # the largest
            (limit, 1),  # the limit
            (limit - 30, 32),  # one in 32 just above the limit
            (0, sign),  # every pattern: NaNs, infinities and numbers above the limit too
        ]

    # ---- numbers
    def number(self, kind, r):
        if kind == KINDS - 1:
            return self.special[r % len(self.special)]
        base, span = self.ranges[kind]
        return self.width.sign * (r & 1) | base + (r >> 1) % span

    def filled(self, n, kind, r):
        """n numbers of a kind, one for each turn."""
        return [self.number(kind, turn) for turn in turns(n, r)]

    def zeros(self, n, r):
        """Zeros of both signs."""
        return self.filled(n, 3, r)

    # ---- shapes of lists, each made from three turns a, b and c
    def plain(self, n, kind, a, b, c):
        return self.filled(n, kind, c)

    def cancelling(self, n, kind, a, b, c):
        """The middle is a number of one of the first four kinds."""
        numbers = mirrored(self.filled(n, kind, c), self.width.sign | b & 1)
        numbers[n // 2] = self.number(b // 2 % 4, a)
        return numbers

    def tie(self, n, kind, a, b, c):
        """Two numbers halfway between two of the format, a third that may decide, and numbers that cancel. The two: a number and half of its last place; or a
        power of two, less half of the last place below it."""
        w = self.width
        power, places = b & 1, w.precision + 2 << w.digits
        x = self.number(0, a) if self.number(0, a) % w.sign >= places else w.one
        if power:
            x &= w.sign | w.infinity
        half = w.sign * (x >= w.sign) ^ w.sign * power | (x % w.sign >> w.digits) - w.precision - power << w.digits
        third = [0, UNIT, w.sign | UNIT, half, half ^ w.sign | UNIT][b // 2 % 5]
        return [x, half, third] + mirrored(self.filled(n // 2 * 2, kind, c), w.sign)

    def faulty(self, n, kind, a, b, c):
        """Two special numbers, at places that may be the same, in a list of one of the first eight kinds."""
        numbers = self.filled(n, kind % 8, c)
        numbers[b % n] = self.special[kind]
        numbers[c % n] = self.special[a % len(self.special)]
        return numbers

    # ---- the lists that are always tried
    def shaped(self):
        """Each of four shapes with each kind of numbers and each of four lengths."""
        for k in range(4 * KINDS * 4):
            shape, kind, length = k % 4, k // 4 % KINDS, k // 4 // KINDS
            a = seed(0, k)
            b = following(a)
            c = following(b)
            n = [1 + a % 9, 64, 65, 3 + a % 150][length]
            yield [self.plain, self.cancelling, self.tie, self.faulty][shape](n, kind, a, b, c)

    def examples(self):
        """The lists of rules T1 to T9."""
        one, sign, tiny, top = self.width.one, self.width.sign, self.width.two_to(-self.width.precision), self.width.two_to(100)
        yield from ([], [one], [sign, sign], [one, sign | one], [one, tiny], [one, tiny, UNIT], [top, one, sign | top], [UNIT, UNIT], [self.width.limit + 1])

    def longest(self):
        """Of the most numbers that are allowed, and of one more."""
        most = self.width.length
        for k, (n, kind) in enumerate([(most, 0), (most, 6), (most, 1), (most, 7), (most + 1, 2), (most + 1, 8)], 185):
            yield self.filled(n, kind, seed(0, k))

    def ladder(self, n, places, distance):
        """Pairs of powers of two that cancel, from the largest magnitude down, each `distance` times halved from the last; then one unit, and zeros."""
        w, numbers = self.width, self.zeros(n, distance)
        numbers[:places] = [w.power(w.top - i // 2 * distance) | w.sign * (i % 2) for i in range(places)]
        numbers[places] = UNIT
        return numbers

    def most_rounds(self, n):
        """A ladder that takes as many rounds as a list can, where n is at least half of the longest list's: 51 with 102 places at a distance of 41, and 20 with
        40 at a distance of 13."""
        return self.ladder(n, 2 * (self.width.rounds + 1), self.width.precision - widths.exponent_of(self.width.length))

    def few(self):
        """Where a likely mistake in the walk's rules shows."""
        one, sign, p = self.width.one, self.width.sign, self.width.precision
        yield [sign, one, sign]  # remainders of -0
        yield [1 << p - 3, sign | (1 << p - 3) - 1]  # sigma is the least normal number, and t' one unit
        yield [1 << p - 2, sign | (1 << p - 2) - 1]  # sigma is twice that, and t' one unit
        yield [one, sign | one - 128]  # t' is just 2^(2M+1) eps sigma
        yield [one, sign | one - 124]  # and less
        yield [one, sign | one - 512, self.width.two_to(2 - p) + 65]  # a tau2 that decides with T, and neither alone

    def signed_zeros(self):
        """Nothing but -0, and lists at which another look at the signs of zeros would go wrong (rule S3)."""
        one, sign, most = self.width.one, self.width.sign, self.width.length
        for n in (1, 3, 64, 65, most):
            yield [sign] * n
        for place, n in ((0, 2), (1, 2), (1, 3), (0, 65), (63, 65), (64, 65), (0, most), (most - 1, most)):
            yield [sign] * place + [0] + [sign] * (n - 1 - place)
        yield from ([0], [0, 0], [one, sign | one, sign], [sign, UNIT, sign | UNIT], [sign, sign, sign | UNIT])

    def long_ways(self):
        """Lists of many blocks or many rounds."""
        r, most, p = [seed(6, k) for k in range(16)], self.width.length, self.width.precision
        yield self.filled(63, 0, r[0])
        yield self.filled(128, 5, r[1])
        yield self.filled(1000, 0, r[2])
        for k, n, kind in ((3, 1000, 0), (4, 1000, 1), (5, most - 61, 4), (6, most, 0), (15, most, 7)):
            yield self.cancelling(n, kind, r[k], r[k] >> 20, r[k])
        yield self.zeros(65, r[13])
        for n, places, distance in ((64, 60, p - 3), (300, 90, p - 8)):
            yield self.ladder(n, min(places, 2 * (self.width.top // distance)), distance)
        yield self.most_rounds(most // 2)
        yield shapes.two_blocks(self.width, self.zeros(128, 1))[0]

    def lists(self):
        """All of them."""
        for group in (self.shaped, self.examples, self.longest, self.few, self.signed_zeros, self.long_ways):
            yield from group()


DOUBLES, SINGLES = Samples(widths.DOUBLES), Samples(widths.SINGLES)

# what is asked of binary64 alone
number, filled, zeros, cancelling, ladder, lists = (getattr(DOUBLES, name) for name in "number filled zeros cancelling ladder lists".split())
