"""The two widths that lists are summed in. Each number by which they differ is given here, and once; whatever follows from those is worked out."""
import collections
import struct

BLOCK = 64  # numbers of a block, in both

# bits of a pattern; digits of a significand; the exponent of the largest magnitude; numbers of a list at most; rounds that a sound state has closed at most;
# struct's letters of a pattern and of a number
Given = collections.namedtuple("Given", "name bits precision magnitude length rounds pattern number")


def exponent_of(n):
    """M, rule L7."""
    return (n + 1).bit_length()


def blocks_of(n):
    """B, rule L9."""
    return -(-n // BLOCK)


class Width(Given):
    """A format of IEEE 754, and the limits on its lists and states. Patterns are without a sign where nothing else is said."""

    def __init__(self, *_):
        self.digits = self.precision - 1  # that a pattern stores; its field stands above them
        self.fields = (1 << self.bits - self.precision) - 1  # the field of infinities and NaNs
        self.unit = 2 - self.fields // 2 - self.precision  # the exponent of the least number above zero
        self.top = self.magnitude - self.unit  # the largest magnitude is 2^top units
        self.sign = 1 << self.bits - 1
        self.infinity = self.fields << self.digits
        self.nan = self.infinity | 1 << self.digits - 1
        self.limit, self.one = self.power(self.top), self.power(-self.unit)
        self.carried = self.power(self.top + exponent_of(self.length))  # the most that t and tau may be
        self.least_normal = 1 << self.digits  # in units
        self.beyond = self.precision + self.fields - 2  # 2^beyond units are more than any finite number

    def power(self, k):
        """The pattern of 2^k units: one digit of a subnormal number, or a field over no digit."""
        return 1 << k if k < self.digits else k - self.digits + 1 << self.digits

    def two_to(self, exponent):
        """The pattern of 2^exponent."""
        return self.power(exponent - self.unit)

    def value(self, pattern):
        """The number of a pattern, as Python has it."""
        return struct.unpack(f"<{self.number}", struct.pack(f"<{self.pattern}", pattern))[0]

    def bits_of(self, value):
        """The pattern of a number; the nearest one's, where it is none of this width."""
        return struct.unpack(f"<{self.pattern}", struct.pack(f"<{self.number}", value))[0]

    def packed(self, patterns):
        return struct.pack(f"<{len(patterns)}{self.pattern}", *patterns)

    def unpacked(self, data):
        return list(struct.unpack(f"<{len(data) // (self.bits // 8)}{self.pattern}", data))


DOUBLES = Width("binary64", 64, 53, 1000, 4094, 50, "Q", "d")
SINGLES = Width("binary32", 32, 24, 100, 2046, 19, "I", "f")
