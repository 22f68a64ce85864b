"""The walk and the nearest sum at binary64 as they were written before there was a second width, with that one's numbers in place. tests/walk.py holds those
over widths to them: at binary64 nothing may differ."""
import functools

from states import State

LENGTH, MAGNITUDE, BLOCK, CARRIED, ROUNDS = 4094, 0x7E70000000000000, 64, 0x7F30000000000000, 50
SIGN, INFINITY = 1 << 63, 0x7FF << 52
LEAST_NORMAL = 1 << 52  # 2^-1022 in units


# ---- doubles as whole units
class MinusZero(int):
    """The zero that is equal to 0 in every sum and comparison, and has the other sign."""


MINUS = MinusZero(0)


def units(pattern):
    exponent, fraction = divmod(pattern % SIGN, 1 << 52)
    assert exponent < 0x7FF
    size = fraction if exponent == 0 else (1 << 52 | fraction) << exponent - 1
    if pattern < SIGN:
        return size
    return -size if size else MINUS


def pattern_of(x):
    size = abs(x)
    shift = max(size.bit_length() - 53, 0)
    significand = size >> shift
    assert significand << shift == size and shift < 0x7FE - 1, "no finite double"
    pattern = (shift + 1 << 52) + significand - (1 << 52) if significand >> 52 else significand
    return pattern + SIGN if x < 0 or x is MINUS else pattern


def rounded(x):
    """The nearest number of 53 bits, ties to the even one. The floor and its follower are the two around x, for a negative x too."""
    extra = x.bit_length() - 53
    if extra <= 0:
        return x
    floor = x >> extra
    rest, half = x - (floor << extra), 1 << extra - 1
    if rest > half or (rest == half and floor & 1):
        floor += 1
    assert floor.bit_length() + extra <= 2098, "overflow"
    return floor << extra


def add(x, y):
    """A zero sum is -0 only where both are -0."""
    total = x + y
    return rounded(total) if total else MINUS if x is MINUS and y is MINUS else 0


def sub(x, y):
    return add(x, -y if y else 0 if y is MINUS else MINUS)


# ---- the walk's numbers
def exponent_of(n):
    """M, rule L7."""
    return (n + 1).bit_length()


def blocks_of(n):
    return -(-n // BLOCK)


def largest(area):
    """The largest magnitude, as a pattern: without their sign, patterns are in the order of their magnitudes, and infinities and NaNs above all."""
    return max(map((SIGN - 1).__and__, area), default=0)


def sigma_of(n, mu):
    """2^(M+e), e the least whole number with mu, a pattern, at most 2^e."""
    return 1 << exponent_of(n) + (units(mu) - 1).bit_length()


def round_of(n, sigma, t, rounds, ensemble=0):
    """A new round: tau and the largest remainder are +0, and all blocks pending."""
    return State(pattern_of(sigma), pattern_of(t), 0, n, (1 << blocks_of(n)) - 1, rounds, ensemble)


def refusal(patterns, area):
    if len(patterns) > LENGTH:
        return "refused", 1, 0
    if len(area) != len(patterns):
        return "refused", 4, 0
    for place, p in enumerate(patterns):
        if p % SIGN > MAGNITUDE:
            return "refused", 2 if p % SIGN >= INFINITY else 3, place
    return None


def opening(patterns, area, ensemble=0):
    refused = refusal(patterns, area)
    if refused:
        return refused
    area[:] = patterns
    if not largest(area):
        return "done", pattern_of(functools.reduce(add, map(units, area)) if area else 0), 0  # rule S3: as IEEE 754 adds zeros, from the first on
    return "more", round_of(len(area), sigma_of(len(area), largest(area)), 0, 0, ensemble), 0


def sound_numbers(s):
    """Rules WS3, WS4, WS6, WS7 and WS15. A pattern with a sign is above all that have none, and so is a NaN's or an infinity's above a number's."""
    if not (0 < s.n <= LENGTH and s.rounds <= ROUNDS and 0 < s.sigma < INFINITY):
        return False
    m = exponent_of(s.n)
    k = units(s.sigma).bit_length() - 1
    if units(s.sigma) != 2**k or not m <= k <= m + 2074 or s.largest > pattern_of(2**k >> 53):
        return False
    return s.t & SIGN - 1 <= CARRIED and s.tau & SIGN - 1 <= CARRIED


def unsound(s, area):
    """The refusal of a state that isn't sound, and its place: 8 for its numbers, 18 for its set, 19 for the lowest work number that is too large or none."""
    if not sound_numbers(s):
        return 8, 0
    if not s.pending or s.pending >> blocks_of(s.n):
        return 18, 0
    most = pattern_of(units(s.sigma) >> exponent_of(s.n))
    return (19, [p % SIGN <= most for p in area].index(False)) if largest(area) > most else None


def closed_by(mu, s, area):
    """The four rules, with mu for the first two of them. What is told is the number of the round that closes."""
    sigma, t, tau, m, rounds = units(s.sigma), units(s.t), units(s.tau), exponent_of(s.n), s.rounds + 1
    total = add(t, tau)
    if total == 0 and not mu:
        return "done", 0, rounds
    if total == 0:
        return "more", round_of(s.n, sigma_of(s.n, mu), 0, rounds, s.ensemble), s.largest
    if sigma <= LEAST_NORMAL or abs(total) << 53 >= sigma << 2 * m + 1:
        rest = 0
        for p in area:
            rest = add(rest, units(p))
        return "done", pattern_of(add(total, add(sub(tau, sub(total, t)), rest))), rounds
    return "more", round_of(s.n, (sigma << m) >> 53, total, rounds, s.ensemble), s.largest


def step(s, area, block, ensemble):
    """Refusals in the order 4, 21, 8, 18, 19, 6, 7."""
    if len(area) != s.n:
        return "refused", 4, 0
    if ensemble != s.ensemble:
        return "refused", 21, 0
    fault = unsound(s, area)
    if fault:
        return "refused", *fault
    if block >= blocks_of(s.n):
        return "refused", 6, 0
    if not s.pending >> block & 1:
        return "refused", 7, 0
    sigma, tau, most = units(s.sigma), units(s.tau), units(s.largest)
    for place in range(BLOCK * block, min(BLOCK * block + BLOCK, s.n)):
        p = units(area[place])
        q = sub(add(sigma, p), sigma)
        rest = sub(p, q)
        area[place] = pattern_of(rest)
        tau, most = add(tau, q), max(most, abs(rest))
    s = s._replace(tau=pattern_of(tau), largest=pattern_of(most), pending=s.pending - (1 << block))
    return ("more", s, s.largest) if s.pending else closed_by(s.largest, s, area)


def faithful(patterns, area):
    """The undivided call: blocks in rising order."""
    answer = opening(patterns, area)
    while answer[0] == "more":
        pending = answer[1].pending
        answer = step(answer[1], area, (pending & -pending).bit_length() - 1, 0)
    return answer


# ---- the nearest sum
def size(magnitude):
    """The units of a pattern without its sign."""
    exponent, fraction = divmod(magnitude, 1 << 52)
    return fraction if exponent == 0 else (2**52 + fraction) << (exponent - 1)


def nearest(number):
    """The pattern of the double nearest a whole number of units. Patterns are in the order of their magnitudes: of the two around the number's the nearer, at a
    tie the even one."""
    goal = abs(number)
    low, high = 0, INFINITY
    while high - low > 1:
        middle = (low + high) // 2
        low, high = (middle, high) if size(middle) <= goal else (low, middle)
    below, above = goal - size(low), size(high) - goal
    magnitude = high if above < below or (above == below and low % 2) else low
    return magnitude + SIGN if number < 0 else magnitude


def fault(pattern):
    magnitude = pattern % SIGN
    return 2 if magnitude >= INFINITY else 3 if magnitude > MAGNITUDE else 0
