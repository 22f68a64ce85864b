"""Steps from states that no call gave out: sound ones, and each thing that makes a state unsound, alone and beside every later refusal. They are for either
family of calls of the walk."""
import itertools

import samples
import walk
from calls import DOUBLES, SINGLES, TEN, step_of, stepped
from exact import ONES
from sequences import several, unread
from states import State
from widths import exponent_of


def nans(w):
    """Of a width: the least and the greatest, quiet ones and others, of both signs."""
    return [w.infinity + 1, w.sign | w.infinity + 1, w.nan, w.sign | w.nan, w.nan - 1, w.sign - 1, 2 * w.sign - 1]


class Base:
    """Numbers of a width that these states are made of, a sound state of 65 numbers, and what may be changed in it."""

    def __init__(self, w):
        self.width, self.sigma, self.small, self.two = w, w.two_to(8), w.two_to(-60), w.two_to(1)
        self.eps_sigma = w.two_to(8 - w.precision)  # the largest remainder that a round of this sigma leaves
        self.top_sigma = w.two_to(w.magnitude + 7)  # the largest of 65 numbers
        self.half = w.carried - (w.precision << w.digits)  # half of the last place of the largest tau
        self.state = State(self.sigma, w.sign, w.sign, 65, 2, 0, 0x89ABCDEF, self.small)
        self.area = [w.sign] * 64 + [self.two]
        # its own numbers, and seven times one that isn't sound
        self.unsound = [
            {}, {"rounds": w.rounds + 1}, {"sigma": self.sigma + 1}, {"t": w.nan}, {"tau": w.carried + 1}, {"rounds": 2**32}, {"largest": w.sign},
            {"largest": self.eps_sigma + 1},
        ]  # fmt: skip
        if w.bits < 64:  # a state's numbers have 64 bits: what a pattern can't be, though its lowest bits could
            self.unsound += [{"sigma": 2**32 | self.sigma}, {"t": 2**63}, {"tau": 2**32 | w.sign}, {"largest": 2**40}]

    def changed(self, what, number):
        """The state and its area, with one thing changed: a number of either."""
        s, area = self.state, list(self.area)
        if isinstance(what, int):
            area[what] = number
        elif what:
            s = s._replace(**{what: number})
        return s, area


BASES = {of: Base(of.width) for of in (DOUBLES, SINGLES)}


# ---- steps that no run takes
def witness(n, sigma, t, tau, pending, rounds, everywhere, place, number):
    """A state, and an area that holds one number everywhere but at a place."""
    area = [everywhere] * n
    area[place] = number
    return State(sigma, t, tau, n, pending, rounds), area


def witnesses(base):
    w, sigma = base.width, base.sigma
    one, sign, top, small, half = w.one, w.sign, base.top_sigma, base.small, base.half
    return [
        witness(1, sigma, 0, 0, 1, w.rounds, 0, 0, small),  # a last round that goes on, and is followed by 8
        witness(1, sigma, 0, 0, 1, w.rounds, 0, 0, one),  # one that finishes
        witness(65, top, 0, w.carried, 3, 0, w.limit, 0, w.limit),  # tau above its limit, and then 8
        witness(65, sigma, w.two_to(10 - w.precision), 0, 1, 0, 0, 64, one),  # a block not taken that is too large after rule W4
        witness(65, sigma, one, 0, 1, 0, 0, 64, sign | one),  # a finish by rule W3 that answers +0
        witness(129, sigma, 0, 0, 3, 0, 0, 128, small),  # +0, though a block that was not taken has something left
        witness(65, 128, sign, sign, 2, 0, 1, 0, 1),  # the least sigma
        witness(65, 64, sign, sign, 2, 0, 0, 0, 0),  # half of it
        witness(65, top, 0, w.carried, 3, 0, half, 63, half + (1 << w.digits - 1)),  # a tau that depends on the order inside a block
    ]


def state_witnesses(chance, of=DOUBLES):
    """The steps that no run takes."""
    for s, area in witnesses(BASES[of]):
        yield from several(s, area, walk.rising, itertools.repeat(0), of)


# ---- refusals
def changes(base):
    """What is changed and to which number, and the block of the step."""
    w, sigma, most = base.width, base.sigma, base.eps_sigma
    sign, infinity, carried = w.sign, w.infinity, w.carried
    yield from [
        ("", 0, 0), ("", 0, 2), ("", 0, 63), ("", 0, 64), ("", 0, 1 << 63), ("pending", 1, 1), ("pending", 0, 1), ("pending", 4, 9), ("pending", ONES, 1),
        ("n", 64, 9), ("n", 66, 9), ("n", 0, 9), ("n", ONES, 9), ("n", 2**32 + 65, 1), ("rounds", w.rounds + 1, 9), ("sigma", w.two_to(7), 9),
        ("sigma", sigma + 1, 1), ("sigma", sign | sigma, 1), ("sigma", 0, 1), ("sigma", infinity, 1),
        ("sigma", w.two_to(w.magnitude + 8), 1), ("t", carried + 1, 1), ("t", sign | infinity, 1), ("tau", sign | carried + 1, 1), ("tau", infinity, 1),
        (0, sign | infinity, 1), (0, infinity, 1), (63, base.two + 1, 1), (64, sign | base.two + 1, 1), ("", 0, 1), ("largest", 0, 1), ("largest", 1, 1),
        ("largest", most, 1), ("largest", most + 1, 1), ("largest", sign, 1), ("largest", sign | 1, 1), ("largest", sign | most, 1), ("largest", sigma, 1),
        ("largest", infinity, 1), ("largest", sign | infinity, 1), *((what, nan, 1) for what in ("sigma", "t", "tau", "largest", 0, 64) for nan in nans(w)),
    ]  # fmt: skip
    for k in range(w.bits, 64):  # a bit that no pattern has, alone and over what would be sound
        yield from ((what, 1 << k | low, 1) for what, own in (("sigma", sigma), ("t", sign), ("tau", 0), ("largest", base.small)) for low in (0, own))


def state_refusals(chance, of=DOUBLES):
    """Each thing that makes a state unsound, alone, with blocks that would be refused by 6 or 7; and lengths that no list has."""
    base, most = BASES[of], of.width.length
    for what, number, block in changes(base):
        for b in (block, 0, 2, ONES):
            yield stepped(*base.changed(what, number), b, unread(chance), of=of)[0]
    for n in (0, most, most + 1):
        for m in (0, 1, most, most + 1):
            for pending in (1, 2):
                yield stepped(base.state._replace(n=n, pending=pending), [of.width.sign] * m, pending - 1, of=of)[0]


def sigma_ends(chance, of=DOUBLES):
    """The least sigma of a length and the largest, half and twice as much, and the patterns beside them. The area holds the most that the sigma allows, or
    zeros."""
    w = of.width
    for n in (1, 2, 3, 6, 7, 64, 65, w.length // 2 - 1, w.length // 2, w.length):
        m = exponent_of(n)
        for k in (m - 1, m, m + 1, m + w.top - 1, m + w.top, m + w.top + 1):
            for sigma in (w.power(k) - 1, w.power(k), w.power(k) + 1):
                for number in (0, w.power(max(k - m, 0))):
                    request, answer, _ = stepped(State(sigma, 0, 0, n, 1, 0), [number] * n, 0, unread(chance), of=of)
                    sound = sigma == w.power(k) and m <= k <= m + w.top
                    assert (answer[0] != "refused") == sound, f"sigma {sigma:X} of {n} numbers: {answer}"
                    yield request


# of a state of 65 numbers two sets, and three that aren't sound; places at fault, in the block taken before and in the other
SETS = [2, 3, 0, 4, ONES]
PLACES = [[], [0], [63], [64], [0, 64], [5, 6, 63, 64], list(range(65))]


def state_faults(chance, of=DOUBLES):
    """Of steps that name the state's own ensemble each refusal beside every later one: 4, 8, 18, 19 with the lowest of several places, 6, 7. The ensembles' file
    has 21."""
    base, w = BASES[of], of.width
    for n, numbers, pending, places in itertools.product((65, 66), base.unsound, SETS, PLACES):
        area = list(base.area)
        for place in places:
            area[place] = chance.choice([base.two + 1, w.sign | w.limit, w.infinity, *nans(w)])
        for block in (0, 1, 2):
            yield stepped(base.state._replace(n=n, pending=pending, **numbers), area, block, unread(chance), of=of)[0]


def many_rounds(chance, of=DOUBLES):
    """Rounds of more than 32 bits, of which the lowest would be allowed: 8, but 4 where the work area doesn't fit, and before 6 and 7."""
    base = BASES[of]
    for rounds in (2**32 - 1, 2**32, 2**32 + 3, 2**33, 2**63, ONES):
        for n in (64, 65, 66, 0, ONES):
            for block in (1, 0, 9):
                yield stepped(base.state._replace(rounds=rounds, n=n), base.area, block, unread(chance), of=of)[0]
        yield stepped(base.state._replace(rounds=rounds, n=0), [], 0, of=of)[0]


def state_lengths(chance, of=DOUBLES):
    """4 for a state of more or fewer than ten numbers, whatever it would be; and the ten of which a step reads but eight."""
    base, w = BASES[of], of.width
    for what, number, block in [("", 0, 1), ("", 0, 0), ("", 0, 9), ("pending", 0, 1), ("rounds", w.rounds + 1, 1), ("rounds", ONES, 1), ("n", 66, 1)]:
        s, area = base.changed(what, number)
        for k in (0, 1, 6, 7, 8, 9, TEN, TEN + 1, 20):
            yield step_of([1, *s, *[0] * 13][:k], area, block, s.ensemble, of=of)[0]
            yield step_of([*s, *[0] * 14][:k], area, block, s.ensemble, of=of)[0]
    for first in (0, 1, 2, 3, ONES):
        for last in (0, 1, w.sign, w.infinity, w.nan, ONES):
            yield stepped(base.state, base.area, 1, (first, last), of=of)[0]


def ended_states(chance, of=DOUBLES):
    """A finished walk's ten numbers, which are read as a state's: n is 0, the pending set empty. And with a sound state's numbers behind the 2."""
    base, w = BASES[of], of.width
    for total, rounds in ((0, 0), (w.one, 1), (base.sigma, 0), (1, w.rounds + 1), (w.sign | w.one, 2)):
        for m in (0, 1, 2, 65, w.length):
            for block in (0, 1, ONES):
                yield from (step_of([2, total, rounds, *[0] * 7], [w.sign] * m, block, named, of=of)[0] for named in (0, 7))
    yield from (stepped(base.state, base.area, block, (2, 0), of=of)[0] for block in (1, 0, 9))


# ---- sound states by turns of the generator
# lengths, each with its M and the set of all its blocks
SIZES = [(1, 2, 1), (2, 2, 1), (3, 3, 1), (30, 5, 1), (64, 7, 1), (65, 7, 3), (130, 8, 7), (200, 8, 15)]


def below(w, limit, r):
    """A number of magnitude at most the limit's."""
    rest = r // 8
    magnitude = [0, limit, rest % (limit + 1), max(limit - (rest % 61 << w.digits), 0)][r // 2 % 4]
    return w.sign * (r & 1) | magnitude


def carried(w, limit, r):
    return below(w, limit if r % 2 else w.carried, r // 2)


def sound_state(k, of):
    """A sound state, and its work area. In one of four tau is the opposite of t."""
    w, nearest, r = of.width, of.sums.nearest, samples.seed(8, k)
    n, m, full = SIZES[k % len(SIZES)]
    exponent = [r // 4 % 60, w.top - r // 4 % 4, r // 4 % (w.top + 1), r // 4 % (w.top + 1)][r % 4]
    limit, a = nearest(1 << exponent), samples.following(r)
    b = samples.following(a)
    t = carried(w, limit, a)
    tau = carried(w, limit, b) if b % 4 else t ^ w.sign
    area = [below(w, limit, x) for x in samples.turns(n, r)]
    kept = below(w, nearest(1 << exponent + m >> w.precision), samples.following(b)) % w.sign
    rounds = [0, 3, w.rounds - 1, w.rounds][a // 4 % 4]
    return State(nearest(1 << exponent + m), t, tau, n, b >> 2 & full or full, rounds, 0, kept), area


def stray(pending, chosen):
    """One block in eight is any, pending or not, there or not."""
    return chosen % 5 if chosen >> 40 & 7 == 0 else walk.seeded(pending, chosen)


def sound_states(chance, of=DOUBLES):
    for k in range(120):
        yield from several(*sound_state(k, of), stray, samples.endless(samples.seed(8, k)), of)


FIXED = [state_witnesses, state_refusals, sigma_ends, state_faults, many_rounds, state_lengths, ended_states, sound_states]
DRAWN = []
