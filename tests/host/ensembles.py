"""Ensembles: two open side by side, and steps that name another."""
import itertools

from calls import DOUBLES, SIZE, TEN, started, step_of, total_of, undivided
from drawn import cancelled, numbers
from exact import ONES
from sequences import ORDERS, number, turn, unread
from strangers import BASES, PLACES, SETS, nans
from widths import blocks_of


def others(ensemble):
    """Numbers that are easily taken for another: a bit off, half of it the same, the halves exchanged, and none."""
    near = [ensemble ^ 1, ensemble ^ 1 << 31, ensemble ^ 1 << 16, ensemble % 2**16, ensemble >> 16, (ensemble << 16 | ensemble >> 16) % 2**32, 0, ONES % 2**32]
    return [other for other in dict.fromkeys(near) if other != ensemble]


def strangers(chance, of=DOUBLES):
    """21 beside 4, which comes before it, and beside each refusal that comes behind; and an eighth number above 32 bits, which is no ensemble's."""
    base = BASES[of]
    for n, changed, pending, places in itertools.product((65, 66), base.unsound, SETS, PLACES[:4]):
        area = list(base.area)
        for place in places:
            area[place] = chance.choice(nans(of.width))
        s, wide = base.state._replace(n=n, pending=pending, **changed), chance.choice([1 << 32, 1 << 33, 1 << 63, ONES - ONES % 2**32])
        for block in (0, 1, 2):
            for own, named in [(s.ensemble, chance.choice(others(s.ensemble))), (s.ensemble | wide, s.ensemble), (wide, 0)]:
                first, last = unread(chance)
                yield step_of([first, *s._replace(ensemble=own), last], area, block, named, of=of)[0]
    for named in others(base.state.ensemble):
        yield step_of([1, *base.state, 0], base.area, 1, named, of=of)[0]


# ---- side by side
class Ensemble:
    """A list that is walked under a number, and where its walk has come to."""

    def __init__(self, chance, patterns, ensemble, of):
        self.patterns, self.ensemble, self.order, self.steps, self.of = patterns, ensemble, chance.choice(ORDERS), 0, of
        self.area = [0] * len(patterns)
        self.answer = of.walk.opening(patterns, self.area, ensemble)

    def opened(self, chance):
        of, n = self.of, len(self.patterns)
        return started(of.open, of.packed(self.patterns), chance.randbytes(of.size * n), chance.randbytes(SIZE * TEN), self.ensemble)

    def undivided(self, chance):
        of, n = self.of, len(self.patterns)
        return started(of.faithful, of.packed(self.patterns), chance.randbytes(of.size * n), chance.randbytes(SIZE * of.values[of.faithful]))

    def goes_on(self):
        return self.answer[0] == "more"

    def numbers(self, chance):
        first, last = unread(chance)
        return [first, *self.answer[1], last]

    def step(self, chance):
        block = self.order(self.answer[1].pending, turn(chance))
        request, self.answer, self.area = step_of(self.numbers(chance), self.area, block, self.ensemble, total_of(tuple(self.patterns), self.of), self.of)
        self.steps += 1
        return request

    def stepped_by(self, chance, other):
        """Three mistakes: this state for the other's number, for some other number, and over the other's work area."""
        block, of = chance.randrange(blocks_of(len(self.patterns)) + 1), self.of
        yield step_of(self.numbers(chance), self.area, block, other.ensemble, of=of)[0]
        yield step_of(self.numbers(chance), self.area, block, chance.choice(others(self.ensemble)), of=of)[0]
        yield step_of(self.numbers(chance), other.area, block, other.ensemble, of=of)[0]


def side_by_side(chance, one, other):
    """Steps of two walks in any order, with wrongly named ones between: each ends as its undivided call does, after rounds times blocks steps."""
    yield one.opened(chance)
    yield other.opened(chance)
    while one.goes_on() or other.goes_on():
        a, b = chance.choice([(one, other), (other, one)])
        if a.goes_on():
            if chance.random() < 0.5:
                yield from a.stepped_by(chance, b)
            yield a.step(chance)
    for walked in (one, other):
        assert (walked.answer, walked.area) == undivided(tuple(walked.patterns), walked.of), f"side by side: {walked.patterns}"
        assert walked.steps == walked.answer[2] * blocks_of(len(walked.patterns)), f"{walked.steps} steps: {walked.patterns}"
        yield walked.undivided(chance)


def pair(chance, n, m, of):
    """Two lists, under numbers that are easily taken for each other."""
    ensemble = number(chance)
    shapes = [numbers, cancelled]
    lists = [chance.choice(shapes)(chance, k, of) for k in (n, m)]
    return [Ensemble(chance, patterns, k, of) for patterns, k in zip(lists, (ensemble, chance.choice(others(ensemble))))]


def two_ensembles(chance, of=DOUBLES):
    """Of one length and of two, one block and several."""
    for n, m in [(1, 1), (2, 3), (16, 16), (64, 64), (64, 65), (130, 130), (200, 129), (513, 513)]:
        for _ in range(6):
            yield from side_by_side(chance, *pair(chance, n, m, of))


# ---- at random
def pairs(chance, of=DOUBLES):
    for _ in range(4):
        n = chance.choice([1, 2, 3, 30, 64, 65, 130, chance.randint(4, 200)])
        yield from side_by_side(chance, *pair(chance, n, chance.choice([n, n, chance.randint(1, 200)]), of))


FIXED = [strangers, two_ensembles]
DRAWN = [pairs]
