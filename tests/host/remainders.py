"""The largest remainder: what a state may keep at every sigma, what a close makes of it, and what is told. For either family of calls of the walk."""
import walk
from calls import DOUBLES, stepped
from drawn import cancelled
from sequences import unread
from states import State
from strangers import BASES


# ---- by hand
def closed(chance, s, area, wanted, of):
    """The step of the last pending block, which closes the round: the request, held to an answer that was found by hand."""
    request, answer, _ = stepped(s, area, walk.rising(s.pending, 0), unread(chance), of=of)
    assert answer == wanted, f"closed {s} over {area}: {answer}, by hand it is {wanted}"
    return request


def limits(w, k):
    """Patterns around eps times sigma, for a sigma of 2^k units, each with whether it may be kept."""
    sign, nan = w.sign, w.nan
    most = w.power(k - w.precision) if k >= w.precision else 0
    for pattern in sorted({0, 1, most - 1, most, most + 1, 2 * most, sign, sign | 1, sign | most} - {-1}):
        yield pattern, pattern <= most
    if k % 50 == 3:
        yield from ((pattern, False) for pattern in (w.infinity, sign | w.infinity, nan, sign | nan, w.infinity + 1, sign - 1))


def restarted(of, pattern):
    """One number, with t' and the area zero: the kept number alone decides."""
    if pattern == 0:
        return "done", 0, 1
    e = (of.walk.units(pattern) - 1).bit_length()
    return "more", State(of.width.power(2 + e), 0, 0, 1, 1, 1), pattern


def kept_at_every_sigma(chance, of=DOUBLES):
    """Each sound sigma of one number. What may be kept and isn't zero begins a round, though the area is zero; what may not is 8."""
    w = of.width
    for k in range(2, w.top + 3):
        for pattern, sound in limits(w, k):
            s = State(w.power(k), 0, 0, 1, 1, 0, 0, pattern)
            yield closed(chance, s, [chance.choice([0, w.sign])], restarted(of, pattern) if sound else ("refused", 8, 0), of)


def told_at_close(chance, of=DOUBLES):
    """Over one number with a remainder of 2^-60, which is told where it is the larger: a restart from what is told, a round that goes on by rule W4, and the
    finish, which tells nothing."""
    w, base = of.width, BASES[of]
    small, most, one = base.small, base.eps_sigma, w.one
    for kept, told in ((0, small), (1, small), (small - 1, small), (small, small), (small + 1, small + 1), (most, most)):
        e = -60 if told == small else -59 if told == small + 1 else 8 - w.precision
        for x in (small, w.sign | small):
            s = State(base.sigma, 0, 0, 1, 1, 0, 7, kept)
            yield closed(chance, s, [x], ("more", State(w.two_to(2 + e), 0, 0, 1, 1, 1, 7), told), of)
            low = w.two_to(11 - w.precision)  # below 2^(2M+1) eps sigma, so that rule W4 makes sigma half of it
            yield closed(chance, s._replace(t=low), [x], ("more", State(w.two_to(10 - w.precision), low, 0, 1, 1, 1, 7), told), of)
            yield closed(chance, s._replace(t=one), [x], ("done", one, 1), of)


# ---- states whose number is off
def given_out(chance, of=DOUBLES):
    """The state of docs/DECISIONS.md: block 2 is neither pending nor taken. A call gives out what follows from block 0; behind block 1 the close of before
    finds 2^-60 in the area and restarts, and the close of now has +0 kept and answers it. So it is with -0 beside it, and at a whole block's last place."""
    base = BASES[of]
    sigma = base.sigma
    for place, zero in ((128, 0), (128, of.width.sign), (191, 0)):
        n = max(place + 1, 129)
        area = [zero] * n
        area[place] = base.small
        request, answer, area = stepped(State(sigma, 0, 0, n, 3, 0), area, 0, unread(chance), of=of)
        assert answer == ("more", State(sigma, 0, 0, n, 2, 0), 0), answer
        yield request
        former = of.walk.step(answer[1], list(area), 1, 0, of.walk.former_close)
        assert former == ("more", State(of.width.two_to(-52), 0, 0, n, 7, 1), 0), former
        yield closed(chance, answer[1], area, ("done", 0, 1), of)


def off_in_a_walk(chance, of=DOUBLES):
    """A walk that is begun, with another number put into its state before some step: smaller than what was left, larger, zero. It is taken as it is."""
    w = of.width
    for n in (65, 129, 200):
        for _ in range(12):
            patterns, area = cancelled(chance, n, of), [0] * n
            answer = of.walk.opening(patterns, area)
            for _ in range(40):
                if answer[0] != "more":
                    break
                s = answer[1]
                most = of.walk.pattern_of(of.walk.units(s.sigma) >> w.precision)
                kept = chance.choice([s.largest] * 4 + [0, most, chance.randint(0, most), max(s.largest - (1 << w.digits), 0)])
                block = walk.seeded(s.pending, chance.getrandbits(64))
                request, answer, area = stepped(s._replace(largest=kept), area, block, unread(chance), of=of)
                yield request


FIXED = [kept_at_every_sigma, told_at_close, given_out, off_in_a_walk]
DRAWN = []
