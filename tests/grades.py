"""The grade of a claimed sum in exact integers, by the doubles on either side of the exact sum. It knows no nearest pattern and none beside it."""
from exact import INFINITY, SIGN, Refused, judge, size, units

EXACT, NEAREST, FAITHFUL, WRONG = range(4)


def around(total):
    """The greatest double at or below the exact sum and the least at or above it, in units: one where the sum is a double."""
    goal, low, high = abs(total), 0, INFINITY
    while high - low > 1:
        middle = (low + high) // 2
        low, high = (middle, high) if size(middle) <= goal else (low, middle)
    ends = {size(low)} if size(low) == goal else {size(low), size(high)}
    return {-end for end in ends} if total < 0 else ends


def grade(patterns, claim):
    judge(patterns)
    if claim % SIGN >= INFINITY:
        raise Refused(20, 0)
    total, claimed = sum(map(units, patterns)), units(claim)
    ends = around(total)
    if claimed not in ends:
        return WRONG
    if claimed == total:
        return EXACT
    (other,) = ends - {claimed}
    nearer = abs(other - total) - abs(claimed - total)
    return NEAREST if nearer > 0 or (nearer == 0 and claim % 2 == 0) else FAITHFUL
