"""R-4's cases: conditions with the amount lists, the current index and the answer, a refusal's number with its data or the verdict 1. Each list below says what its cases are for."""
from conditions import GREATEST, const
from model import MOST_INDEX as MOST

THREE = [([7, 8, 9], [1, 1, 1])] * 4
NONE = [([], [])] * 4
FIVE = const(5)
OVERFLOW = (22, const(GREATEST), const(1))  # 27


def at(n):
    return (1, n)


def below(n):
    """The index -n."""
    return (4, (1, 0), (1, n))


def used(i, which=18):
    return (48, (which, i), FIVE)


def slot(k, i):
    """True where the index is k."""
    return (48, (18, i), const(7 + k))


def ranged():
    """The range, at each end: constants, sums, differences, products, quotients; the product of 2^16 and 2^15 is 2^31."""
    for i in (at(MOST), (3, at(MOST - 1), at(1)), (4, at(MOST), at(0)), (5, at(MOST), at(1)), (6, below(MOST), below(1)), (4, at(0), below(MOST))):
        yield used(i), (20, MOST, 3)
    for i in (below(MOST), (4, below(MOST - 1), at(1)), (3, below(MOST), at(0)), (5, below(MOST), at(1)), (6, at(MOST), below(1)), (6, below(MOST), at(MOST))):
        yield used(i), (43, 0, 0)
    for i in (at(MOST + 1), at(2**32 - 1), at(2**63), at(2**64 - 1), below(MOST + 1), (3, at(MOST), at(1)), (4, at(MOST), below(1)), (5, at(2**16), at(2**15)), (5, at(MOST), at(MOST))):
        yield used(i), (41, 0, 0)
    for i in ((4, below(MOST), at(1)), (3, below(MOST), below(1)), (5, below(2**16), at(2**15)), (5, below(MOST), at(MOST))):
        yield used(i), (41, 0, 0)
    for i in (at(7), below(7), at(0), at(MOST)):
        yield used((6, i, at(0))), (41, 0, 0)
    for i in ((4, (3, at(MOST), at(1)), at(1)), (5, at(MOST + 1), at(0)), (4, at(MOST + 1), at(MOST + 1)), (6, (5, at(2**16), at(2**15)), at(2))):  # what follows doesn't mend it
        yield used(i), (41, 0, 0)


def divided():
    """Euclid's quotient: -7 by 2 is -4, 7 by -2 is -3, -7 by -2 is 4, 1 by -2 is 0, -1 by 2 is -1."""
    yield slot(0, (3, (6, below(7), at(2)), at(4))), 1
    yield slot(0, (3, (6, at(7), below(2)), at(3))), 1
    yield slot(0, (4, (6, below(7), below(2)), at(4))), 1
    yield slot(0, (6, at(1), below(2))), 1
    for i in ((6, below(1), at(2)), (3, (6, below(7), at(2)), at(3)), (3, (6, at(7), below(2)), at(2))):
        yield used(i), (43, 0, 0)


def current():
    """The current index is judged where it is used. At input 0: the incident, and the desk's condition, less 1 plus 2."""
    for n, answer in ((MOST, (20, MOST, 3)), (MOST + 1, (41, 0, 0)), (2**64 - 1, (41, 0, 0))):
        for t in ((17,), (18, (2,))):
            yield n, (48, t, FIVE), answer
    yield MOST, used((3, (2,), at(1))), (41, 0, 0)
    yield MOST + 1, used((4, (2,), at(MOST))), (41, 0, 0)
    yield MOST, slot(0, (4, (2,), at(MOST))), 1
    for n in (MOST, MOST + 1, 2**40, 2**64 - 1):
        yield n, (48, FIVE, FIVE), 1
        yield n, slot(1, at(1)), 1
    yield 0, used((4, (2,), at(1))), (43, 0, 0)
    yield 0, slot(1, (3, (4, (2,), at(1)), at(2))), 1


def in_order():
    """The left side first; an index before the lookup."""
    quotient = (6, at(1), at(0))
    for left, right, answer in (
        ((18, at(MOST + 1)), OVERFLOW, (41, 0, 0)), ((18, below(1)), OVERFLOW, (43, 0, 0)), (OVERFLOW, (18, quotient), (27, GREATEST, 1)), ((18, below(1)), (18, quotient), (43, 0, 0)),
        ((18, quotient), (18, below(1)), (41, 0, 0)), ((18, at(3)), (18, below(1)), (20, 3, 3)), ((18, (3, at(MOST + 1), below(1))), (18, at(3)), (41, 0, 0)),
    ):
        yield (48, left, right), answer


def cases():
    """Condition, lists, current index, answer."""
    for t, answer in [*ranged(), *divided(), *in_order()]:
        yield t, THREE, 0, answer
    for n, t, answer in current():
        yield t, THREE, n, answer
    for lists in (THREE, NONE):  # in an empty list 43 comes before 20, 22 and 24
        for which in (18, 19, 20, 21):
            for n in (1, 7, MOST):
                yield used(below(n), which), lists, 0, (43, 0, 0)
