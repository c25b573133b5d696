"""Conditions for the cases: trees and codes, good and bad. The same come out every time."""
import random

import model
from model import MAX_TOKENS, code_of, form

rng = random.Random(20)
LEAST, GREATEST = -(2**63), 2**63 - 1
EDGES = [0, 1, 2, -1, -2, 7, -7, 10, LEAST, LEAST + 1, GREATEST, GREATEST - 1, 2**32, 2**31, 3037000500]
DIVIDENDS, DIVISORS = [0, 1, 6, 7, 8, GREATEST, -1, -6, -7, -8, LEAST + 1, LEAST], [1, 2, 7, GREATEST, -1, -2, -7, LEAST, 0]
TIMES = [2**63, 2**63 + 1, 2**64 - 1, 0, 1, 5, 2**63 - 1]  # from the least to the greatest signed one
INDEX_EDGES = [0, 0, 0, 1, 1, 1, 2, 3, 2**31 - 1, 2**31, 2**32 - 1, 2**32, 2**63, 2**64 - 1]


def number():
    return rng.choice(EDGES) if rng.random() < 0.7 else rng.randrange(LEAST, GREATEST + 1)


def const(n):
    return (16, n % 2**64)


def index(depth, small=False):
    r = rng.random()
    if depth == 0 or r < 0.45:
        return (2,) if rng.random() < 0.4 else (1, rng.randrange(3) if small or rng.random() < 0.6 else rng.choice(INDEX_EDGES))
    return (rng.choice([3, 4, 5, 6]), index(depth - 1, small), index(depth - 1, small))


def oracle(c):
    return (c, rng.randbytes(32), rng.choice([0, 5, 5, 1000, 2**63, 2**64 - 1]))


def value(depth, kinds="cilubo"):
    r = rng.choice(kinds) if depth else rng.choice([k for k in kinds if k in "cilo"] or "c")
    if r == "c":
        return const(number())
    if r == "i":
        return (17,)
    if r == "l":
        return (rng.choice([18, 19, 20, 21]), index(rng.randrange(3), True))
    if r == "o":
        return oracle(33)
    if r == "u":
        return (rng.choice([30, 31]), value(depth - 1, kinds))
    return (rng.randrange(22, 30), value(depth - 1, kinds), value(depth - 1, kinds))


def first_to(t, terminal):
    """The expression with another first terminal."""
    if t[0] in (30, 31) or 22 <= t[0] <= 29:
        return (t[0], first_to(t[1], terminal)) + t[2:]
    return terminal


def condition(depth=3, kinds="ciclubo"):
    left, right = value(rng.randrange(depth + 1), kinds), value(rng.randrange(depth + 1), kinds)
    if model.terminals(left)[0] == 33 and rng.random() < 0.95:
        left = first_to(left, oracle(32) if rng.random() < 0.8 else const(5))
    return (rng.randrange(48, 53), left, right)


def lookups(t):
    """The index expressions of a condition."""
    if t[0] in (16, 17, 32, 33):
        return [(2,)] if t[0] == 17 else []
    return [t[1]] if 18 <= t[0] <= 21 else [i for x in t[1:] for i in lookups(x)]


def chain(n, op, leaf):
    """n leaves joined by a binary operation, nested to the left."""
    t = leaf()
    for _ in range(n - 1):
        t = (op, t, leaf())
    return t


def right_chain(n, op, leaf):
    t = leaf()
    for _ in range(n - 1):
        t = (op, leaf(), t)
    return t


def inverts(n, t):
    for _ in range(n):
        t = (30, t)
    return t


def sized(tokens):
    """Conditions of exactly so many tokens: Invert, And nested to both sides, index Add nested to both sides, oracles."""
    five = lambda: const(5)
    odd = (tokens - 2) // 2
    yield (48, inverts(tokens - 3, five()), five())
    for make in (chain, right_chain):
        t = make(odd, 27, five)
        yield (48, inverts(tokens - 2 - (2 * odd - 1), t), five())
        i = make((tokens - 6 + 1) // 2, 3, lambda: (1, 0))
        used = len(form(i))
        yield (48, inverts(tokens - 2 - 4 - used, (18, i)), five())
    n = (tokens - 13) // 14
    t = chain(n, 28, lambda: oracle(33))
    rest = tokens - 3 - len(form(t))
    yield (50, inverts(rest, (28, five(), t)), five()) if rest >= 1 else (50, (28, five(), t), five())


def damaged(code):
    b = bytearray(code)
    for _ in range(rng.randrange(1, 3)):
        r = rng.random()
        at = rng.randrange(len(b) + 1)
        if r < 0.35 and at < len(b):
            b[at] = rng.choice([rng.randrange(256), rng.randrange(1, 53)])
        elif r < 0.6:
            del b[at : at + rng.randrange(1, 10)]
        elif r < 0.85:
            b[at:at] = bytes([rng.randrange(1, 53)])
        else:
            del b[at:]
    return bytes(b)


def rule_broken(which):
    o32, o33 = oracle(32), oracle(33)
    if which == 4:
        left = rng.choice([o33, (22, o33, const(1)), (30, (27, o33, o32))])
        return (rng.randrange(48, 53), left, rng.choice([const(5), o32, o33]))
    left = rng.choice([(22, const(5), o32), (22, o32, o32), (23, (17,), (31, o32)), const(3)])
    return (rng.randrange(48, 53), left, o32 if left[0] == 16 else rng.choice([const(5), o33]))


def codes():
    """Codes good and bad: what every call but Decode is given."""
    out = []
    out += [code_of(condition()) for _ in range(400)]
    out += [damaged(code_of(condition())) for _ in range(500)]
    out += [rng.randbytes(rng.randrange(12)) for _ in range(60)]
    out += [bytes(rng.choice([1, 2, 3, 16, 17, 18, 22, 30, 48]) for _ in range(rng.randrange(12))) for _ in range(60)]
    out += [code_of(rule_broken(4)) for _ in range(15)] + [code_of(rule_broken(5)) for _ in range(15)]
    for n in (MAX_TOKENS, MAX_TOKENS + 1):
        out += [code_of(t) for t in sized(n)] * 2
    five = code_of((48, const(5), const(5)))
    out += [five, b"", five[:9], five + b"\x10", five + b"\x30"]
    out += [bytes(9216), bytes(9217), bytes([16]) * 9216, bytes([16]) * 9217, five + bytes(9216 - 19), five + bytes(9217 - 19)]
    out += [rng.randbytes(9217 + rng.randrange(100)) for _ in range(10)]
    for n in (2**32 - 1, 2**32, 2**64 - 1):
        out += [code_of((48, (c, (1, n)), const(5))) for c in (18, 19, 20, 21)]
        out += [code_of((48, const(1), (18, (3, (1, n), (2,)))))]
    return out
