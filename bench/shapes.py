#!/usr/bin/env python3
"""shapes.py: prints the conditions that are measured, a line each: shape, tokens, code in hex. Left-deep chains of add, and, index steps and oracles, with one key and with keys
that differ in their end alone, and the deepest nestings: Invert, And and index Add nested to the right, index Add nested to the left; and Add and index Mul nested to the right,
where Decode's readers go deepest. Last a left-deep chain of and over quotients, and one over remainders, of the four pairs of signs in turn.
shapes.py refused: prints token lists that Decode refuses with 11, a line each: shape, tokens, kinds in hex; every Num is 1. An operation of several tokens that finds no
operand is what takes Decode's readers deepest: they call themselves once for each; the operands of an operation of one token are counted."""
import os
import sys

sys.path.insert(0, os.path.join(os.path.dirname(os.path.abspath(__file__)), "..", "tests", "vectors"))
from model import ADD, ADD64, AND, DIV64, EQUAL, INP_VALUE, INVERT, MUL64, NIP, NUM, TO_LE64, TO_NUM, VERIFY, code_of, form

ONE = (16, 1)
KEY = bytes([7] * 32)


def chain(first, step, n):
    t = first
    for i in range(n):
        t = step(t, i)
    return t


STEPS = [3, 4, 3, 5, 6, 4]  # add 1, sub 1, add 1, mul 1, div 1, sub 1
SIGNS = [(7, 2), (7, -2), (-7, 2), (-7, -2)]


def divided(c, i):
    """Div or Mod of one of the four pairs of signs."""
    return (c, *((16, n % 2**64) for n in SIGNS[i % 4]))


def key(i):
    """Keys that a search comparing from the front tells apart last."""
    return KEY[:30] + i.to_bytes(2, "big")


SHAPES = {
    "add": lambda n: chain(ONE, lambda t, i: (22, t, ONE), n),
    "and": lambda n: chain(ONE, lambda t, i: (27, t, ONE), n),
    "index": lambda n: (18, chain((1, 0), lambda t, i: (STEPS[i % 6], t, (1, 1)), n)),
    "oracle": lambda n: chain((32, KEY, 9), lambda t, i: (27, t, (33, KEY, 9)), n),
    "oracle keys": lambda n: chain((32, key(0), 9), lambda t, i: (27, t, (33, key(i + 1), 9)), n),
    "invert": lambda n: chain(ONE, lambda t, i: (30, t), n),
    "and right": lambda n: chain(ONE, lambda t, i: (27, ONE, t), n),
    "index right": lambda n: (18, chain((1, 0), lambda t, i: (3, (1, 0), t), n)),
    "add right": lambda n: chain(ONE, lambda t, i: (22, ONE, t), n),
    "mul right": lambda n: (18, chain((1, 0), lambda t, i: (5, (1, 0), t), n)),
    "index left": lambda n: (18, chain((1, 0), lambda t, i: (3, t, (1, 0)), n)),
    "div": lambda n: chain(ONE, lambda t, i: (27, t, divided(25, i)), n),
    "mod": lambda n: chain(ONE, lambda t, i: (27, t, divided(26, i)), n),
}

# Operations, and what stands after them: `Equal` takes a value off, an amount's four tokens an index.
ON_VALUES = [EQUAL]
ON_INDEXES = [INP_VALUE, NUM, EQUAL, VERIFY, EQUAL]
REFUSED = {
    "Invert alone": ([INVERT], ON_VALUES),
    "And alone": ([AND], ON_VALUES),
    "Add alone": ([ADD64, NUM, EQUAL, VERIFY], ON_VALUES),
    "Div alone": ([DIV64, NUM, EQUAL, VERIFY, NIP], ON_VALUES),
    "index Add alone": ([ADD], ON_INDEXES),
    "index Mul alone": ([TO_LE64, MUL64, NUM, EQUAL, VERIFY, TO_NUM], ON_INDEXES),
}


def refused(shape, n):
    """Kinds of n tokens: the operation as often as there is room, without an operand."""
    own, after = REFUSED[shape]
    kinds = own * ((n - len(after)) // len(own)) + after
    return bytes([INVERT] * (n - len(kinds)) + kinds)


def longest(shape, most):
    """The longest chain of at most so many tokens, with `Eq` and a constant after it."""
    whole = lambda n: (48, SHAPES[shape](n), ONE)
    n = 0
    while len(form(whole(n + 1))) <= most:
        n += 1
    return whole(n)


if __name__ == "__main__":
    sys.setrecursionlimit(10000)
    if sys.argv[1:] == ["refused"]:
        for shape in REFUSED:
            for n in (256, 512, 1024):
                print(shape.replace(" ", "_"), n, refused(shape, n).hex())
        sys.exit()
    for shape in SHAPES:
        for most in (12, 100, 256, 512, 1024):
            t = longest(shape, most)
            print(shape.replace(" ", "_"), len(form(t)), code_of(t).hex())
