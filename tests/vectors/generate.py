#!/usr/bin/env python3
"""generate.py FILE: cases with known answers for crates/vectors. The answers are those of model.py, which is made from document 01's words, or of the published Rust
(published.txt); each list below says what its cases are for. The same file comes out every time.

A case is its length (4 bytes) and its body: the call (1 Check, 2 Evaluate, 3 Write, 4 Decode, 5 Script) and the number of parts, a byte each; the end of each part in the
body, 4 bytes each; the parts. Numbers are little-endian, 8 bytes each unless said. The parts are
  Check     code; number, place
  Evaluate  code; spent; marks; outputs; marks; issued; marks; reissued; marks; witness; ends (4 bytes each);
            current index, room for checks, number, verdict, first, second, checks, left; check bytes
  Write     code; room of kinds, numbers, places and keys, number, place, records, key bytes; kinds; numbers; places (4 bytes each); key bytes
  Decode    kinds; numbers; places (4 bytes each); keys; room for code, number, place, code bytes, start; code
  Script    code; room, number, place, script bytes; script
"""
import concurrent.futures
import os
import struct
import sys
import threading
from collections import Counter

import indexes
import key_orders
import model
import orders
import script_numbers
import scripts
from conditions import DIVIDENDS, DIVISORS, EDGES, GREATEST, INDEX_EDGES, LEAST, TIMES, codes, condition, const, inverts, lookups, rng, rule_broken, sized
from model import BYTES8, BYTES32, MAX_CODE, MAX_ORACLES, MAX_TOKENS, NUM, code_of, form
from orders import FIVE, KEY, NO_MARK, ONE_INPUT
from token_lists import altered, records, small, token, unsound

# ---- packing

def words(*ns):
    return struct.pack("<%dQ" % len(ns), *[n % 2**64 for n in ns])


def halves(ns):
    return struct.pack("<%dI" % len(ns), *ns)


def pack(call, parts):
    at, ends = 2 + 4 * len(parts), []
    for p in parts:
        at += len(p)
        ends.append(at)
    body = bytes([call, len(parts)]) + struct.pack("<%dI" % len(ends), *ends) + b"".join(parts)
    return struct.pack("<I", len(body)) + body


class Cases:
    def __init__(self):
        self.out, self.seen = [], Counter()

    def add(self, call, number, parts):
        self.seen[call, number] += 1
        self.out.append(pack(call, parts))


cases = Cases()


# ---- Check

def check(code):
    number, place = model.check(code)
    cases.add(1, number, [code, words(number, place)])


# ---- Evaluate

def amounts(n):
    return ([rng.choice([0, 1, 7, 2**63 - 1, 2**63, 2**64 - 1, rng.randrange(2**64)]) for _ in range(n)], [int(rng.random() < 0.85) for _ in range(n)])


def environment():
    inputs = rng.choice([0, 1, 1, 2, 2, 2, 3, 3, 4])
    lists = [amounts(inputs), amounts(rng.randrange(4)), amounts(inputs), amounts(inputs)]
    if rng.random() < 0.04:
        k = rng.randrange(4)
        numbers, marks = lists[k]
        bad = rng.randrange(3)
        if bad == 0:
            lists[k] = (numbers + [1], marks)
        elif bad == 1:
            lists[k] = (numbers, marks + [1])
        else:
            lists[k] = (numbers + [9], marks + [rng.choice([2, 255])])
    return lists


def witness_for(t):
    """Elements in the order in which the terminals pop them, some of them wrong."""
    elements = []
    for c in [x for e in t[1:] for x in oracle_terminals(e)]:
        price = rng.choice([0, 5, 100, 2**63 - 1, 2**63 - 1, 2**63, 2**64 - 1])
        time = rng.choice([c[2], c[2], c[2], 0, (c[2] - 1) % 2**64, (c[2] + 1) % 2**64])
        e = [price.to_bytes(8, "little"), time.to_bytes(8, "little"), rng.randbytes(64)]
        if rng.random() < 0.25:
            k = rng.randrange(3)
            e[k] = rng.choice([b"", e[k][1:], e[k] + b"\0"])
        elements = elements + e
    elements.reverse()
    if rng.random() < 0.3:
        elements = elements[rng.randrange(len(elements) + 1) :]
    if rng.random() < 0.3:
        elements = [rng.randbytes(rng.randrange(4)) for _ in range(rng.randrange(3))] + elements
    return elements


def oracle_terminals(t):
    if t[0] in (32, 33):
        return [t]
    if t[0] <= 21:
        return []
    return [x for e in t[1:] for x in oracle_terminals(e)]


def lend(elements):
    ends, at = [], 0
    for e in elements:
        at += len(e)
        ends.append(at)
    extra = rng.choice([b"", b"", b"\x77"])
    if rng.random() < 0.05 and ends:
        k = rng.randrange(len(ends))
        ends[k] = rng.choice([max(ends[k] - 9, 0), ends[k] + 100, 2**32 - 1])
    return b"".join(elements) + extra, ends


def agreed(i, current):
    """Fails where the model's index is not that of the script."""
    try:
        n = model.Evaluation([], current, []).index(i)
    except model.Refused:
        n = -1
    told(n if n >= 0 else None, script_numbers.index(form(i), current))


def evaluate(code, lists=None, current=None, lent=None, room=None):
    try:
        t = model.parse(code) if len(code) <= MAX_CODE else None
    except model.Refused:
        t = None
    lists = lists or environment()
    current = rng.choice([0, 0, 1, 1, 2, 3, len(lists[0][0]), rng.choice(INDEX_EDGES)]) if current is None else current
    for i in lookups(t) if t else []:
        agreed(i, current)
    witness, ends = lend(witness_for(t) if t else [b"x"] * rng.randrange(3)) if lent is None else lent
    need = 112 * model.oracles(t) if t else 0
    room = max(need + rng.choice([0, 0, 0, 0, 0, 0, 5, -1]), 0) if room is None else room
    answer = model.evaluate(code, lists, current, witness, ends, room)
    parts = [code]
    for numbers, marks in lists:
        parts += [words(*numbers), bytes(marks)]
    parts += [witness, halves(ends), words(current, room, *answer[:6]), answer[6]]
    cases.add(2, answer[0], parts)
    return answer


def evaluations():
    for code in codes():
        evaluate(code)
    for _ in range(2500):
        evaluate(code_of(condition(4)))
    for _ in range(1200):  # oracle terminals on every side
        evaluate(code_of(condition(3, "oobuc")))
    for c in (18, 19, 20, 21):  # every list at every place, explicit and not, and beyond
        for i in range(4):
            for mark in (0, 1):
                lists = [([10 + k for k in range(3)], [mark] * 3) for _ in range(4)]
                evaluate(code_of((49, (c, (1, i)), (17,))), lists, rng.randrange(4))
    for op in range(22, 32):  # every operation at the edges
        for x in EDGES:
            for y in EDGES[:1] if op >= 30 else rng.sample(EDGES, 6) + [0, -1]:
                t = (op, const(x)) if op >= 30 else (op, const(x), const(y))
                evaluate(code_of((rng.randrange(48, 53), t, const(rng.choice([x, y, 0])))))
    for x in DIVIDENDS:  # quotient and remainder of every pair of signs, each compared with its own answer
        for y in DIVISORS:
            for op in (25, 26):
                known = model.quotient_and_remainder(x, y)[op - 25] if y else 0
                evaluate(code_of((48, (op, const(x), const(y)), const(known))), [([], [])] * 4, 0, (b"", []), 0)
    for x in EDGES:
        for y in rng.sample(EDGES, 5) + [x]:
            for c in range(48, 53):
                evaluate(code_of((c, const(x), const(y))))
    for x in INDEX_EDGES[2:]:  # every index step at the edges
        for y in INDEX_EDGES[2:]:
            evaluate(code_of((48, (18, (rng.choice([3, 4, 5, 6]), (1, x), (1, y))), const(1))))
    while cases.seen[2, 12] < 12 or cases.seen[2, 7] < 12:
        evaluate(code_of(condition(2, "oc")), lists=[([], []), ([1], [1]), ([], []), ([], [])])


# ---- Write

def add_write(code, rooms, number, place, kinds, numbers, places, keys):
    cases.add(3, number, [code, words(*rooms, number, place, len(kinds), len(keys)), bytes(kinds), words(*numbers), halves(places), keys])


def write(code, rooms=None, keys=None):
    try:
        tokens = form(model.parse(code))
        n, k = len(tokens), len(model.written(tokens)[3])
    except model.Refused:
        n, k = 3, 0
    if rooms is None:
        rooms = [max(n + rng.choice([0, 0, 0, 0, 0, 1, 3, -1 if rng.random() < 0.2 else 0]), 0) for _ in range(3)]
        keys = max(k + rng.choice([0, 0, 0, 0, 7, 40, -1]), 0)
        rooms = [min(r, 1100) for r in rooms]
    answer = model.write(code, min(rooms), keys)
    add_write(code, [*rooms, keys], *answer)
    return answer[0], len(answer[2]), len(answer[5])


# ---- Script

def script(code, room, known=None):
    number, place, given = model.write_script(code, room)
    told((number, given), known or (number, given))
    if number == 0:
        scripts.judged(given, code[-1])
    cases.add(5, number, [code, words(room, number, place, len(given)), given])
    return number


# ---- Decode

def decode(kinds, numbers, places, keys, room=None):
    room = rng.choice([MAX_CODE, MAX_CODE, MAX_CODE, MAX_CODE + 5]) if room is None else room
    number, place, code, start = model.decode(kinds, numbers, places, keys, room)
    cases.add(4, number, [bytes(kinds), words(*numbers), halves(places), keys, words(room, number, place, len(code), start), code])
    return number, place, code, start


def decodings():
    forms = [form(small(condition())) for _ in range(900)]
    for f in forms:
        decode(*records(f))
    for f in forms[:400]:  # other tokens before the tail are passed over
        decode(*records([token() for _ in range(rng.randrange(1, 6))] + f))
    for f in forms[:700]:
        decode(*records(altered(f)))
    for f in forms[:250]:
        decode(*unsound(*records([token() for _ in range(rng.randrange(3))] + f)))
    for f in forms[:30]:
        decode(*records(f), room=rng.choice([0, 1, MAX_CODE - 1]))
    for _ in range(500):  # short lists
        decode(*records([token() for _ in range(rng.randrange(7))]))
    b8 = lambda n: (BYTES8, n)
    for ts in (  # document 01's examples 9 to 11, and readings of it
        [(35,), b8(5), b8(6), (14,)], [], [(14,)], [(4,), (22,), (1, 1), (14,), (15,), b8(9), (14,)], [b8(1), (21,), b8(2), (14,)],
        [b8(7), b8(2), (10,), (1, 1), (14,), (15,), (16,), b8(3), (14,)], [b8(7), b8(2), (10,), (1, 1), (14,), (15,), (17,), b8(3), (14,)],
        [(1, 2), (1, 3), (7,), (9,), (1, 1), (14,), (15,), (8,), (22,), (1, 1), (14,), (15,), b8(3), (14,)],
        [(1, 2), (7,), (1, 3), (7,), (9,), (1, 1), (14,), (15,), (8,), (22,), (1, 1), (14,), (15,), b8(3), (14,)],
    ):
        decode(*records(ts))
    for n in (MAX_TOKENS, MAX_TOKENS - 1):
        for t in sized(n):
            decode(*records(form(t)))
    for _ in range(12):
        decode(*records([token() for _ in range(MAX_TOKENS + 1 + rng.randrange(3))]))
    amount = [(22,), model.ONE, (14,), (15,)]
    for op, after in ((21, []), (18, []), (19, []), (20, []), (5, amount), (6, amount)):  # operations of one token without an operand: the deepest readings there are
        after = after + [(14,)]
        decode(*records([(op,)] * (MAX_TOKENS - len(after)) + after))


def decoded_as_checked(t, before=()):
    """R-2: a tail that is the form of a condition is answered as Check answers the condition, whatever stands before it."""
    told(decode(*records([*before, *form(t)]))[:2], model.check(code_of(t)))


def rules_told():
    """R-2: 4, 5 and 11 of Decode."""
    for which in (4, 5):
        for _ in range(60):
            t = small(rule_broken(which))
            told(model.check(code_of(t))[0], which)
            decoded_as_checked(t)
            decoded_as_checked(t, [token() for _ in range(rng.randrange(1, 6))])
            decode(*records(altered(form(t))))
            decode(*records(form(t)[:-1]))
    for _ in range(200):
        decoded_as_checked(small(condition(3, "oobuc")))
    first, later = (32, KEY, 5), (33, KEY, 5)
    for number, left, right in (
        (4, later, FIVE), (4, (22, later, FIVE), FIVE), (4, (30, later), FIVE), (4, later, first), (4, (22, later, first), FIVE), (4, (22, later, later), first),
        (5, (22, FIVE, first), FIVE), (5, FIVE, first), (5, first, first), (5, (22, first, first), FIVE), (5, (17,), first), (5, (18, (2,)), (22, later, first)),
        (5, (22, (18, (3, (2,), (1, 1))), later), first), (5, FIVE, (22, FIVE, (31, first))),
        (0, first, later), (0, FIVE, later), (0, (22, FIVE, later), later), (0, (22, first, later), (22, later, FIVE)), (0, (18, (2,)), later),
    ):
        t = (48, left, right)
        told(model.check(code_of(t))[0], number)
        for own in (FIVE, first, later, (22, first, FIVE), (48, later, first), (48, FIVE, FIVE)):  # what stands before the tail is not judged
            decoded_as_checked(t, form(own))
        decoded_as_checked(t)
    for left in ((28, later, FIVE), (28, FIVE, first), (28, first, FIVE)):  # of 1,024 tokens
        decoded_as_checked((50, inverts(MAX_TOKENS - 2 - len(form(left)), left), FIVE))


# ---- the smallest example of each number, and the worked example, as docs/OPERATORS.md tells them

NINE = const(9)
HIDDEN = [([7], [0]), ([8], [0]), ([0], [0]), ([0], [0])]
SIGNATURE, PRICE = bytes(64), (9).to_bytes(8, "little")
EARLY, EXACT, LATER = [n.to_bytes(8, "little") for n in (4, 5, 6)]


def told(got, wanted):
    assert got == wanted, (got, wanted)


def equals_five(x):
    return code_of((48, x, FIVE))


def elements(*es):
    return b"".join(es), [sum(map(len, es[: k + 1])) for k in range(len(es))]


def told_evaluation(number, code, lists=ONE_INPUT, lent=(b"", []), room=112):
    told(evaluate(code, lists, 0, lent, room)[0], number)


def examples():
    for number, code in (
        (0, equals_five(FIVE)), (1, bytes(MAX_CODE + 1)), (2, b""), (3, equals_five(inverts(1022, FIVE))), (4, equals_five((33, KEY, 5))),
        (5, equals_five((22, FIVE, (32, KEY, 5)))),
    ):
        told(model.check(code)[0], number)
        check(code)
    told(write(equals_five(FIVE), [3, 3, 3], 0), (0, 3, 0))
    told(write(equals_five((18, (1, 2**32))), [9, 9, 9], 0)[0], 6)
    told(write(equals_five(FIVE), [2, 3, 3], 0)[0], 7)
    told(write(equals_five((32, KEY, 5)), [12, 12, 12], 31)[0], 7)
    evaluation_examples()
    oracle_examples()
    decoding_examples()


def evaluation_examples():
    at = lambda c, i: equals_five((c, i))
    first = (18, (1, 0))
    for verdict, amount in ((1, 7), (0, 5)):  # the amount of input 0 is 7
        told(evaluate(code_of((48, first, const(amount))), ONE_INPUT, 0, (b"", []), 0)[:2], (0, verdict))
    told_evaluation(8, equals_five(FIVE), NO_MARK)
    told_evaluation(8, equals_five(FIVE), [([7], [1]), ([8], [1]), ([], []), ([0], [0])])
    told_evaluation(12, equals_five(FIVE), lent=(b"", [1]))
    told_evaluation(20, at(18, (1, 1)))
    told_evaluation(21, equals_five(first), HIDDEN)
    told_evaluation(22, at(19, (1, 1)))
    told_evaluation(23, at(19, (1, 0)), HIDDEN)
    told_evaluation(24, at(20, (1, 1)))
    told_evaluation(25, at(20, (1, 0)))
    told_evaluation(26, at(21, (1, 0)))
    told_evaluation(27, equals_five((22, const(GREATEST), const(1))))
    told_evaluation(28, equals_five((23, const(LEAST), const(1))))
    told_evaluation(29, equals_five((24, const(GREATEST), const(2))))
    told_evaluation(30, equals_five((25, NINE, const(0))))
    told_evaluation(31, equals_five((26, NINE, const(0))))
    told_evaluation(32, equals_five((31, const(LEAST))))
    told_evaluation(41, at(18, (6, (2,), (1, 0))))
    less_one = (4, (2,), (1, 1))  # the incident, and the desk that goes on from there
    told_evaluation(43, at(18, less_one))
    for current, i, answer in ((0, less_one, (43, 0)), (1, less_one, (0, 1)), (0, (3, less_one, (1, 2)), (0, 1))):
        told(evaluate(code_of((48, (18, i), const(7))), [([7, 7], [1, 1])] * 4, current, (b"", []), 0)[:2], answer)


def oracle_examples():
    priced = equals_five((32, KEY, 5))
    told_evaluation(7, priced, room=111)
    for number, lent in (
        (33, []), (34, [b"1234567"]), (35, [PRICE]), (36, [b"1234567", PRICE]), (37, [EARLY, PRICE]), (38, [bytes(63), EARLY, PRICE]),
        (39, [SIGNATURE, EARLY, PRICE]), (40, [SIGNATURE, EXACT, bytes([0] * 7 + [128])]),
    ):
        told_evaluation(number, priced, lent=elements(*lent))
    at_least_nine = code_of((52, (32, KEY, 5), NINE))  # the worked example
    eight = (8).to_bytes(8, "little")
    check_bytes = lambda time, price: KEY + time + price + SIGNATURE
    run = lambda *es: evaluate(at_least_nine, ONE_INPUT, 0, elements(*es), 112)
    told(run(SIGNATURE, EXACT, PRICE), (0, 1, 0, 0, 1, 0, check_bytes(EXACT, PRICE)))
    told(run(SIGNATURE, EXACT, eight), (0, 0, 0, 0, 1, 0, check_bytes(EXACT, eight)))
    told(run(SIGNATURE, LATER, PRICE), (0, 1, 0, 0, 1, 0, check_bytes(LATER, PRICE)))  # the check has the witness's time
    told(run(SIGNATURE, EARLY, PRICE), (39, 0, 0, 0, 0, 0, b""))
    told(run(PRICE, EXACT, SIGNATURE), (34, 0, 0, 0, 0, 2, b""))
    told(run(SIGNATURE, EXACT, b""), (34, 0, 0, 0, 0, 2, b""))  # an element that is no push


def quotes():
    """R-8: the times of a terminal and of its quote, and what comes before 39 and after it."""
    for k, terminal in enumerate(TIMES):
        for n, time in enumerate(TIMES):
            quote = elements(SIGNATURE, time.to_bytes(8, "little"), PRICE)
            wanted = (0, 1, 0, 0, 1, 0, KEY + quote[0][64:] + SIGNATURE) if n >= k else (39, 0, 0, 0, 0, 0, b"")
            told(evaluate(code_of((48, (32, KEY, terminal), NINE)), ONE_INPUT, 0, quote, 112), wanted)
    for number, es in (  # where the time is before the terminal's
        (34, [SIGNATURE, EARLY, bytes(7)]), (37, [EARLY, PRICE]), (38, [bytes(63), EARLY, PRICE]), (38, [bytes(65), EARLY, PRICE]), (39, [SIGNATURE, EARLY, bytes([255] * 8)]),
    ):
        told_evaluation(number, equals_five((32, KEY, 5)), lent=elements(*es))


def indexed():
    """R-4: indexes at the edges; a check that was listed before 43 stays, and what stands after it is not looked at."""
    for t, lists, current, answer in indexes.cases():
        wanted = (0, 1, 0, 0) if answer == 1 else (answer[0], 0, *answer[1:])
        told(evaluate(code_of(t), lists, current, (b"", []), 0), (*wanted, 0, 0, b""))
    quote, negative = elements(SIGNATURE, EXACT, PRICE), (18, indexes.below(1))
    told(evaluate(equals_five((22, (32, KEY, 5), negative)), ONE_INPUT, 0, quote, 112), (43, 0, 0, 0, 1, 0, KEY + EXACT + PRICE + SIGNATURE))
    told(evaluate(equals_five((22, negative, (33, KEY, 5))), ONE_INPUT, 0, quote, 112), (43, 0, 0, 0, 0, 3, b""))


def written_in_order(t, keys, places):
    """R-5: Write leaves these key bytes and the terminals' places, in as much room or more; a byte of room less, or a key, is refused."""
    code, tokens, rest = code_of(t), form(t), iter(places)
    told(model.write(code, len(tokens), len(keys))[4:], ([next(rest) if x[0] == BYTES32 else 0 for x in tokens], keys))
    for room in sorted({len(keys), 32 * len(places), len(keys) - 1, len(keys) - 32}):
        told(write(code, [len(tokens)] * 3, room), (7, 0, 0) if room < len(keys) else (0, len(tokens), len(keys)))


def read_alike(t):
    """R-5: Decode gives the condition from each of its key buffers; from Write's without the last byte it refuses the first record that names the last key."""
    tokens = form(t)
    for lent in key_orders.layouts(tokens):
        told(decode(*lent), (0, 0, code_of(t), 0))
    kinds, numbers, places, keys = model.written(tokens)
    told(decode(kinds, numbers, places, keys[:-1]), (9, tokens.index((BYTES32, keys[-32:])), b"", 0))


def keyed():
    """R-5: the order of keys, the room that they need, and the key buffers that are read alike."""
    for t, keys, places in key_orders.cases():
        written_in_order(t, keys, places)
        read_alike(t)
    for t, keys, places in key_orders.near():
        written_in_order(t, keys, places)
    sevens, both, nines = key_orders.ALIKE[:3]
    told(key_orders.overlapped([sevens, both, nines]), ([0, 16, 32], bytes([7] * 32 + [9] * 32)))
    told(key_orders.overlapped(key_orders.ACROSS), ([0, 32, 16, 31], KEY + key_orders.OTHER))
    for four in key_orders.FOURS:
        for _ in range(15):  # keys in any order
            t = key_orders.named_again(condition(3, "oobuc"), four)
            write(code_of(t))
            told(decode(*model.written(form(t)))[:2], model.check(code_of(t)))


def decoding_examples():
    b8 = (BYTES8, 5)
    told(decode(*records([b8, b8, (14,)])), (0, 0, equals_five(FIVE), 0))
    one = lambda kind, number, room=MAX_CODE: decode([kind], [number], [0], b"", room)
    told(one(36, 0)[:2], (9, 0))
    told(one(NUM, 2**32)[:2], (9, 0))
    told(one(BYTES32, 0)[:2], (9, 0))
    told(decode([14], [], [0], b"")[:2], (9, 0))
    told(one(14, 0, MAX_CODE - 1)[0], 7)
    told(one(14, 0)[0], 11)
    told(decode(*records(form((48, (33, KEY, 5), FIVE))))[0], 4)
    told(decode(*records(form((48, FIVE, (32, KEY, 5)))))[0], 5)
    told(decode([0] * (MAX_TOKENS + 1), [0] * (MAX_TOKENS + 1), [0] * (MAX_TOKENS + 1), b"")[0], 10)


# ---- document 01's orders of refusals, and its "run only" at the bounds

def asked(call, faults):
    """The number that is answered to a case with these faults."""
    if call == "Evaluate":
        return evaluate(*orders.evaluation(faults))[0]
    if call == "Write":
        return write(*orders.writing(faults))[0]
    if call == "Decode":
        kinds, numbers, room = orders.decoding(faults)
        return decode(kinds, numbers, [0] * len(kinds), KEY, room)[0]
    if call == "Script":
        return script(*orders.scripting(faults))
    code = orders.condition_code(call, faults)
    check(code)
    return model.check(code)[0]


def orderings(calls):
    for call in calls:
        pairs = orders.pairs(call)
        for first, second in pairs:
            told(asked(call, {first, second}), first)
        for second in sorted({b for _, b in pairs}):
            told(asked(call, {second}), second)


def bounds():
    for size, number in ((MAX_CODE, 3), (MAX_CODE + 1, 1)):  # well-formed code
        code = orders.long_code(size)
        told((len(code), model.check(code)[0]), (size, number))
        check(code)
        told(evaluate(code, ONE_INPUT, 0, (b"", []), 0)[0], number)
        told(write(code, [MAX_TOKENS] * 3, 0)[0], number)
    most = equals_five((18, (1, 2**32 - 1)))
    told(write(most, [7] * 3, 0), (0, 7, 0))
    told(decode(*records(form(model.parse(most)))), (0, 0, most, 0))
    told(decode(*records([(NUM, 2**32)] + form(model.parse(most))[1:]))[:2], (9, 0))


# ---- what the published Rust answered: published.txt, made by `target/compare/compare sample 7 450 | grep -v ^S | awk 'length < 1500'` (tests/compare)

def unhex(s):
    return b"" if s in "-." else bytes.fromhex(s)


def listed(s, of):
    return [] if s == "-" else [of(x) for x in s.split(",")]


def token_of(s):
    kind, _, data = s.partition(":")
    k, b = int(kind), unhex(data or "-")
    return (k, model.word(b)) if k in (NUM, BYTES8) else (k, b) if k == BYTES32 else (k,)


def add_evaluated(code, at, spent, outs, issued, reissued, witness, answer):
    parts = [code]
    for s in (spent, outs, issued, reissued):
        parts += [words(*listed(s, lambda x: 0 if x == "x" else int(x))), bytes(listed(s, lambda x: x != "x"))]
    elements = listed(witness, unhex)
    ends = [sum(map(len, elements[: k + 1])) for k in range(len(elements))]
    number, first, second, verdict, checks, left, listing = answer.split(" ") if " " in answer else (answer, 0, 0, 0, 0, len(ends), "-")
    parts += [b"".join(elements), halves(ends)]
    parts += [words(int(at), 112 * MAX_ORACLES, int(number), int(verdict), int(first), int(second), int(checks), int(left)), unhex(listing)]
    cases.add(2, int(number), parts)


def add_written(code, answer):
    tokens = [] if answer in ("4", "5") else listed(answer, token_of)
    add_write(code, [1030, 1030, 1030, 32 * MAX_ORACLES], 0 if tokens else int(answer), 0, *model.written(tokens))


def add_decoded(tokens, answer):
    kinds, numbers, places, keys = records(tokens)
    start, code = (0, b"") if answer == "11" else (int(answer.split(" ")[0]), unhex(answer.split(" ")[1]))
    number = 0 if code else model.decode(kinds, numbers, places, keys, MAX_CODE)[0]
    assert code or number in (4, 5, 11), "the Rust's None is 4, 5 or 11"
    parts = [bytes(kinds), words(*numbers), halves(places), keys]
    cases.add(4, number, parts + [words(MAX_CODE, number, 0, len(code), start), code])


def published(path):
    for line in open(path):
        case, _, answer = line.strip().partition(" => ")
        f = case.split(" ")
        if f[0] == "C":
            cases.add(1, int(answer), [unhex(f[1]), words(int(answer), 0)])
        elif f[0] == "E":
            add_evaluated(unhex(f[1]), *f[2:], answer)
        elif f[0] == "W":
            add_written(unhex(f[1]), answer)
        else:
            add_decoded(listed(f[1], token_of), answer)


def main():
    if len(sys.argv) != 2:
        sys.exit("generate.py FILE: where the cases are written")
    published(os.path.join(os.path.dirname(os.path.abspath(__file__)), "published.txt"))
    examples()
    for c in codes():
        check(c)
    evaluations()
    quotes()
    indexed()
    for c in codes():
        write(c)
    for _ in range(900):
        write(code_of(condition(3)))
    for n in (2**32 - 1, 2**32):
        for _ in range(10):
            write(code_of((48, (rng.choice([18, 19]), (rng.choice([3, 5]), (2,), (1, n))), const(5))))
    decodings()
    rules_told()
    orderings([call for call in orders.ORDER if call != "Script"])
    bounds()
    keyed()
    orderings(["Script"])
    for case in scripts.cases():
        script(*case)
    assert all(cases.seen[5, n] >= 10 for n in range(8))
    with open(sys.argv[1], "wb") as f:
        f.write(b"".join(cases.out))
    for call, name in enumerate(orders.ORDER, 1):
        print(name, {n: c for (k, n), c in sorted(cases.seen.items()) if k == call})
    print(len(cases.out), "cases", sum(map(len, cases.out)), "bytes")


def started():
    """main, with room for deep recursion; what fails in it fails the program."""
    sys.setrecursionlimit(60000)
    threading.stack_size(512 << 20)
    with concurrent.futures.ThreadPoolExecutor(1) as pool:
        pool.submit(main).result()


if __name__ == "__main__":
    started()
