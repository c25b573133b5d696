"""Document 01's orders of refusals, and a case for each two refusals of an order, on which both fall: the one that comes first must be answered. That both do fall is seen from
the case without the first one's fault, which must be answered with the second. generate.py makes the cases, and fails where a pair of an order is not in the table."""
from conditions import const, inverts
from model import BYTES8, MAX_CODE, MAX_SCRIPT, MAX_TOKENS, NUM, code_of, form, parse

# "1 to 5 in every call that takes a condition; then 6 in Write; then 8, 12 in Evaluate; then 7. Decode: 10, 9, 7, 11." R-2: "4 and 5 take the position of 11." R-3: "6
# as in Write, then 7". After these Evaluate's 20 to 41 and 43 are met, for which 41 stands.
ORDER = {
    "Check": [1, 2, 3, 4, 5],
    "Evaluate": [1, 2, 3, 4, 5, 8, 12, 7, 41],
    "Write": [1, 2, 3, 4, 5, 6, 7],
    "Decode": [10, 9, 7, 4, 5, 11],
    "Script": [1, 2, 3, 4, 5, 6, 7],
}

# Code that is not well formed has no tokens, terminals or index constants, nothing that room is needed for, and nothing to be evaluated; tokens that no tail can be read of break no rule.
NEVER_BOTH = {(2, n) for n in (3, 4, 5, 6, 7, 41)} | {(4, 11), (5, 11)}

# The pairs that the cases decide.
DECIDED = {
    "Check": "1/2 1/3 1/4 1/5 3/4 3/5 4/5",
    "Evaluate": "1/2 1/3 1/4 1/5 1/8 1/12 1/7 1/41 2/8 2/12 3/4 3/5 3/8 3/12 3/7 3/41 4/5 4/8 4/12 4/7 4/41 5/8 5/12 5/7 5/41 8/12 8/7 8/41 12/7 12/41 7/41",
    "Write": "1/2 1/3 1/4 1/5 1/6 1/7 3/4 3/5 3/6 3/7 4/5 4/6 4/7 5/6 5/7 6/7",
    "Decode": "10/9 10/7 10/4 10/5 10/11 9/7 9/4 9/5 9/11 7/4 7/5 7/11 4/5",
    "Script": "1/2 1/3 1/4 1/5 1/6 1/7 3/4 3/5 3/6 3/7 4/5 4/6 4/7 5/6 5/7 6/7",
}

FIVE, KEY = const(5), bytes(range(4, 36))
ONE_INPUT = [([7], [1]), ([8], [1]), ([0], [0]), ([0], [0])]
NO_MARK = [([7], []), ([8], [1]), ([0], [0]), ([0], [0])]


def pairs(call):
    """Those of the table; fails where one of the order is missing there."""
    order = ORDER[call]
    needed = {(a, b) for i, a in enumerate(order) for b in order[i + 1 :]} - NEVER_BOTH
    listed = [tuple(int(n) for n in pair.split("/")) for pair in DECIDED[call].split()]
    assert needed == set(listed), "%s: no case decides %s" % (call, sorted(needed ^ set(listed)))
    return listed


def long_code(size, left=FIVE, right=FIVE):
    """Well-formed code of so many bytes: as many Inverts on the left side."""
    return code_of((48, inverts(size - len(code_of((48, left, right))), left), right))


def condition_code(call, faults):
    """5 equals 5 with these faults. 4: the left side begins with PriceOracle1W. 5: PriceOracle1 stands further on there; 6: an index constant of 2^32; 41: the amount at the
    current index by 0; 7, for Evaluate: an oracle terminal. 1: Inverts up to a byte too many; 3: 1,022 Inverts. 2: a byte after the comparison."""
    left = (33, KEY, 5) if 4 in faults else FIVE
    for fault, term in ((5, (32, KEY, 5)), (6, (18, (1, 2**32))), (41, (18, (6, (2,), (1, 0)))), (7, (33, KEY, 5) if call == "Evaluate" else None)):
        if fault in faults and term:
            left = (22, left, term)
    code = long_code(MAX_CODE + 1, left) if 1 in faults else code_of((48, inverts(MAX_TOKENS - 2 if 3 in faults else 0, left), FIVE))
    return code + b"\x30" if 2 in faults else code


def evaluation(faults):
    """Code, lists, current index, witness and room. 8: a number without its mark; 12: an end of 1 and no bytes; 7: no room for a check."""
    return condition_code("Evaluate", faults), NO_MARK if 8 in faults else ONE_INPUT, 0, (b"", [1] if 12 in faults else []), 0 if 7 in faults else 2 * 112


def writing(faults):
    """Code, and the rooms; 7: none."""
    return condition_code("Write", faults), [0] * 3 if 7 in faults else [MAX_TOKENS] * 3, 64


def scripting(faults):
    """Code and room; 7: none."""
    return condition_code("Script", faults), 0 if 7 in faults else MAX_SCRIPT


def decoding(faults):
    """Kinds, numbers and room: the form of 5 equals 5 with the faults 4 and 5, or Equal alone (11); before it 1,025 records (10); the first of kind 36 (9); room that lacks a
    byte (7). Each key is KEY."""
    tail = [(14,)] if 11 in faults else form(parse(condition_code("Decode", faults & {4, 5})))
    tokens = ([(36,)] if 9 in faults else []) + [(0,)] * (MAX_TOKENS + 1 if 10 in faults else 0) + tail
    return [t[0] for t in tokens], [t[1] if t[0] in (NUM, BYTES8) else 0 for t in tokens], MAX_CODE - 1 if 7 in faults else MAX_CODE
