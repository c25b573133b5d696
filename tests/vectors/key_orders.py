"""R-5's cases: conditions whose oracle terminals name keys in a given order, with what Write must leave of the keys; and the key buffers of a form that Decode
must read alike. Each list below says what its cases are for."""
from conditions import chain, const, right_chain, rng
from model import BYTES32, MAX_ORACLES, written
from orders import FIVE, KEY
from token_lists import records

# The keys that the terminals name; by hand, the keys as Write must leave them and the place of each terminal's.
ORDERS = [
    ("A", "A", [0]), ("AA", "A", [0, 0]), ("AB", "AB", [0, 32]), ("BA", "BA", [0, 32]), ("AAB", "AB", [0, 0, 32]), ("ABA", "AB", [0, 32, 0]),
    ("ABB", "AB", [0, 32, 32]), ("ABBA", "AB", [0, 32, 32, 0]), ("ABCD", "ABCD", [0, 32, 64, 96]), ("DCBA", "DCBA", [0, 32, 64, 96]),
    ("AAAAA", "A", [0, 0, 0, 0, 0]), ("CABBACD", "CABD", [0, 32, 64, 64, 32, 0, 96]),
]


def changed(at, by=1):
    """The key with one other byte."""
    return KEY[:at] + bytes([KEY[at] ^ by]) + KEY[at + 1 :]


WORDS = [KEY[k : k + 8] for k in range(0, 32, 8)]
OTHER = bytes(range(100, 132))
LAST = [KEY[:31] + bytes([n]) for n in range(4)]
ACROSS = [KEY, OTHER, KEY[16:] + OTHER[:16], KEY[31:] + OTHER[:31]]
ALIKE = [bytes([7] * n + [9] * (32 - n)) for n in (32, 16, 0, 31)]

# Keys A, B, C and D.
FOURS = [
    LAST,  # the last byte differs
    [bytes([n]) + KEY[1:] for n in range(4)],  # the first byte
    [changed(8 * w + 4) for w in range(4)],  # a byte of each word of 8
    [b"".join(WORDS[k:] + WORDS[:k]) for k in range(4)],  # the order of the words
    [bytes([b] * 32) for b in (0, 255, 0xA5, 1)],  # 0xa5 is what buffers are filled with before a call
    ACROSS,  # C and D stand in the bytes of A and B, but not where a key begins
    ALIKE,  # they can lie over each other
]


def terminals(keys):
    """A PriceOracle1 and then PriceOracle1W, with times of their own."""
    return [(33 if i else 32, k, i) for i, k in enumerate(keys)]


def joined(make, ts):
    rest = iter(ts)
    return make(len(ts), 27, lambda: next(rest))


def to_left(keys):
    return (48, joined(chain, terminals(keys)), FIVE)


def to_right(keys):
    return (48, joined(right_chain, terminals(keys)[::-1]), FIVE)


def on_both_sides(keys):
    first, *later = terminals(keys)
    return (48, first, joined(chain, later) if later else FIVE)


def all_later(keys):
    """PriceOracle1W alone, after a constant."""
    return (48, const(9), joined(chain, [(33, k, t) for _, k, t in terminals(keys)]))


def case(make, four, order):
    named, left, places = order
    of = dict(zip("ABCD", four))
    return make([of[c] for c in named]), b"".join(of[c] for c in left), places


def cases():
    """Condition, key bytes that Write must leave, place of each terminal's key."""
    for order in ORDERS:
        for make in (to_left, to_right, on_both_sides, all_later):
            yield case(make, LAST, order)
    for four in FOURS[1:]:
        for order in ORDERS:
            if order[0] in ("AB", "ABA", "ABCD", "CABBACD"):
                yield case(to_left, four, order)
    different = [KEY[:31] + bytes([n]) for n in range(MAX_ORACLES)]
    yield to_left(different), b"".join(different), [32 * n for n in range(MAX_ORACLES)]
    yield to_left([KEY] * MAX_ORACLES), KEY, [0] * MAX_ORACLES


def near():
    """The same of two keys that differ in one bit, in each byte once."""
    for at in range(32):
        yield case(to_left, [KEY, changed(at, 1 << at % 8)], ("ABA", "AB", [0, 32, 0]))


def named_again(t, keys):
    """The condition with these keys in any order."""
    if t[0] in (32, 33):
        return (t[0], rng.choice(keys), t[2])
    return (t[0], *(named_again(x, keys) if isinstance(x, tuple) else x for x in t[1:]))


def overlapped(named):
    """Where each key stands, and the bytes: a key that is not there yet has as many of the last ones for its first as it can."""
    keys = b""
    for k in named:
        if k not in keys:
            keys += k[next(n for n in range(32, -1, -1) if keys.endswith(k[:n])) :]
    return [keys.index(k) for k in named], keys


def layouts(tokens):
    """Records of a form over key buffers that say the same: as Write leaves them; a key for each terminal, as before R-5, in the order of tokens and in
    reverse; keys that lie over each other; a key for each terminal in any order, with other bytes between."""
    kinds, numbers, places, keys = written(tokens)
    named = [t[1] for t in tokens if t[0] == BYTES32]
    own = [32 * n for n in range(len(named))]
    yield kinds, numbers, places, keys
    for places, keys in ((own, b"".join(named)), (own[::-1], b"".join(named[::-1])), overlapped(named)):
        rest = iter(places)
        yield kinds, numbers, [next(rest) if k == BYTES32 else 0 for k in kinds], keys
    yield records(tokens)
