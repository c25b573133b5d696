"""Document 01 in Python, with what document 02's requests change of it or add to it (named where they do): the calls on lists and bytes. Written from the documents' words alone,
with trees, whole numbers and a reader that tries every production at every place, so that it shares no way of working with the code that it judges."""

MAX_CODE, MAX_TOKENS = 9216, 1024
MAX_ORACLES, MAX_SCRIPT = 73, 5120  # follow from MAX_TOKENS, as include/covenant.h tells
MOST_INDEX = 2**31 - 1

# kinds of tokens
(OTHER, NUM, BYTES8, BYTES32, CURR_INP, ADD, SUB, TO_LE64, TO_NUM, MUL64, DIV64, ADD64, SUB64, NEG64, EQUAL, VERIFY, NIP, DROP, AND, OR, XOR, INVERT,
 INP_VALUE, OUT_VALUE, INP_ISSUE, DUP2, TO_ALT, FROM_ALT, GEQ64, GE64, LEQ64, LE64, CAT, SHA256, CHECKSIG, SWAP) = range(36)

# "one opcode byte for each operation, from the opcode document"
OPCODES = {
    CURR_INP: 0xCD, ADD: 0x93, SUB: 0x94, TO_LE64: 0xE0, TO_NUM: 0xE1, MUL64: 0xD9, DIV64: 0xDA, ADD64: 0xD7, SUB64: 0xD8, NEG64: 0xDB, EQUAL: 0x87,
    VERIFY: 0x69, NIP: 0x77, DROP: 0x75, AND: 0x84, OR: 0x85, XOR: 0x86, INVERT: 0x83, INP_VALUE: 0xC9, OUT_VALUE: 0xCF, INP_ISSUE: 0xCC, DUP2: 0x6E,
    TO_ALT: 0x6B, FROM_ALT: 0x6C, GEQ64: 0xDF, GE64: 0xDE, LEQ64: 0xDD, LE64: 0xDC, CAT: 0x7E, SHA256: 0xA8, CHECKSIG: 0xC2, SWAP: 0x7C,
}
EQUALVERIFY = 0x88

ONE = (NUM, 1)
CHECKED = [ONE, (EQUAL,), (VERIFY,)]  # <1> EQUALVERIFY


def ops(*kinds):
    return [(k,) for k in kinds]


IDX_BETWEEN = {3: [], 4: [], 5: ops(TO_LE64), 6: ops(TO_LE64)}
IDX_TOKENS = {3: ops(ADD), 4: ops(SUB), 5: ops(TO_LE64, MUL64) + CHECKED + ops(TO_NUM), 6: ops(TO_LE64, DIV64) + CHECKED + ops(NIP, TO_NUM)}
LIST_TOKENS = {
    18: ops(INP_VALUE) + CHECKED,
    19: ops(OUT_VALUE) + CHECKED,
    20: ops(INP_ISSUE, DROP, DROP) + CHECKED + ops(NIP, NIP),
    21: ops(INP_ISSUE, DROP, DROP, DROP, DROP) + CHECKED,
}
BIN_TOKENS = {
    22: ops(ADD64) + CHECKED,
    23: ops(SUB64) + CHECKED,
    24: ops(MUL64) + CHECKED,
    25: ops(DIV64) + CHECKED + ops(NIP),
    26: ops(DIV64) + CHECKED + ops(DROP),
    27: ops(AND),
    28: ops(OR),
    29: ops(XOR),
}
UN_TOKENS = {30: ops(INVERT), 31: ops(NEG64) + CHECKED}
CMP_TOKENS = {48: ops(EQUAL), 49: ops(LE64), 50: ops(LEQ64), 51: ops(GE64), 52: ops(GEQ64)}


class Refused(Exception):
    def __init__(self, number, first=0, second=0):
        self.answer = (number, first, second)


def word(b):
    return int.from_bytes(b, "little")


def signed(bits):
    return bits - 2**64 if bits >= 2**63 else bits


def operand_bytes(c):
    return {1: 8, 16: 8, 32: 40, 33: 40}.get(c, 0)


def known(c):
    return 1 <= c <= 6 or 16 <= c <= 33 or 48 <= c <= 52


def parse(code):
    """The tree of the code, a comparison (command, left, right); or refusal 2 with the offset."""
    values, indexes, at, done = [], [], 0, None
    while at < len(code):
        c = code[at]
        if done or not known(c) or at + 1 + operand_bytes(c) > len(code):
            raise Refused(2, at)
        v, i = len(values), len(indexes)
        data = code[at + 1 : at + 1 + operand_bytes(c)]
        if c in (1, 2):
            indexes.append((1, word(data)) if c == 1 else (2,))
        elif 3 <= c <= 6 and i >= 2:
            y, x = indexes.pop(), indexes.pop()
            indexes.append((c, x, y))
        elif c == 16 and i == 0:
            values.append((16, word(data)))
        elif c == 17 and i == 0:
            values.append((17,))
        elif c in (32, 33) and i == 0:
            values.append((c, bytes(data[:32]), word(data[32:])))
        elif 18 <= c <= 21 and i == 1:
            values.append((c, indexes.pop()))
        elif 22 <= c <= 29 and v >= 2 and i == 0:
            y, x = values.pop(), values.pop()
            values.append((c, x, y))
        elif c in (30, 31) and v >= 1 and i == 0:
            values.append((c, values.pop()))
        elif c >= 48 and v == 2 and i == 0:
            done = (c, values[0], values[1])
        else:
            raise Refused(2, at)
        at += 1 + len(data)
    if not done:
        raise Refused(2, len(code))
    return done


def code_of(t):
    c = t[0]
    if c in (1, 16):
        return bytes([c]) + t[1].to_bytes(8, "little")
    if c in (32, 33):
        return bytes([c]) + t[1] + t[2].to_bytes(8, "little")
    return b"".join(code_of(x) for x in t[1:]) + bytes([c])


def form(t):
    c = t[0]
    if c == 1:
        return [(NUM, t[1])]
    if c == 2:
        return ops(CURR_INP)
    if 3 <= c <= 6:
        return form(t[1]) + IDX_BETWEEN[c] + form(t[2]) + IDX_TOKENS[c]
    if c == 16:
        return [(BYTES8, t[1])]
    if c == 17:
        return ops(CURR_INP) + LIST_TOKENS[18]
    if 18 <= c <= 21:
        return form(t[1]) + LIST_TOKENS[c]
    if 22 <= c <= 29:
        return form(t[1]) + form(t[2]) + BIN_TOKENS[c]
    if c in (30, 31):
        return form(t[1]) + UN_TOKENS[c]
    if c == 32:
        return (ops(DUP2, TO_ALT) + [(BYTES8, t[2])] + ops(GEQ64, VERIFY, CAT, SHA256) + [(BYTES32, t[1])] + ops(CHECKSIG, FROM_ALT))
    if c == 33:
        return ops(TO_ALT) + form((32, t[1], t[2])) + ops(FROM_ALT, SWAP)
    return form(t[1]) + form(t[2]) + CMP_TOKENS[c]


def terminals(t):
    """Of a value expression, left to right."""
    if t[0] in (16, 17, 18, 19, 20, 21, 32, 33):
        return [t[0]]
    return [x for e in t[1:] for x in terminals(e)]


def oracle_rule(t):
    left, right = terminals(t[1]), terminals(t[2])
    if left[0] == 33:
        raise Refused(4)
    if 32 in left[1:] or 32 in right:
        raise Refused(5)


def oracles(t):
    return sum(x in (32, 33) for e in t[1:] for x in terminals(e))


def condition(code):
    """Refusals 1 to 5, or the tree."""
    if len(code) > MAX_CODE:
        raise Refused(1)
    t = parse(code)
    if len(form(t)) > MAX_TOKENS:
        raise Refused(3)
    oracle_rule(t)
    return t


def check(code):
    """(number, place)"""
    try:
        condition(code)
        return (0, 0)
    except Refused as r:
        return r.answer[:2]


def operand(c, data):
    """What R-10 prints of a command's operand bytes: "the constant, or an oracle's time, unsigned; otherwise blanks"."""
    if c == 1:
        return str(word(data))
    if c == 16:
        return str(signed(word(data)))
    return str(word(data[32:])) if c in (32, 33) else ""


def sheet(code):
    """R-10: the bytes that are printed."""
    number = check(code)[0]
    if number:
        return b"%29d\n" % number
    lines, at = [], 0
    while at < len(code):
        data = code[at + 1 : at + 1 + operand_bytes(code[at])]
        lines.append("%5d %2d %20s\n" % (at, code[at], operand(code[at], data)))
        at += 1 + len(data)
    return "".join(lines).encode()


def quotient_and_remainder(a, b):
    """a = b * q + r, 0 <= r < |b|."""
    r = a % abs(b)
    return (a - r) // b, r


class Evaluation:
    """Lists are [(numbers, marks)] for spent, outputs, issued and reissued; the witness is its elements, bottom first."""

    def __init__(self, lists, current, elements):
        self.lists, self.current, self.elements, self.checks = lists, current, list(elements), []

    def index(self, t):
        if t[0] == 1:
            n = t[1]
        elif t[0] == 2:
            n = self.current
        else:
            x, y = self.index(t[1]), self.index(t[2])
            if t[0] == 6 and y == 0:
                raise Refused(41)
            n = {3: lambda: x + y, 4: lambda: x - y, 5: lambda: x * y, 6: lambda: quotient_and_remainder(x, y)[0]}[t[0]]()
        if not -MOST_INDEX <= n <= MOST_INDEX:
            raise Refused(41)
        return n

    def amount(self, which, k, outside, hidden):
        numbers, marks = self.lists[which]
        if k < 0:
            raise Refused(43)
        if k >= len(numbers):
            raise Refused(outside, k, len(numbers))
        if marks[k] != 1:
            raise Refused(hidden, k)
        return signed(numbers[k])

    def pop(self, width, missing, wrong):
        if not self.elements:
            raise Refused(missing)
        e = self.elements.pop()
        if len(e) != width:
            raise Refused(wrong)
        return e

    def oracle(self, key, time):
        price = self.pop(8, 33, 34)
        told = self.pop(8, 35, 36)
        signature = self.pop(64, 37, 38)
        if signed(word(told)) < signed(time):
            raise Refused(39)
        self.checks.append(key + told + price + signature)
        if word(price) >= 2**63:
            raise Refused(40)
        return word(price)

    def value(self, t):
        c = t[0]
        if c == 16:
            return signed(t[1])
        if c == 17:
            return self.amount(0, self.index((2,)), 20, 21)
        if 18 <= c <= 21:
            k = self.index(t[1])
            which, outside, hidden = {18: (0, 20, 21), 19: (1, 22, 23), 20: (2, 24, 25), 21: (3, 24, 26)}[c]
            return self.amount(which, k, outside, hidden)
        if c in (32, 33):
            return self.oracle(t[1], t[2])
        if c in (30, 31):
            x = self.value(t[1])
            if c == 30:
                return -x - 1
            if x == -(2**63):
                raise Refused(32, x)
            return -x
        x = self.value(t[1])
        y = self.value(t[2])
        return self.binary(c, x, y)

    def binary(self, c, x, y):
        if c in (25, 26) and y == 0:
            raise Refused(c + 5, x, y)
        if c in (25, 26):
            q, r = quotient_and_remainder(x, y)
            if not -(2**63) <= q < 2**63:
                raise Refused(c + 5, x, y)
            return q if c == 25 else r
        if c >= 27:
            return {27: x & y, 28: x | y, 29: x ^ y}[c]
        n = {22: x + y, 23: x - y, 24: x * y}[c]
        if not -(2**63) <= n < 2**63:
            raise Refused(c + 5, x, y)
        return n

    def holds(self, t):
        x = self.value(t[1])
        y = self.value(t[2])
        return {48: x == y, 49: x < y, 50: x <= y, 51: x > y, 52: x >= y}[t[0]]


def evaluate(code, lists, current, witness, ends, room):
    """(number, verdict, first, second, number of checks, elements left, check bytes); lists are four (numbers, marks)"""

    def refused(r, checks, left):
        n, a, b = r.answer
        return (n, 0, a % 2**64, b % 2**64, len(checks), left, b"".join(checks))

    try:
        t = condition(code)
        if any(len(n) != len(m) or any(x not in (0, 1) for x in m) for n, m in lists):
            raise Refused(8)
        if not len(lists[0][0]) == len(lists[2][0]) == len(lists[3][0]):
            raise Refused(8)
        if any(e < s for s, e in zip([0] + list(ends), ends)) or any(e > len(witness) for e in ends):
            raise Refused(12)
        if room < 112 * oracles(t):
            raise Refused(7)
    except Refused as r:
        return refused(r, [], len(ends))
    state = Evaluation(lists, current, [witness[s:e] for s, e in zip([0] + list(ends), ends)])
    try:
        v = state.holds(t)
    except Refused as r:
        return refused(r, state.checks, len(state.elements))
    return (0, int(v), 0, 0, len(state.checks), len(state.elements), b"".join(state.checks))


def written(tokens):
    """Kinds, numbers, places and key bytes of a form. R-5: keys in the order of the first token that names them, equal ones once."""
    keys = list(dict.fromkeys(t[1] for t in tokens if t[0] == BYTES32))
    numbers = [t[1] if t[0] in (NUM, BYTES8) else 0 for t in tokens]
    places = [32 * keys.index(t[1]) if t[0] == BYTES32 else 0 for t in tokens]
    return [t[0] for t in tokens], numbers, places, b"".join(keys)


def formed(code):
    """Refusals 1 to 6, or the token form."""
    tokens = form(condition(code))
    if any(k[0] == NUM and k[1] >= 2**32 for k in tokens):
        raise Refused(6)
    return tokens


def write(code, room, key_room):
    """(number, place, kinds, numbers, places, key bytes); room is the shortest of the three record slices"""
    try:
        tokens = formed(code)
        answer = (0, 0, *written(tokens))
        if room < len(tokens) or key_room < len(answer[5]):
            raise Refused(7)
        return answer
    except Refused as r:
        return r.answer[:2] + ([], [], [], b"")


def pushed(n):
    """R-3: "the shortest script number, with 0 and 1 to 16 as their own opcodes". Lowest byte first; the top bit of the last one is the sign, so it is clear."""
    if n <= 16:
        return bytes([0x50 + n if n else 0])
    digits = []
    while n or digits[-1] >= 128:
        digits.append(n % 256)
        n //= 256
    return bytes([len(digits), *digits])


def script_of(kind, data=None):
    """The bytes of one token; "an 8-byte or 32-byte operand is a direct push"."""
    if kind == NUM:
        return pushed(data)
    if kind in (BYTES8, BYTES32):
        return b"\x08" + data.to_bytes(8, "little") if kind == BYTES8 else b"\x20" + data
    return bytes([OPCODES[kind]])


def script(tokens):
    """R-3: the script of a form; "Equal followed by Verify in a form is one byte"."""
    pieces, at = [], 0
    while at < len(tokens):
        both = tokens[at : at + 2] == ops(EQUAL, VERIFY)
        pieces.append(bytes([EQUALVERIFY]) if both else script_of(*tokens[at]))
        at += 2 if both else 1
    return b"".join(pieces)


def write_script(code, room):
    """R-3: (number, place, script)"""
    try:
        given = script(formed(code))
        if room < len(given):
            raise Refused(7)
        return (0, 0, given)
    except Refused as r:
        return r.answer[:2] + (b"",)


class Reader:
    """Every tree whose form ends before a place, with where it begins. Each production is tried, whether another has fitted or not."""

    def __init__(self, tokens):
        self.tokens, self.idx, self.val = tokens, {}, {}

    def before(self, end, own):
        return end >= len(own) and self.tokens[end - len(own) : end] == own

    def indexes(self, end):
        if end not in self.idx:
            found = []
            last = self.tokens[end - 1] if end else None
            if last and last[0] == NUM:
                found.append((end - 1, (1, last[1])))
            if last == (CURR_INP,):
                found.append((end - 1, (2,)))
            for c, own in IDX_TOKENS.items():
                if self.before(end, own):
                    for m, y in self.indexes(end - len(own)):
                        if self.before(m, IDX_BETWEEN[c]):
                            found += [(s, (c, x, y)) for s, x in self.indexes(m - len(IDX_BETWEEN[c]))]
            self.idx[end] = found
        return self.idx[end]

    def oracle(self, end):
        if end < 10 or self.tokens[end - 3][0] != BYTES32 or self.tokens[end - 8][0] != BYTES8:
            return []
        t = (32, self.tokens[end - 3][1], self.tokens[end - 8][1])
        return [(end - 10, t)] if self.before(end, form(t)) else []

    def values(self, end):
        if end not in self.val:
            found = []
            last = self.tokens[end - 1] if end else None
            if last and last[0] == BYTES8:
                found.append((end - 1, (16, last[1])))
            for c, own in LIST_TOKENS.items():
                if self.before(end, own):
                    for s, i in self.indexes(end - len(own)):
                        found.append((s, (17,) if c == 18 and i == (2,) else (c, i)))  # the twins: Decode returns 17
            for c, own in UN_TOKENS.items():
                if self.before(end, own):
                    found += [(s, (c, x)) for s, x in self.values(end - len(own))]
            for c, own in BIN_TOKENS.items():
                if self.before(end, own):
                    for m, y in self.values(end - len(own)):
                        found += [(s, (c, x, y)) for s, x in self.values(m)]
            found += self.oracle(end)
            if self.before(end, ops(FROM_ALT, SWAP)):
                for s, t in self.oracle(end - 2):
                    if self.before(s, ops(TO_ALT)):
                        found.append((s - 1, (33, t[1], t[2])))
            self.val[end] = found
        return self.val[end]

    def conditions(self):
        end, found = len(self.tokens), []
        for c, own in CMP_TOKENS.items():
            if self.before(end, own):
                for m, y in self.values(end - len(own)):
                    found += [(s, (c, x, y)) for s, x in self.values(m)]
        return found


def decode(kinds, numbers, places, keys, room):
    """(number, place, code, start)"""
    if len(kinds) > MAX_TOKENS:
        return (10, 0, b"", 0)
    tokens = []
    for i, k in enumerate(kinds):
        if i >= len(numbers) or i >= len(places) or k > 35:
            return (9, i, b"", 0)
        if k == NUM and numbers[i] >= 2**32 or k == BYTES32 and places[i] + 32 > len(keys):
            return (9, i, b"", 0)
        tokens.append((k, numbers[i]) if k in (NUM, BYTES8) else (k, bytes(keys[places[i] : places[i] + 32])) if k == BYTES32 else (k,))
    if room < MAX_CODE:
        return (7, 0, b"", 0)
    found = Reader(tokens).conditions()
    assert len(found) <= 1, "two meanings"
    for start, t in found:
        try:
            oracle_rule(t)
        except Refused as r:  # "4 or 5 as Check would"
            return r.answer[:2] + (b"", 0)
        return (0, 0, code_of(t), start)
    return (11, 0, b"", 0)
