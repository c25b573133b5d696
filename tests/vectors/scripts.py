"""R-3's cases: code and room and, where the script was written out by hand, the number and the script that must be given. Each list below says what its cases are for."""
from conditions import chain, codes, condition, const, inverts, right_chain, rng, sized
from model import EQUALVERIFY, MAX_CODE, MAX_SCRIPT, MAX_TOKENS, OPCODES, Refused, code_of, form, parse, pushed, script
from orders import FIVE, KEY, long_code
from script_numbers import script_number

NINE, SEVENTH, CURRENT = const(9), (1, 7), (2,)

# Index constants, and by hand the bytes that push them.
PUSHES = {
    0: "00", 1: "51", 2: "52", 15: "5f", 16: "60", 17: "01 11", 75: "01 4b", 127: "01 7f", 128: "02 8000", 129: "02 8100", 255: "02 ff00", 256: "02 0001",
    32767: "02 ff7f", 32768: "03 008000", 65535: "03 ffff00", 65536: "03 000001", 2**23 - 1: "03 ffff7f", 2**23: "04 00008000", 2**24 - 1: "04 ffffff00",
    2**24: "04 00000001", 2**31 - 1: "04 ffffff7f", 2**31: "05 0000008000", 2**32 - 1: "05 ffffffff00",
}
TOO_LARGE = [2**32, 2**32 + 1, 2**63, 2**64 - 1]  # 6

# By hand, from the two `push_to_builder` and the opcode document: index steps, of what their operands give.
STEPS = {3: "%s %s 93", 4: "%s %s 94", 5: "%s e0 %s e0 d9 51 88 e1", 6: "%s e0 %s e0 da 51 88 77 e1"}

P5, P9, TIME = "08 0500000000000000", "08 0900000000000000", "08 0700000000000000"
PK = "20 0405060708090a0b0c0d0e0f101112131415161718191a1b1c1d1e1f20212223"

# By hand, every command: the left side of a comparison with 5, and its bytes.
VALUES = [
    ((18, SEVENTH), "57 c9 51 88"),
    ((18, CURRENT), "cd c9 51 88"),
    ((18, (3, CURRENT, SEVENTH)), "cd 57 93 c9 51 88"),
    ((18, (4, CURRENT, SEVENTH)), "cd 57 94 c9 51 88"),
    ((18, (5, CURRENT, SEVENTH)), "cd e0 57 e0 d9 51 88 e1 c9 51 88"),
    ((18, (6, CURRENT, SEVENTH)), "cd e0 57 e0 da 51 88 77 e1 c9 51 88"),
    (FIVE, P5),
    (const(-1), "08 ffffffffffffffff"),
    (const(0), "08 0000000000000000"),
    (const(0x0123456789ABCDEF), "08 efcdab8967452301"),
    ((17,), "cd c9 51 88"),
    ((19, SEVENTH), "57 cf 51 88"),
    ((20, SEVENTH), "57 cc 75 75 51 88 77 77"),
    ((21, SEVENTH), "57 cc 75 75 75 75 51 88"),
    ((22, NINE, FIVE), P9 + P5 + "d7 51 88"),
    ((23, NINE, FIVE), P9 + P5 + "d8 51 88"),
    ((24, NINE, FIVE), P9 + P5 + "d9 51 88"),
    ((25, NINE, FIVE), P9 + P5 + "da 51 88 77"),
    ((26, NINE, FIVE), P9 + P5 + "da 51 88 75"),
    ((27, NINE, FIVE), P9 + P5 + "84"),
    ((28, NINE, FIVE), P9 + P5 + "85"),
    ((29, NINE, FIVE), P9 + P5 + "86"),
    ((30, NINE), P9 + "83"),
    ((31, NINE), P9 + "db 51 88"),
    ((32, KEY, 7), "6e 6b" + TIME + "df 69 7e a8" + PK + "c2 6c"),
    ((22, NINE, (33, KEY, 7)), P9 + "6b 6e 6b" + TIME + "df 69 7e a8" + PK + "c2 6c 6c 7c d7 51 88"),
    # left operands of index Mul and Div that are steps themselves, and what stands after a lookup
    ((18, (5, (5, CURRENT, SEVENTH), (1, 17))), "cd e0 57 e0 d9 51 88 e1 e0 01 11 e0 d9 51 88 e1 c9 51 88"),
    ((18, (5, CURRENT, (5, SEVENTH, (1, 17)))), "cd e0 57 e0 01 11 e0 d9 51 88 e1 e0 d9 51 88 e1 c9 51 88"),
    ((18, (6, (4, CURRENT, SEVENTH), (3, CURRENT, (1, 0)))), "cd 57 94 e0 cd 00 93 e0 da 51 88 77 e1 c9 51 88"),
    ((18, (3, (6, CURRENT, SEVENTH), (5, (1, 0), CURRENT))), "cd e0 57 e0 da 51 88 77 e1 00 e0 cd e0 d9 51 88 e1 93 c9 51 88"),
    ((18, (4, SEVENTH, (6, CURRENT, CURRENT))), "57 cd e0 cd e0 da 51 88 77 e1 94 c9 51 88"),
    ((23, (19, (5, CURRENT, SEVENTH)), (20, (6, SEVENTH, CURRENT))), "cd e0 57 e0 d9 51 88 e1 cf 51 88 57 e0 cd e0 da 51 88 77 e1 cc 75 75 51 88 77 77 d8 51 88"),
]
COMPARISONS = {48: "87", 49: "dc", 50: "dd", 51: "de", 52: "df"}


def roomed(t, given):
    """In room for the script, for a byte more, and in what is always enough, the script is given; in a byte less, or none, it is refused."""
    code, n = code_of(t), len(given)
    for room in (n, n + 1, MAX_SCRIPT, n - 1, 0):
        yield code, room, (7, b"") if room < n else (0, given)


def told():
    """The scripts written out by hand, with each comparison; and index constants: alone, and on either side of each index step."""
    for c, last in COMPARISONS.items():
        for t, text in VALUES:
            yield from roomed((c, t, FIVE), bytes.fromhex(text + P5 + last))
        yield from roomed((c, FIVE, (18, CURRENT)), bytes.fromhex(P5 + "cd c9 51 88" + last))
    for n, push in PUSHES.items():
        assert n <= 16 or pushed(n)[1:] == script_number(n)
        for i, text in used(n, push):
            yield from roomed((48, (18, i), FIVE), bytes.fromhex(text + "c9 51 88" + P5 + "87"))
    for n in TOO_LARGE:
        for i, _ in used(n, ""):
            for room in (MAX_SCRIPT, 0):
                yield code_of((48, (18, i), FIVE)), room, (6, b"")


def used(n, push):
    """A constant, and each index step with it; with the bytes."""
    yield (1, n), push
    for c, text in STEPS.items():
        yield (c, (1, n), CURRENT), text % (push, "cd")
        yield (c, CURRENT, (1, n)), text % ("cd", push)


def longest():
    """Scripts of as many bytes as there can be, 5,120, by where the Invert stands or with a PriceOracle1 instead of it; and of 5,119, without either."""
    c, x, p = const(-2), b"\x86", bytes.fromhex("08 feffffffffffffff")
    left, right = chain(511, 29, lambda: c), right_chain(511, 29, lambda: c)
    oracle = bytes.fromhex("6e 6b" + TIME + "df 69 7e a8" + PK + "c2 6c")
    for t, given, tokens in (
        ((48, left, c), p + (p + x) * 510 + p + b"\x87", 1023),
        ((49, c, right), p + p * 511 + x * 510 + b"\xdc", 1023),
        ((48, (30, left), c), p + (p + x) * 510 + b"\x83" + p + b"\x87", 1024),
        ((52, left, (30, c)), p + (p + x) * 510 + p + b"\x83\xdf", 1024),
        ((50, (30, c), right), p + b"\x83" + p * 511 + x * 510 + b"\xdd", 1024),
        ((48, (29, (32, KEY, 7), chain(506, 29, lambda: c)), c), oracle + p + (p + x) * 505 + x + p + b"\x87", 1024),
    ):
        assert len(given) == MAX_SCRIPT - (MAX_TOKENS - tokens) and len(form(t)) == tokens
        yield from roomed(t, given)


def near(code):
    """The code, with as much room as its script would need, or nearly, or what is always enough."""
    try:
        n = len(script(form(parse(code)))) if len(code) <= MAX_CODE else MAX_SCRIPT
    except Refused:
        n = 30
    return code, max(min(n + rng.choice([0, 0, 0, 0, 1, 7, -1, -n]), MAX_SCRIPT + 1), 0) if rng.random() < 0.7 else MAX_SCRIPT


def deep_index(depth):
    """Steps with constants of any width, now and then one that 6 turns down."""
    if depth == 0 or rng.random() < 0.25:
        return CURRENT if rng.random() < 0.3 else (1, rng.randrange(2 ** rng.randrange(33)) if rng.random() < 0.98 else 2**32 + rng.randrange(2))
    return (rng.choice([3, 4, 5, 5, 6, 6]), deep_index(depth - 1), deep_index(depth - 1))


def cases():
    yield from told()
    yield from longest()
    for size, number in ((MAX_CODE, 3), (MAX_CODE + 1, 1)):
        yield long_code(size), MAX_SCRIPT, (number, b"")
    for t in (*sized(MAX_TOKENS - 1), *sized(MAX_TOKENS)):
        n = len(script(form(t)))
        yield from ((code_of(t), room) for room in (n, n - 1))
    for code in codes():
        yield near(code)
    for _ in range(900):
        yield near(code_of(condition(3)))
    for _ in range(300):  # oracle terminals on every side
        yield near(code_of(condition(3, "oobuc")))
    for _ in range(300):
        look = lambda: inverts(rng.randrange(2), (rng.randrange(18, 22), deep_index(rng.randrange(6))))
        yield near(code_of((rng.randrange(48, 53), look(), (rng.randrange(22, 30), FIVE, look()))))


def instructions(given):
    """The opcodes of a script, each push by its first byte."""
    out, at = [], 0
    while at < len(given):
        out.append(given[at])
        at += 1 + (given[at] if given[at] < 76 else 0)
    assert at == len(given)
    return out


def judged(given, command):
    """Fails where EQUAL stands anywhere but at the end of a script, as the comparison Eq; where VERIFY stands after anything but an oracle's comparison of times; or
    where a byte is no opcode of a form."""
    opcodes = instructions(given)
    assert [i for i, b in enumerate(opcodes) if b == 0x87] == ([len(opcodes) - 1] if command == 48 else [])
    assert all(opcodes[i - 1] == 0xDF for i, b in enumerate(opcodes) if b == 0x69)
    assert set(opcodes) <= {*OPCODES.values(), EQUALVERIFY, 8, 32, *range(6), *range(0x51, 0x61)}
