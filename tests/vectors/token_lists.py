"""Token lists for the cases of Decode, and records of them, good and bad. The same come out every time."""
from conditions import const, rng
from model import BYTES8, BYTES32, NUM, form


def records(tokens):
    """Records of tokens: keys in any order with other bytes between, and anything in the unused fields."""
    kinds, numbers, places, keys = [], [], [], b""
    order = [i for i, t in enumerate(tokens) if t[0] == BYTES32]
    rng.shuffle(order)
    at = {}
    for i in order:
        keys += rng.randbytes(rng.choice([0, 0, 1, 5]))
        at[i] = len(keys)
        keys += tokens[i][1]
    for i, t in enumerate(tokens):
        kinds.append(t[0])
        numbers.append(t[1] if t[0] in (NUM, BYTES8) else rng.choice([0, 0, rng.randrange(2**64)]))
        places.append(at[i] if t[0] == BYTES32 else rng.choice([0, 0, rng.randrange(2**32)]))
    return kinds, numbers, places, keys


def token():
    k = rng.randrange(36)
    return (NUM, rng.choice([1, 1, 0, 2])) if k == NUM else (BYTES8, rng.randrange(9)) if k == BYTES8 else (BYTES32, rng.randbytes(32)) if k == BYTES32 else (k,)


def small(t):
    """The condition, with index constants that have a form."""
    return t if all(k[0] != NUM or k[1] < 2**32 for k in form(t)) else (48, const(5), const(6))


def altered(tokens):
    ts = list(tokens)
    for _ in range(rng.randrange(1, 3)):
        at = rng.randrange(len(ts) + 1)
        r = rng.random()
        if r < 0.4 and at < len(ts):
            ts[at] = token()
        elif r < 0.6:
            del ts[at : at + 1]
        elif r < 0.8:
            ts.insert(at, token())
        else:
            ts = ts[at:] or [token()]
    return ts


def unsound(kinds, numbers, places, keys):
    i = rng.randrange(len(kinds))
    r = rng.randrange(5)
    if r == 0:
        kinds[i] = rng.choice([36, 37, 255])
    elif r == 1:
        kinds[i], numbers[i] = NUM, rng.choice([2**32, 2**64 - 1])
    elif r == 2:
        kinds[i], places[i] = BYTES32, rng.choice([len(keys), 2**32 - 1, max(len(keys) - 31, 0)])
    elif r == 3:
        del numbers[i:]
    else:
        del places[i:]
    return kinds, numbers, places, keys
