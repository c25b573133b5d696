"""An index on the stack of the script, as the opcode document has it: elements are byte strings, and what can't be taken ends the script. For cases that the published Rust can't
decide (R-4): it knows neither negative indexes nor 41."""
from model import ADD, CURR_INP, DIV64, EQUAL, MUL64, NIP, NUM, SUB, TO_LE64, TO_NUM, VERIFY


class Ended(Exception):
    pass


def script_number(n):
    """The shortest: magnitude, lowest byte first, the top bit of the last byte for the sign."""
    if n == 0:
        return b""
    b = abs(n).to_bytes((abs(n).bit_length() + 7) // 8, "little")
    if b[-1] & 128:
        b += b"\0"
    return b[:-1] + bytes([b[-1] | (128 if n < 0 else 0)])


def taken(element):
    """Of at most 4 bytes."""
    if len(element) > 4:
        raise Ended
    if not element:
        return 0
    n = int.from_bytes(element[:-1] + bytes([element[-1] & 127]), "little")
    return -n if element[-1] & 128 else n


def le64(n):
    return n.to_bytes(8, "little", signed=True)


def number(element):
    if len(element) != 8:
        raise Ended
    return int.from_bytes(element, "little", signed=True)


def arithmetic(stack, kind):
    """MUL64 and DIV64: the result and 1, or the operands and 0."""
    a, b = number(stack[-2]), number(stack[-1])
    if kind == MUL64:
        results = [a * b]
    else:
        rest = a % abs(b) if b else 0
        results = [rest, (a - rest) // b] if b else []
    if not results or not -(2**63) <= results[-1] < 2**63:
        stack.append(b"")
        return
    stack[-2:] = [le64(n) for n in results] + [b"\1"]


def step(stack, token, current):
    kind = token[0]
    if kind in (NUM, CURR_INP):
        stack.append(script_number(token[1] if kind == NUM else current))
    elif kind in (ADD, SUB):
        b, a = taken(stack.pop()), taken(stack.pop())
        stack.append(script_number(a + b if kind == ADD else a - b))
    elif kind == TO_LE64:
        stack.append(le64(taken(stack.pop())))
    elif kind == TO_NUM:
        n = script_number(number(stack.pop()))
        taken(n)
        stack.append(n)
    elif kind in (MUL64, DIV64):
        arithmetic(stack, kind)
    elif kind == EQUAL:
        stack.append(b"\1" if stack.pop() == stack.pop() else b"")
    elif kind == VERIFY:
        if stack.pop() != b"\1":
            raise Ended
    else:
        assert kind == NIP, kind
        del stack[-2]


def index(tokens, current):
    """The index that an introspection opcode takes after these tokens, or None where the script has ended: a negative one ends it too."""
    stack = []
    try:
        for t in tokens:
            step(stack, t, current)
        (element,) = stack
        n = taken(element)
    except Ended:
        return None
    return n if n >= 0 else None
