#!/usr/bin/env python3
"""run.py PROGRAM: feeds codes to the program `listing` and compares every byte that it prints with the sheet of tests/vectors/model.py, or with a sheet written here by
hand: the codes of the vectors, constants and times at their edges, lengths at the bound and beyond it, input that comes a byte at a time or never ends, and input and
output that fail."""
import os
import struct
import subprocess
import sys
from collections import Counter

ROOT = os.path.join(os.path.dirname(os.path.abspath(__file__)), "..", "..")
sys.path.insert(0, os.path.join(ROOT, "tests", "vectors"))
import model
from conditions import EDGES, INDEX_EDGES, TIMES, const

COMMANDS = [c for c in range(256) if model.known(c)]
KEY = bytes(range(1, 33))

# by hand: a code, and its sheet without the blanks at the ends of lines
KNOWN = [
    (bytes([16, 5] + [0] * 7 + [16] + [255] * 8 + [48]), ["    0 16                    5", "    9 16                   -1", "   18 48"]),
    (bytes([17, 32]) + KEY + b"\xff" * 8 + b"\x31", ["                            5"]),
    (bytes([32]) + KEY + b"\xff" * 8 + bytes([17, 48]), ["    0 32 18446744073709551615", "   41 17", "   42 48"]),
    (bytes([16] + [0] * 7 + [128, 1, 7] + [0] * 7 + [19, 52]), ["    0 16 -9223372036854775808", "    9  1                    7", "   18 19", "   19 52"]),
    (b"", ["                            2"]),
    # docs/OPERATORS.md
    (
        bytes([32]) + KEY + (1700000000).to_bytes(8, "little") + bytes([2, 1, 1] + [0] * 7 + [4, 18, 24, 16, 251] + [255] * 7 + [52]),
        ["    0 32           1700000000", "   41  2", "   42  1                    1", "   51  4", "   52 18", "   53 24", "   54 16                   -5", "   63 52"],
    ),
]


def vector_codes():
    """The codes of Check, Evaluate and Write: the first part of a case (tests/vectors/generate.py)."""
    data, at, codes = open(os.path.join(ROOT, "crates", "vectors", "data", "cases"), "rb").read(), 0, set()
    while at < len(data):
        (size,) = struct.unpack_from("<I", data, at)
        body, at = data[at + 4 : at + 4 + size], at + 4 + size
        if body[0] in (1, 2, 3):
            codes.add(body[2 + 4 * body[1] : struct.unpack_from("<I", body, 2)[0]])
    return sorted(codes)


def edge_codes():
    """Constants, index constants and times at their edges."""
    for n in EDGES:
        yield model.code_of((48, const(n), const(5)))
    for n in INDEX_EDGES:
        yield model.code_of((49, (18, (1, n)), const(0)))
    for t in TIMES:
        yield model.code_of((50, (32, KEY, t), (33, KEY[::-1], t)))


def long_codes():
    """At the bound and beyond it: of tokens (one constant and then Invert, or BitAnd with others), and of bytes."""
    for n in (1, 99, 100, 1000, 1020, 1021, 1022):
        yield model.code_of((16, 5)) + bytes([30]) * n + model.code_of((16, 5)) + b"\x30"
    for n in (509, 510, 511):
        yield model.code_of(const(-1)) + (model.code_of(const(-n)) + b"\x1b") * n + model.code_of(const(5)) + b"\x34"
    for n in (model.MAX_CODE - 1, model.MAX_CODE, model.MAX_CODE + 1, model.MAX_CODE + 2, 20000, 100000):
        yield b"\x02" * n
        yield (bytes([16] + [0] * 8) * n)[:n]


def fails(program, what, **streams):
    """Nothing on standard output, and one line on standard error that says what failed."""
    got = subprocess.run([program], timeout=60, **{"stdin": subprocess.DEVNULL, "stdout": subprocess.PIPE, "stderr": subprocess.PIPE, **streams})
    assert not got.stdout and got.stderr.startswith(what) and got.stderr.count(b"\n") == 1 and got.stderr.endswith(b"\n"), (what, got)


def slowly(program, code):
    """A pipe that is fed a byte at a time."""
    p = subprocess.Popen([program], stdin=subprocess.PIPE, stdout=subprocess.PIPE)
    for b in code:
        p.stdin.write(bytes([b]))
        p.stdin.flush()
    p.stdin.close()
    got = p.stdout.read()
    p.wait()
    return got


def main():
    if len(sys.argv) != 2:
        sys.exit("run.py PROGRAM: the program listing")
    sys.setrecursionlimit(60000)
    program = os.path.abspath(sys.argv[1])
    commands, refusals, sheets = Counter(), Counter(), 0
    codes = vector_codes() + list(edge_codes()) + list(long_codes())
    for code in codes + [c + b"\n" for c in edge_codes()]:
        got, right = subprocess.run([program], input=code, capture_output=True), model.sheet(code)
        assert got.stdout == right and not got.stderr, (code, got, right)
        sheets += 1
        number = model.check(code)[0]
        refusals[number] += 1
        if number == 0:
            commands.update(int(line[6:8]) for line in right.decode().splitlines())
    assert sorted(commands) == COMMANDS and min(commands.values()) >= 10, commands
    assert all(refusals[n] >= 10 for n in range(6)), refusals
    for code, lines in KNOWN:
        right = "".join(line.ljust(29) + "\n" for line in lines).encode()
        assert model.sheet(code) == right, (code, lines)
        assert slowly(program, code) == right, (code, lines)
    with open("/dev/zero", "rb") as endless:
        got = subprocess.run([program], stdin=endless, capture_output=True, timeout=60)
        assert got.stdout == b"1\n".rjust(30) and not got.stderr, got
    fails(program, b"standard input: ", preexec_fn=lambda: os.close(0))
    with open(os.devnull) as nothing:
        folder = os.open("/", os.O_RDONLY)
        fails(program, b"standard input: ", stdin=folder)
        os.close(folder)
        fails(program, b"standard output: ", stdin=nothing, preexec_fn=lambda: os.close(1))
        with open("/dev/full", "wb") as full:
            fails(program, b"standard output: ", stdin=nothing, stdout=full)
    print("listing: %d sheets agree with the model, refusals %s; input that never ends, and input and output that fail" % (
        sheets, ", ".join("%d: %d" % (n, refusals[n]) for n in range(1, 6))))


if __name__ == "__main__":
    main()
