#!/usr/bin/env python3
"""run.py: measures the archive and writes docs/MEMORY.md; and, where RUST_SOURCE names the folder of the published source, the Rust beside it, and writes docs/SPEED.md.
Needs gcc and an archive in target/staticlib; for the speed also valgrind and rustc. Every figure that it writes is of the run, but for the sizes that the header names,
the bounds of the unit and the limits of a call."""
import concurrent.futures
import os
import re
import subprocess
import sys
import textwrap

ROOT = os.path.dirname(os.path.dirname(os.path.abspath(__file__)))
OUT = os.path.join(ROOT, "target", "bench")
LIB = os.path.join(ROOT, "target", "staticlib", "libcovenant.a")
SHAPES, REFUSED = os.path.join(OUT, "shapes"), os.path.join(OUT, "refused")
CASES = os.path.join(ROOT, "crates", "vectors", "data", "cases")
UNIT_BYTES, UNIT_MS = 512 << 10, 200
SLOTS = 256  # of a list of amounts, for the table of memory
LONGER = 4096  # tokens of a condition that the tables of memory look ahead to, with as many code bytes and oracle terminals in proportion
LIMITS = 96 << 10, 300 << 10  # of a call, all in, at today's bound of tokens and at the longer one
# bytes of the calls' own arrays for each token: operands of 8 and 8; marks of 2 and 1; a row of 1; the fields of a record, 1, 8 and 4
ARRAYS = {"Check": 0, "Evaluate": 16, "Write": 3, "Decode": 1, "Script": 3, "Write, records": 16, "Decode, records": 14}
CALLS = ["Check", "Evaluate", "Write", "Decode", "Script"]
SIZES = [12, 100, 256, 512, 1024]
GOALS = {12: 1.5, 100: 1.0, 1024: 1.0}  # ratios to the Rust, by the size asked for
WIDTH = 120  # columns of the documents
STACKS = CALLS + ["Write, records", "Decode, records"]
OURS = ["covenant_check", "covenant_evaluate", "covenant_write", "covenant_decode", "covenant_write_script"]
THEIRS = ["bench_new", "bench_eval", "bench_write", "bench_decode", "bench_write"]


def run(*words, **more):
    return subprocess.run(words, check=True, capture_output=True, text=True, **more).stdout


def build():
    os.makedirs(OUT, exist_ok=True)
    for path, words in ((SHAPES, []), (REFUSED, ["refused"])):
        with open(path, "w") as f:
            f.write(run(sys.executable, os.path.join(ROOT, "bench", "shapes.py"), *words))
    own = os.path.join(OUT, "memory.o")
    run("gcc", "-O3", "-fno-builtin", "-fno-tree-loop-distribute-patterns", "-c", os.path.join(ROOT, "bench", "memory.c"), "-o", own)
    for folder, program in (("bench", "calls"), ("bench", "cases"), (os.path.join("tests", "boundary"), "frames")):
        sources = [os.path.join(ROOT, f) for f in (os.path.join(folder, program + ".c"), os.path.join("bench", "stack.c"))]
        places = ["-I" + os.path.join(ROOT, *d) for d in (("include",), ("bench",), ("tests", "vectors"))]
        run("gcc", "-O2", "-Wall", *places, *sources, own, LIB, "-o", os.path.join(OUT, program))


def header(name):
    """A size that include/covenant.h names."""
    with open(os.path.join(ROOT, "include", "covenant.h")) as f:
        return int(re.search(r"#define %s (\d+)" % name, f.read()).group(1))


def instructions(function, *program):
    """Of one call, counted by callgrind over ten; of ours but Check over eleven, since bench/calls.c makes each of those once before, to lend what it gives."""
    out = os.path.join(OUT, "-".join([function] + [os.path.basename(w) for w in program]))
    run("valgrind", "--tool=callgrind", "--toggle-collect=" + function, "--callgrind-out-file=" + out, *program)
    with open(out) as f:
        n = [int(m.group(1)) for m in re.finditer(r"^(?:summary|totals): (\d+)", f.read(), re.M)][-1]
    os.remove(out)
    return n / (11 if function in OURS[1:] else 10)


def own():
    """{(shape, size): (tokens, stack of each call, ns of the first five)}"""
    rows = {}
    for n, l in enumerate(run(os.path.join(OUT, "calls"), SHAPES).splitlines()):
        shape, tokens, *figures = l.split()
        rows[shape.replace("_", " "), SIZES[n % 5]] = (int(tokens), [int(f) for f in figures[: len(STACKS)]], [int(f) for f in figures[len(STACKS) :]])
    return rows


def turned_down():
    """{(shape, tokens): (stack of Decode, of Decode over records, ns of Decode)} of token lists that Decode refuses"""
    rows = {}
    for l in run(os.path.join(OUT, "calls"), "refused", REFUSED).splitlines():
        shape, tokens, *figures = l.split()
        rows[shape.replace("_", " "), int(tokens)] = tuple(map(int, figures))
    return rows


def commands():
    """The commands of each line's condition, with their operands."""
    lines = []
    for l in open(SHAPES):
        code, at, found = bytes.fromhex(l.split()[2]), 0, []
        while at < len(code):
            end = at + {1: 9, 16: 9, 32: 41, 33: 41}.get(code[at], 1)
            found.append(code[at:end])
            at = end
        lines.append(found)
    return lines


def both(rows):
    """{(shape, size): (tokens, ns of ours, of theirs, instructions of ours, of theirs, commands, keys of the oracle terminals)}"""
    run(os.path.join(ROOT, "tests", "compare", "build.sh"), os.path.join(ROOT, "target", "compare"))
    ours, theirs = os.path.join(OUT, "calls"), os.path.join(ROOT, "target", "compare", "bench")
    times = [[int(f) for f in l.split()[2:]] for l in run(theirs, SHAPES).splitlines()]
    with concurrent.futures.ThreadPoolExecutor(os.cpu_count()) as pool:
        a = [[pool.submit(instructions, OURS[c], ours, SHAPES, str(n), str(c)) for c in range(len(CALLS))] for n in range(len(times))]
        b = [[pool.submit(instructions, THEIRS[c], theirs, SHAPES, str(n), str(c)) for c in range(len(CALLS))] for n in range(len(times))]
    result = lambda jobs: [j.result() for j in jobs]
    keys = lambda m: [c[1:33] for c in m if c[0] in (32, 33)]
    return {k: (rows[k][0], rows[k][2], times[n], result(a[n]), result(b[n]), len(m), keys(m)) for n, (k, m) in enumerate(zip(rows, commands()))}


def slots():
    """The instructions of Evaluate that one slot of a list adds, and one witness element, where the condition looks at none."""
    taken = lambda slots, elements: instructions("covenant_evaluate", os.path.join(OUT, "calls"), "slots", str(slots), str(elements))
    none = taken(0, 0)
    return (taken(1000, 0) - none) / 4000, (taken(0, 1000) - none) / 1000


def shapes(rows):
    return list(dict.fromkeys(s for s, _ in rows))


def paragraph(text):
    return textwrap.wrap(text, WIDTH) + [""]


def lent(code, tokens, oracles, script):
    """For each call what the caller provides for the largest condition."""
    keys = ("%d keys" % oracles, oracles * 32)
    slices, structs = ("%d records in three slices" % tokens, tokens * 13), ("%d records" % tokens, tokens * 24)
    return {
        "Check": [("code", code)],
        "Evaluate": [("code", code), ("checks of %d oracle terminals" % oracles, 112 * oracles), ("their witness and its ends", (80 + 12) * oracles),
                     ("four lists of %d slots" % SLOTS, 4 * SLOTS * 9)],
        "Write": [("code", code), slices, keys],
        "Decode": [slices, keys, ("code", code)],
        "Script": [("code", code), ("script", script)],
        "Write, records": [("code", code), structs, keys],
        "Decode, records": [structs, keys, ("code", code)],
    }


def memory(rows, refused, cases, readers):
    sections = {}
    for l in run("size", "-A", LIB).splitlines():
        m = re.match(r"\.(text|rodata|data|bss)\S*\s+(\d+)", l)
        if m:
            sections[m.group(1)] = sections.get(m.group(1), 0) + int(m.group(2))
    text, rodata = sections.get("text", 0), sections.get("rodata", 0)
    worst = [max([cases[c]] + [r[1][c] for r in rows.values()]) for c in range(len(STACKS))]
    for k, name in enumerate(["Decode", "Decode, records"]):
        c = STACKS.index(name)
        worst[c] = max([worst[c]] + [r[k] for r in refused.values()])
    code, tokens, oracles, script = [header("COVENANT_MAX_" + name) for name in ("CODE", "TOKENS", "ORACLES", "SCRIPT")]
    frame = max(readers[0] / 4, readers[1] / 6)  # an operation on values has four tokens at least, one on indexes six
    scale = LONGER // tokens
    more = {c: (LONGER - tokens) * (ARRAYS[c] + (frame if c.startswith("Decode") else 0)) for c in STACKS}
    now, then = lent(code, tokens, oracles, script), lent(scale * code, LONGER, (LONGER - 12) // 14 + 1, scale * script)
    out = ["# Memory", "", "Measured by `make bench` on x86-64. The unit has %d KiB for everything. Figures are bytes." % (UNIT_BYTES >> 10), ""]
    out += ["The archive has %d bytes of code and %d of constants, and no data of its own: nothing is allocated or kept between calls." % (text, rodata), ""]
    out += ["## Each call at its worst", ""]
    out += paragraph("Stack is the high-water mark of a painted stack over the conditions and the token lists below, and over every case of crates/vectors, refused or not. Only Decode "
                     "has functions that call themselves: its readers, at most once for each four tokens and once more. The token lists of the last table take them as deep as that. The proofs "
                     "say nothing about the stack: who calls must have what stands here.")
    out += paragraph("Lent is what the caller provides for the largest condition. Amounts: %d slots a list are assumed, and a transaction with more asks for more. Keys: Write asks for 32 bytes "
                     "for each different key, at most %d; Decode takes as many key bytes as the caller has. All is stack, lent and archive." % (SLOTS, oracles))
    out += paragraph("The columns for %d tokens are computed: what is lent for a bound of %d tokens and %d code bytes, and the stack at %d tokens with the growth of the calls' own arrays "
                     "(%s bytes a token) and of the readers' frames (%d bytes for each four tokens; the gate fails where a frame grows)."
                     % (LONGER, LONGER, scale * code, tokens, ", ".join("%s %d" % p for p in ARRAYS.items() if p[1]), 4 * frame))
    out += ["| call | stack | lent | all | of %d KiB | stack at %d | lent | all | of %d KiB |" % (UNIT_BYTES >> 10, LONGER, UNIT_BYTES >> 10), "|---" * 9 + "|"]
    largest = [0, 0]
    for c, name in enumerate(STACKS):
        cells = [name]
        for which, (stack, parts) in enumerate(((worst[c], now[name]), (worst[c] + more[name], then[name]))):
            n = sum(k for _, k in parts)
            total = stack + n + text + rodata
            largest[which] = max(largest[which], total)
            cells += ["%d" % stack, "%d" % n, "%d" % total, "%.0f%%" % (100 * total / UNIT_BYTES)]
        out.append("| %s |" % " | ".join(cells))
    out += [""] + paragraph("No call may take more than %d KiB at %d tokens, nor more than %d KiB at %d: the largest takes %d and %d bytes."
                            % (LIMITS[0] >> 10, tokens, LIMITS[1] >> 10, LONGER, largest[0], largest[1]))
    if any(a > b for a, b in zip(largest, LIMITS)):
        sys.exit("a call takes more memory than its limit: %s of %s" % (largest, LIMITS))
    out += ["What is lent:", ""]
    out += ["- %s: %s; at %d tokens %s." % (c, ", ".join("%s %d" % p for p in now[c]), LONGER, ", ".join("%s %d" % p for p in then[c])) for c in STACKS]
    out += ["", "## Stack by condition", "", "| condition | tokens | " + " | ".join(STACKS) + " |", "|---" * (2 + len(STACKS)) + "|"]
    for s in shapes(rows):
        for size in (256, 512, 1024):
            tokens, stack = rows[s, size][:2]
            out.append("| %s | %d | %s |" % (s, tokens, " | ".join(map(str, stack))))
    out += ["", "## Stack of Decode on token lists that it refuses", ""]
    out += paragraph("Each list is an operation, repeated and without an operand, before Equal or, for an index step, before InpValue, Num 1, Equal, Verify, Equal. The "
                     "answer is 11. The first token is of the kind, among all 36, that takes most.")
    out += ["| repeated | tokens | Decode | Decode, records |", "|---|---|---|---|"]
    out += ["| %s | %d | %d | %d |" % (s, n, *r[:2]) for (s, n), r in refused.items()]
    write("MEMORY.md", out)


# Why ours takes more where it does.
WHY = {
    "Check": "`Arith::new` judges the oracle rule of a tree that is there, and does not go into index expressions; ours reads every command with its operands, judges its need, and counts tokens.",
    "Evaluate": "the Rust goes over a tree that was built and judged before; ours is given bytes that may be anything, so that each call has a Check in it, and judges "
                "every lent slot and end. Its operand stacks are of 8, 64 or 1,024 numbers, by the most that ever waits, and have to be cleared: the longest, where an expression nested to the "
                "right keeps 64 or more operands waiting, weighs most.",
    "Write": "it has a Check in it; where there are lookups, a pass that marks left operands of index Mul and Div; where there are oracle terminals, one that finds the different keys; then the "
             "pass that writes records of three fields and the keys. The Rust writes bytes.",
    "Decode": "a refusal must not write, so that a form is gone over four times: when the row before each place is noted, by the readers, by the judge of the oracle rule, and when its code is written.",
    "Script": "it has a Check in it; where there are lookups, a pass that marks left operands of index Mul and Div; then one pass that writes the bytes. A command that is one opcode is written "
              "at once; the bytes of another are put into a row first, and its arrays for 1,024 tokens are cleared on every call.",
}


def span(figures, form):
    low, high = form % min(figures), form % max(figures)
    return low if low == high else "%s to %s" % (low, high)


def above(rows):
    """For each call the conditions with a ratio above 1, and why there are such."""
    whole = [rows[s, 1024] for s in shapes(rows)]
    taken = {
        "Check": "It takes %s instructions a command." % span([r[3][0] / r[5] for r in whole], "%.0f"),
        "Evaluate": "Check is %s of the instructions; the rest takes %s a command." % (
            span([100 * r[3][0] / r[3][1] for r in whole], "%.0f%%"), span([(r[3][1] - r[3][0]) / r[5] for r in whole], "%.0f")),
        "Write": "What is not Check takes %s instructions a command." % span([(r[3][2] - r[3][0]) / r[5] for r in whole], "%.0f"),
        "Decode": "It takes %s instructions a token." % span([r[3][3] / r[0] for r in whole], "%.0f"),
        "Script": "What is not Check takes %s instructions a command." % span([(r[3][4] - r[3][0]) / r[5] for r in whole], "%.0f"),
    }
    out = ["## What is above 1.00, and why", "", "Instructions a command or token are those of the conditions of about 1,024 tokens.", ""]
    for c, name in enumerate(CALLS):
        over = {}
        for (s, _), r in rows.items():
            if r[3][c] / r[4][c] > 1.005:
                over.setdefault(s, []).append(r[3][c] / r[4][c])
        told = "; ".join("%s %s" % (s, span(ratios, "%.2f")) for s, ratios in over.items()) or "nothing"
        out += textwrap.wrap("- %s: %s %s Above 1.00: %s." % (name, WHY[name], taken[name], told), WIDTH, subsequent_indent="  ")
    return out + [""]


def goals(rows):
    """The conditions beyond what SPEED aims at: the Rust does nothing for index expressions in `Arith::new`, so that Check has no goal there."""
    out = ["## Goals", ""]
    out += paragraph("A ratio of at most 1.00 at about 100 and 1,024 tokens, and of at most 1.5 at about 10; but for Check of the index shapes, where the Rust does nothing. Beyond that, with the reasons "
                     "above:")
    for c, name in enumerate(CALLS):
        beyond = {}
        for (s, size), r in rows.items():
            if size in GOALS and not (name == "Check" and s.split()[0] in ("index", "mul")) and r[3][c] / r[4][c] > GOALS[size] + 0.005:
                beyond.setdefault(s, []).append("%.2f at %d" % (r[3][c] / r[4][c], r[0]))
        told = "; ".join("%s %s" % (s, ", ".join(ratios)) for s, ratios in beyond.items()) or "nothing"
        out += textwrap.wrap("- %s: %s." % (name, told), WIDTH, subsequent_indent="  ")
    return out + [""]


def searched(keys):
    """How often Write compares two keys: to find the different ones, and to place the records."""
    known, found, placed = [], 0, 0
    for k in keys:
        found += known.index(k) + 1 if k in known else len(known)
        if k not in known:
            known.append(k)
        placed += known.index(k) + 1
    return found, placed


def terminals(tokens):
    """The most oracle terminals of so many tokens: the first takes 10, each further one 14, a constant and the comparison two."""
    return 1 + (tokens - 12) // 14


def search(rows):
    """The section on equal keys."""
    one, many = rows["oracle", 1024], rows["oracle keys", 1024]
    out = ["## The search for equal keys", ""]
    out += paragraph("Write stores equal keys once, so that it looks for the key of each oracle terminal among the different ones before it, and again to place the record. This search is all that "
                     "grows faster than tokens or commands. For n terminals it compares two keys n(n - 1)/2 times and n(n + 1)/2 times where all keys differ, n^2 in all, and n - 1 times and n "
                     "times where all are equal. With a bound of %d tokens there could be %d terminals, and %d comparisons. The keys of `oracle keys` differ in their last two bytes alone."
                     % (LONGER, terminals(LONGER), terminals(LONGER) ** 2))
    out += ["| condition | oracle terminals | different keys | comparisons to find them | to place the records | instructions of Write |", "|---|---|---|---|---|---|"]
    for s, r in (("oracle", one), ("oracle keys", many)):
        out.append("| %s | %d | %d | %d | %d | %.0f |" % (s, len(r[6]), len(set(r[6])), *searched(r[6]), r[3][2]))
    comparisons, more = sum(searched(many[6])) - sum(searched(one[6])), many[3][2] - one[3][2]
    return out + [""] + paragraph("The second takes %.0f instructions more: %.1f for each of its %d further comparisons, the copying of %d further keys included." % (
        more, more / comparisons, comparisons, len(set(many[6])) - len(set(one[6]))))


def speed(rows, refused, lent):
    out = ["# Speed", ""]
    out += paragraph("Measured by `make bench`, both sides in one run: the archive, and the published Rust over the stand-ins of tests/compare, compiled with -O. Instructions are those of "
                     "one call, counted by callgrind, memset and memcpy (bench/memory.c) included; a ratio is ours to the Rust's. The Rust's calls are `Arith::new`, `eval`, "
                     "`push_to_builder`, `from_tokens` and, for Script, `push_to_builder` again, of a tree that is already built or to be built on the heap; ours take condition "
                     "code or token records as they are lent, and check them on every call.")
    out += above(rows) + goals(rows)
    for c, name in enumerate(CALLS):
        out += ["## " + name, "", "| condition | tokens | commands | ours | Rust | ratio | ns ours | ns Rust |", "|---|---|---|---|---|---|---|---|"]
        for s in shapes(rows):
            for size in SIZES:
                tokens, mine, ns, a, b, commands = rows[s, size][:6]
                out.append("| %s | %d | %d | %.0f | %.0f | %.2f | %d | %d |" % (s, tokens, commands, a[c], b[c], a[c] / b[c], mine[c], ns[c]))
        out.append("")
    out += ["## The same job on both sides", ""]
    out += paragraph("From what is kept of a condition to a verdict. The Rust keeps tokens: `from_tokens`, which makes the tree and judges it by `Arith::new`, and `eval`. Ours keeps condition "
                     "code: Evaluate. Where ours is given token records as well: Decode, and Evaluate of the code.")
    out += ["| condition | tokens | Rust | ours, from code | ratio | ours, from records | ratio |", "|---|---|---|---|---|---|---|"]
    for s in shapes(rows):
        for size in (12, 100, 1024):
            tokens, _, _, a, b = rows[s, size][:5]
            theirs, code, records = b[3] + b[1], a[1], a[3] + a[1]
            out.append("| %s | %d | %.0f | %.0f | %.2f | %.0f | %.2f |" % (s, tokens, theirs, code, code / theirs, records, records / theirs))
    out += ["", "## Growth", "", "Instructions a token at 1,024 tokens over those at 256: 1.00 is linear.", "", "| condition | " + " | ".join(CALLS) + " |", "|---" * (1 + len(CALLS)) + "|"]
    for s in shapes(rows):
        small, large = rows[s, 256], rows[s, 1024]
        out.append("| %s | %s |" % (s, " | ".join("%.2f" % (large[3][c] / large[0] / (small[3][c] / small[0])) for c in range(len(CALLS)))))
    out += [""] + search(rows)
    out += ["## Against %d ms" % UNIT_MS, ""]
    out += paragraph("A call of the unit may take %d ms. The slowest that was measured of each call, at one instruction a nanosecond; Decode also on the token lists that docs/MEMORY.md "
                     "names." % UNIT_MS)
    out += ["| call | given | instructions | ms |", "|---|---|---|---|"]
    for c, name in enumerate(CALLS):
        given = {"%s, %d tokens" % (s, r[0]): r[3][c] for (s, _), r in rows.items()}
        if name == "Decode":
            given.update({"%s (refused), %d tokens" % k: n for k, n in refused.items()})
        most = max(given, key=given.get)
        out.append("| %s | %s | %.0f | %.2f |" % (name, most, given[most], given[most] / 1e6))
    slot, end = lent
    out += [""] + paragraph("Evaluate also judges every slot of the four lists and every end of the witness that is lent, looked up or not: %.1f instructions a slot of one list, %.1f an "
                            "end. At one instruction a nanosecond %.0f million slots, or %.0f million ends, fit into %d ms; %d slots of 9 bytes fill the unit's memory." % (
                                slot, end, UNIT_MS / slot, UNIT_MS / end, UNIT_MS, UNIT_BYTES // 9))
    write("SPEED.md", out)


def write(name, lines):
    with open(os.path.join(ROOT, "docs", name), "w") as f:
        f.write("\n".join(lines).rstrip() + "\n")


if __name__ == "__main__":
    build()
    rows, refused = own(), turned_down()
    readers = [int(n) for n in re.findall(r", (\d+) bytes", run(os.path.join(OUT, "frames")))]
    memory(rows, refused, [int(n) for n in run(os.path.join(OUT, "cases"), CASES).split()], readers)
    if os.environ.get("RUST_SOURCE"):
        counted = {k: instructions("covenant_decode", os.path.join(OUT, "calls"), "refused", REFUSED, str(n)) for n, k in enumerate(refused)}
        speed(both(rows), counted, slots())
    else:
        print("RUST_SOURCE is not set, so the published Rust was not measured and docs/SPEED.md stays as it is")
