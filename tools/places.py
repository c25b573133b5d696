#!/usr/bin/env python3
"""places.py [POINT]: the places in crates/*/src that docs/DESIGN-PASS.md counts, point by point: how many lines each pattern finds, and with a point's number the lines themselves."""
import glob
import re
import sys

ENUM = r"^ *(pub )?enum \w+"
LOOP = r"^ *(while|loop)\b"
PATTERNS = {
    "1": [
        ("enums", ENUM),
        ("numbers that stand for none", r"=> (0|ROWS),|return (0|ROWS|count);|^ +(count|ROWS)$|else \{ 0 \}"),
        ("answers that are a flag", r"\) -> bool$"),
        ("numbers for kinds, rows and calls", r"^(pub )?const [A-Z0-9_]+: (u8|usize) = [0-9]+;|call: u8|kind: u8"),
    ],
    "2": [
        ("arrays of one of three sizes", r"= \[(0|false); [A-Z_]+\];"),
        ("functions that differ in a type or a size", r"fn (\w*words|\w*halves|filled\w*|number|word|holds\w*|no_row|opcode|two_opcodes|four_opcodes|verified\w*)\b"),
        ("constants of one value under two names", r"const (HALF|NUM_LIMIT|KEY_BYTES|KEY_AND_TIME_BYTES|NUMBER_BYTES|NUM|BYTES32|BYTES8|LEAST)\b"),
    ],
    "3": [("loops", LOOP)],
    "4": [
        ("conversions and comparisons", r"fn (wide|u8_to_usize|u32_to_usize|shorter|shortest|lowered|is_known|is_price_oracle_1w|signed|bits|among_later|fits?|split|eq|lt|leq|gt|geq|raised|name)\b"),
        ("derives of Clone and Copy alone", r"#\[derive\(Clone, Copy\)\]"),
    ],
    "5": [("functions of six or more parameters", None)],
    "6": [
        ("a number of elements beside an array or slice", r"\b(count|positions|key_count|values|indexes): (usize|&(mut )?\[)"),
        ("fields of a fixed array", r"^ +(pub )?\w+: \[\w+; \w+\],"),
    ],
    "7": [("steps told apart by a number", r"^ *match (call|byte|row|shape|kind)\b")],
}


def functions(text):
    for m in re.finditer(r"\bfn (\w+)(<[^>(]*>)?\(([^{]*?)\)\s*(->|requires|ensures|\{|\n)", text):
        parameters = [p for p in re.split(r",(?![^<\[]*[>\]])", m.group(3)) if p.strip()]
        if len(parameters) >= 6:
            yield text.count("\n", 0, m.start()) + 1, f"fn {m.group(1)}: {len(parameters)} parameters"


def main():
    asked = sys.argv[1:]
    for point, patterns in PATTERNS.items():
        for what, pattern in patterns:
            found = []
            for path in sorted(glob.glob("crates/*/src/**/*.rt", recursive=True)):
                text = open(path).read()
                if pattern is None:
                    lines = functions(text)
                else:
                    lines = ((i, l.strip()) for i, l in enumerate(text.split("\n"), 1) if re.search(pattern, l))
                found += [f"  {path}:{i}: {l}" for i, l in lines]
            print(f"{point}. {what}: {len(found)}")
            if point in asked:
                print("\n".join(found))


if __name__ == "__main__":
    main()
