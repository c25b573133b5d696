#!/usr/bin/env python3
"""Spells this repository's own definitions and lemmas as today's Rattle does: words in snake case.

usage: python3 tools/port_names.py      at the top of the repository, once, after the kit's port.py

A name is turned where it is defined in specs/ or proofs/ and begins with a small letter: `exprForm` becomes
`expr_form`, and `value-of-bytes` `value_of_bytes`. A dash stays between two names, as in `drop-take`: both sides
are then definitions of this repository or words of the library. A fact keeps its capital, as in `All-of`.
The names are turned in code, contracts, definitions, proofs, edits and pages.
"""

import glob
import os
import re
import sys

TOKEN = re.compile(r"[^\s(){}\[\];,.:=\"|@\\`&*!?<>/+#]+")
DEFINED = re.compile(
    r"^\s*(?:unfoldable |abbrev |pub |package )*(?:data |record )?(?:pub )?([^\s:(){}=,;.]+)\s*:\s")
MARKED = re.compile(r"^\s*(?:unfoldable|abbrev)\b")
WORDS = set("""length append take drop set map reverse get_or slice paste sum over nil zero one suc add sub mul div mod
pow cons nth fold""".split())
LITTLE = set("a all as at by each few for has if in is last long most no of on one other own past same so some the to two".split())


def snake(name):
    turned = re.sub(r"([a-z0-9κμ])([A-Z])", lambda m: m.group(1) + "_" + m.group(2).lower(), name)
    return re.sub(r"_([a-z])([A-Z])(?=[a-z]|$)", lambda m: "_" + m.group(1) + "_" + m.group(2).lower(), turned)


def plain(name):
    return re.match(r"^[a-zκμ]", name) is not None


def lines(path):
    with open(path, encoding="utf-8") as f:
        return f.read().split("\n")


def files(*patterns):
    return sorted(p for pattern in patterns for p in glob.glob(pattern, recursive=True) if "/out/" not in p)


def defined():
    """The names that specs/ and the files of lemmas define, and which of them are definitions."""
    names, definitions = set(), set()
    for path in files("crates/*/specs/**/*.antt", "crates/*/proofs/**/*.antt"):
        inner = "/proofs/" in path and len(path.split("/")) > 4 and "/walks/" not in path
        for line in lines(path):
            m = DEFINED.match(line)
            if not m or line.strip().startswith("--"):
                continue
            names.add((m.group(1), inner))
            if MARKED.match(line):
                definitions.add(m.group(1))
    return names, definitions


def turned(name, definitions):
    """`name` with a dash only between two names."""
    words = ({snake(d) for d in definitions if "-" not in d} | WORDS) - LITTLE
    parts = snake(name).split("-")
    out, last = parts[0], parts[0]
    for part in parts[1:]:
        joins = last in words and part in words
        out += ("-" if joins else "_") + part
        last = part if joins else last + "_" + part
    return out


def main():
    if not os.path.isdir("crates"):
        sys.exit("port_names: run it at the top of the repository")
    names, definitions = defined()
    spelling, fields = {}, {}
    for name, inner in sorted(names):
        if not plain(name) or not re.search(r"[A-Z-]", name):
            continue
        if inner and not re.search(r"[a-z][A-Z]", name):
            continue  # a goal's name in a function's own proof
        new = turned(name, definitions)
        if new != name:
            spelling[name] = fields[name] = new
    for name in definitions:  # a lemma that would have its definition's name
        for lemma in [n for n in spelling if "-" in n and n not in definitions and spelling[n] == spelling.get(name, name)]:
            spelling[lemma] += "_lem"
    for old, new in sorted(spelling.items()):
        if len([o for o, n in spelling.items() if n == new]) > 1 or any(n == new and n not in spelling for n, _ in names):
            print(f"together: {old} -> {new}")

    def one(match):
        token, before = match.group(0), match.string[: match.start()]
        known = fields if before.endswith(".") else spelling
        stem = token.rstrip("'₀₁₂₃₄₅₆₇₈₉")
        return known.get(token) or (known.get(stem, stem) + token[len(stem):])

    for path in files("crates/*/specs/**/*.antt", "crates/*/proofs/**/*.antt", "crates/*/src/**/*.rt",
                      "crates/*/must-fail/**/*.edit", "README.md", "docs/**/*.md"):
        text = "\n".join(lines(path))
        new = TOKEN.sub(one, text)
        if new != text:
            with open(path, "w", encoding="utf-8") as f:
                f.write(new)
    print(f"port_names: {len(spelling)} names")


if __name__ == "__main__":
    main()
