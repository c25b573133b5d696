#!/usr/bin/env python3
"""must_fail.py: writes the last table of docs/MUST_FAIL.md, out of the edits (crates/*/must-fail and crates/*/must-fail-more) and of what rt said of them (target/ci.log, which
`make test` leaves, and target/more.log, which `make edits` leaves): for each edit what it shuts out (its line 'shuts out: ..'), the files that it changes, where it is met, and the
prover's first refusal. Fails where an edit has no such line or was not refused, where the tables above name an edit that is not there, and where they have fewer than two edits of a
function's code. Prints the edits that are met at a need, to be looked at: there the proof may no longer fit while what it proves still holds."""
import glob
import json
import os
import re
import subprocess
import sys

ROOT = os.path.dirname(os.path.dirname(os.path.abspath(__file__)))
PAGE = os.path.join(ROOT, "docs", "MUST_FAIL.md")
HEAD = "| edit | shuts out | changes | met at | first error |\n|---|---|---|---|---|\n"

# What the prover says, in short.
KINDS = [
    (r"`omega`: ", "omega: the goal does not follow"),
    (r"`search`: no proof", "search: no proof"),
    (r"`(rw|simp)`: no ", r"\1: nothing to rewrite"),
    (r"give a proof of that as the last argument, `(rw|simp) ", r"\1: the two ends differ"),
    (r"the two (types|values|sides) (first )?differ", r"the two \1 differ"),
    (r"computed as far as they go, the two (types|sides) are", r"the two \1 differ"),
    (r"^`(‹out of reach |Rattle\.|borrow\.)", "the two sides differ"),
    (r"list the missing equation", "cc: the equations do not give it"),
    (r"expected type `", "another type is expected"),
]


def needs_in_order(crate, function):
    """What a function's proof is asked for, in the order in which `tie.spec` takes it: rt writes it out."""
    names = os.path.join(ROOT, "target", "names", crate)
    if not os.path.exists(names):
        where = os.path.join(ROOT, "crates", crate)
        subprocess.run(["rt", "check", "--generated", names, "--old-names"], cwd=where, check=True, stdout=subprocess.DEVNULL, stderr=subprocess.DEVNULL)
    told = json.load(open(os.path.join(names, "names.json")))
    own = "Rattle-%s-proofs.%s.Lts" % (crate, function.replace("/", "."))
    return [new for _, new in told.get(own, told.get(own + "-" + function.split("+")[-1], {"needs": []}))["needs"]]


def argument(text, at):
    """Which argument of `tie.spec` stands at an offset, those that are no need (invariants and measures) left out."""
    spec = re.search(r"\b(tie|lts)\.spec", text)
    # a reader's takes what it may call and what it promises before the rest
    k, depth, i = -1 if spec[1] == "tie" else -4, 0, spec.end()
    while i <= at:
        if depth == 0 and not text[i].isspace() and text[i] != ")":
            word = re.match(r"[^\s()]+", text[i:])
            k += 0 if word and re.match(r"Inv|μ|invariant-|decreases-", word[0]) else 1
            if word:
                i += len(word[0])
                continue
        depth += {"(": 1, ")": -1}.get(text[i], 0)
        i += 1
    return k


def met_as(goal):
    """What a goal is for, by its name."""
    return "returns" if goal.startswith("returns") else "loop" if re.match(r"loop.*-(init|preserved|smaller)", goal) else "need " + goal


def met_at(crate, place, line, column, step):
    """Whether the step is a function's promise where it returns, a loop's invariant, another need of its proof, a lemma in it, or a law."""
    function = re.search(r"^proofs/(.*)/(Proof|Answers|Invariants)\.antt$", place)
    if not function:
        return "law"
    lines = open(os.path.join(ROOT, "crates", crate, place)).read().splitlines(keepends=True)
    text = "".join(lines)
    if function[2] != "Proof":
        return met_as(step) if re.search(r"^pub %s : goal\." % re.escape(step), text, re.M) else "lemma"
    declared = re.search(r"^%s : .*?\b(?:tie|lts)\.Need-(\S+)" % re.escape(step), text, re.M)
    need = declared[1] if declared else ""
    if step.endswith("_spec"):
        needs = needs_in_order(crate, function[1])
        k = argument(text, len("".join(lines[: line - 1])) + column - 1)
        need = needs[k] if 0 <= k < len(needs) else "?"
    return met_as(need) if need else "lemma"


def first_error(said, crate, name):
    """Where the first refusal is met, and where it stands in the crate, at which step, and of what kind it is."""
    m = re.match(r"(?:\./)?(\S+?):(\d+):(\d+): error: `([^`]+)`: (.*)", said)
    if m:
        kind = next((re.search(p, m[5]).expand(k) for p, k in KINDS if re.search(p, m[5])), m[5][:60].strip())
        return met_at(crate, m[1], int(m[2]), int(m[3]), m[4]), "%s:%s, `%s`: %s" % (m[1], m[2], m[4], kind)
    m = re.match(r"note: (\S+?):\d+:\d+: it is not proved that (.*?) \(`([^`]+)`\)", said)
    if m:
        return met_as(m[3]), "%s: not proved: %s (`%s`)" % (m[1], m[2], m[3])
    sys.exit("%s/%s: no refusal: %s" % (crate, name, said[:200]))


def code_edits(above, files):
    """Fails where a function of the second table has fewer than two edits of its code."""
    for row in re.findall(r"^\| `(\w+)(\S*)` \| (.*) \|$", above, re.M):
        crate = row[0] if row[1].startswith("::") else "covenant"
        names = [n if "/" in n else crate + "/" + n for n in re.findall(r"[\w/]+", row[2])]
        if sum(any(f.startswith("src/") for f in files.get(n, [])) for n in names) < 2:
            sys.exit("%s%s: fewer than two edits of its code" % row[:2])


def refusals():
    """What rt said of each edit that was refused, by crate and name."""
    found = {}
    for log in ("ci.log", "more.log"):
        for line in open(os.path.join(ROOT, "target", log), errors="replace"):
            m = re.match(r"rt: must-fail (\w+)/([\w.-]+)\.edit: refused, as it must be(?: \(.*?\))?: (.*)", line)
            if m:
                found[m[1], m[2]] = m[3].strip()
    return found


def edits():
    """The edits in the order of crates.txt: crate, name, whether the gate leaves it out, what it shuts out, the files, what rt said."""
    said = refusals()
    for line in open(os.path.join(ROOT, "crates.txt")):
        crate = re.match(r"\w*", line)[0]
        found = glob.glob(os.path.join(ROOT, "crates", crate, "must-fail*", "*.edit"))
        for path in sorted(found, key=os.path.basename):
            name, more = os.path.basename(path)[: -len(".edit")], os.path.basename(os.path.dirname(path)) == "must-fail-more"
            text = open(path).read()
            told, changed = re.search(r"^shuts out: (.*)$", text, re.M), re.findall(r"^file: (.*)$", text, re.M)
            if not told or (crate, name) not in said:
                sys.exit("%s/%s: no line 'shuts out', or not refused: run make test and make edits" % (crate, name))
            yield crate, name, more, told[1], changed, said[crate, name]


def main():
    page = open(PAGE).read()
    above = page[: page.index("| edit | shuts out |")]
    rows, files, at_needs = [], {}, []
    for crate, name, more, shuts_out, changed, said in edits():
        files[crate + "/" + name] = changed
        met, error = first_error(said, crate, name)
        if met.startswith("need"):
            at_needs.append("%s/%s (%s)" % (crate, name, met))
        rows.append("| %s/%s%s | %s | %s | %s | %s |" % (crate, name, " +" if more else "", shuts_out, ", ".join(changed), met, error))
    known = set(files) | {f.split("/")[1] for f in files}
    named = {w for row in re.findall(r"^\| .* \| (.*) \|$", above, re.M) for w in re.findall(r"\b[a-z0-9_]+/[a-z0-9_]+\b|\b[a-z0-9]+(?:_[a-z0-9]+)+\b", row)}
    missing = sorted(w for w in named if w not in known)
    if missing:
        sys.exit("named in docs/MUST_FAIL.md and not there: " + ", ".join(missing))
    code_edits(above, files)
    with open(PAGE, "w") as f:
        f.write(above + HEAD + "\n".join(rows) + "\n")
    print("met at a need: " + (", ".join(at_needs) or "none"))
    by_name = [n for log in ("ci.log", "more.log") for n in re.findall(r"^rt: must-fail (\S+): .*\(only because", open(os.path.join(ROOT, "target", log), errors="replace").read(), re.M)]
    print("refused for a name alone: " + (", ".join(by_name) or "none"))


if __name__ == "__main__":
    main()
