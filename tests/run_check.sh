#!/bin/sh
# run_check.sh: tries run.sh over steps that only print. Where all pass, its last line is 'N passed, 0 failed', which stands there once; where one fails, whatever it prints, or
# where rt ci could not try an edit, the last line is another, and the status is not 0.
set -eu
here=$(cd "$(dirname "$0")" && pwd)
work=$(mktemp -d)
trap 'rm -rf "$work"' EXIT
mkdir -p "$work/tests/boundary" "$work/tests/listing" "$work/tests/vectors" "$work/crates/vectors/data" "$work/target" "$work/bin"
cp "$here/run.sh" "$work/tests"
echo "a case" >"$work/crates/vectors/data/cases"
# step FILE NAME: a step that prints a tally, and fails where it is the one that must; rt's own tally is that of `prove`
step() {
    printf '#!/bin/sh\necho "7 passed, 0 failed"\necho "7 passed, 0 failed" >&2\ntest "$FAILS" != "%s"\n' "$2" >"$work/$1"
    chmod +x "$work/$1"
}
step tests/run_check.sh check
step bin/rt prove
sed -i 's/7 passed/8 passed/; /&2/d' "$work/bin/rt"
sed -i '2i test "$FAILS" = bad && bad=", 1 bad" || bad=\necho "rt: ok (must-fail edits: 5 refused$bad)"' "$work/bin/rt"
step bin/make make
sed -i '$d' "$work/bin/make"
echo 'case "$*" in *"$FAILS"*) false ;; esac' >>"$work/bin/make"
step tests/boundary/run.sh boundary
step tests/listing/run.py sheets
step tests/vectors/generate.py generate
sed -i 's/^echo/cp crates\/vectors\/data\/cases "$1"; echo/' "$work/tests/vectors/generate.py"
tried() { (cd "$work" && FAILS=$1 PATH="$work/bin:$PATH" tests/run.sh) >"$work/out" 2>&1; }
tried nothing || { echo "run_check: a gate whose steps all pass fails" >&2; exit 1; }
test "$(tail -n 1 "$work/out")" = "8 passed, 0 failed"
test "$(grep -c '8 passed' "$work/out")" = 1
for fails in check prove bad archive boundary listing sheets generate; do
    if tried $fails; then
        echo "run_check: the gate passes where $fails fails" >&2
        exit 1
    fi
    if tail -n 1 "$work/out" | grep -q ' passed, ' || grep -q '8 passed' "$work/out"; then
        echo "run_check: the gate shows a tally where $fails fails" >&2
        exit 1
    fi
done
echo "a case that differs" >"$work/crates/vectors/data/cases.new"
sed -i 's/cp crates\/vectors\/data\/cases /cp crates\/vectors\/data\/cases.new /' "$work/tests/vectors/generate.py"
if tried nothing; then
    echo "run_check: the gate passes where the cases differ" >&2
    exit 1
fi
test "$(tail -n 1 "$work/out")" = "the gate has failed, with status 1"
