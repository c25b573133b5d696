#!/bin/sh
# run.sh: the whole gate. rt ci proves every crate, tries the edits that must fail and runs the programs; an edit that could not be tried (", N bad") fails the gate too. The
# archive is then built, linked and called, and the listing's sheets and the vectors' cases are compared. rt's line 'N passed, 0 failed' is held back and is the last line of
# all, once everything else has passed. Where a step fails the last line says so, whatever the step itself printed (tests/run_check.sh). All that rt ci said is in
# target/ci.log.
set -eu
cd "$(dirname "$0")/.."
work=$(mktemp -d)
trap 'status=$?; rm -rf "$work"; test $status = 0 || echo "the gate has failed, with status $status"' EXIT
tests/run_check.sh
{
    status=0
    rt ci 2>&1 || status=$?
    echo $status >"$work/status"
} | while IFS= read -r line; do
    printf '%s\n' "$line" >>"$work/ci.log"
    case $line in
    [0-9]*' passed, 0 failed')
        echo "$line" >"$work/tally"
        line="rt ci is done"
        ;;
    'rt: '* | *error* | *'passed, '*) ;;
    *) continue ;;
    esac
    printf '%s\n' "$line"
done
mkdir -p target
cp "$work/ci.log" target/ci.log
test "$(cat "$work/status")" = 0
if grep '^rt: ok' "$work/ci.log" | grep -q ', [1-9][0-9]* bad'; then
    echo "an edit that must be refused could not be tried"
    exit 1
fi
make --no-print-directory -s archive
tests/boundary/run.sh
make --no-print-directory -s listing
tests/listing/run.py target/bin/listing
tests/vectors/generate.py target/cases >/dev/null
cmp target/cases crates/vectors/data/cases
echo "vectors: the cases are what tests/vectors/generate.py writes"
cat "$work/tally"
