#!/bin/sh
# run.sh: the boundary tests, and every case of the vectors, through the archive under valgrind. The proofs end at the language's abstract machine; this looks at what the
# compiler made of it. The C programs lend each slice as an allocation of its own with nothing beside it (alone.h). Needs gcc and valgrind, and uses rustc where it is.
set -eu
here=$(cd "$(dirname "$0")" && pwd)
root=$(cd "$here/../.." && pwd)
lib=$root/target/staticlib/libcovenant.a
out=$root/target/memcheck
cases=$root/crates/vectors/data/cases
mkdir -p "$out"
for tool in gcc valgrind; do
    command -v $tool >/dev/null || { echo "memcheck: $tool is not on the PATH" >&2; exit 1; }
done
# compiled PROGRAM SOURCE WORD..
compiled() {
    program=$1 source=$2
    shift 2
    gcc -O2 -g -Wall -Wextra -Werror "$@" -include "$here/alone.h" -I"$root/include" "$source" "$lib" -o "$out/$program"
}
# memcheck NAME PROGRAM WORD..: shows valgrind's last line; 99 where it saw an error
memcheck() {
    name=$1
    shift
    status=0
    valgrind --error-exitcode=99 --leak-check=full --log-file="$out/$name.log" "$@" >"$out/$name.out" || status=$?
    echo "$name: $(sed -n 's/^==[0-9]*== *\(ERROR SUMMARY.*\)/\1/p' "$out/$name.log")"
    return $status
}
compiled calls "$root/tests/boundary/calls.c"
compiled replay "$root/tests/vectors/replay.c"
compiled short "$root/tests/vectors/replay.c" -DMISSING=1
memcheck boundary "$out/calls"
if command -v rustc >/dev/null; then
    rustc --edition 2021 -O -L "$(dirname "$lib")" -o "$out/calls_rs" "$root/tests/boundary/calls.rs"
    memcheck boundary-rust "$out/calls_rs"
fi
memcheck cases "$out/replay" "$cases"
cat "$out/cases.out"
# slices that lack their last byte must be seen, or the lines above say nothing
status=0
memcheck short "$out/short" "$cases" || status=$?
test "$status" = 99 || { echo "memcheck: slices that lack a byte were not seen" >&2; exit 1; }
echo "memcheck: 0 errors, and slices that lack their last byte are seen"
