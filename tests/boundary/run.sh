#!/bin/sh
# run.sh: links libcovenant.a with programs in C (with a C library and without) and in Rust, and runs them; one of them replays the vectors' cases. gcc must be there; where
# rustc is not, Rust is left out.
set -eu
here=$(cd "$(dirname "$0")" && pwd)
root=$(cd "$here/../.." && pwd)
lib=$root/target/staticlib
out=$root/target/boundary
mkdir -p "$out"
command -v gcc >/dev/null || { echo "boundary: gcc is not on the PATH, so the calls from C can't be tried" >&2; exit 1; }
gcc -O2 -Wall -Wextra -Werror -I"$root/include" "$here/calls.c" "$lib/libcovenant.a" -o "$out/calls_c"
"$out/calls_c"
gcc -O2 -Wall -Wextra -Werror -I"$root/include" "$root/tests/vectors/replay.c" "$lib/libcovenant.a" -o "$out/replay"
"$out/replay" "$root/crates/vectors/data/cases"
gcc -O2 -Wall -Wextra -Werror -I"$root/include" -I"$root/bench" "$here/frames.c" "$root/bench/stack.c" "$lib/libcovenant.a" -o "$out/frames"
"$out/frames"
gcc -O2 -fno-builtin -fno-tree-loop-distribute-patterns -c "$root/bench/memory.c" -o "$out/memory.o"
gcc -O2 -Wall -ffreestanding -nostdlib -static -I"$root/include" "$here/bare.c" "$out/memory.o" "$lib/libcovenant.a" -o "$out/bare"
status=0
"$out/bare" || status=$?
test "$status" = 2 || { echo "boundary: with no C library the answer was $status"; exit 1; }
echo "boundary: the archive links with memset and memcpy alone"
if command -v rustc >/dev/null; then
    rustc --edition 2021 -O -L "$lib" -o "$out/calls_rs" "$here/calls.rs"
    "$out/calls_rs"
else
    echo "boundary: rustc is not on the PATH, so the calls from Rust were not tried"
fi
