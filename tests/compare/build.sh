#!/bin/sh
# build.sh OUT: compiles the published files of the folder that RUST_SOURCE names (unchanged, under their own paths, beside own/) over the stand-ins of shim/;
# OUT/compare, which has both them, with index steps that trap, and the archive target/staticlib/libcovenant.a; and OUT/bench, which has them as they are. Needs
# rustc alone.
set -eu
here=$(cd "$(dirname "$0")" && pwd)
out=$1
: "${RUST_SOURCE:?the folder of the published source, with src/extensions/arith.rs in it}"
mkdir -p "$out/checked" "$out/plain"
rm -rf "$out/src"
cp -R "$here/own" "$out/src"
for f in expression extensions/arith extensions/index_ops extensions/mod extensions/param interpreter/stack miniscript/lex; do
    cp "$RUST_SOURCE/src/$f.rs" "$out/src/$f.rs"
done
all='--extern bitcoin --extern elements --extern bitcoin_miniscript'
# shellcheck disable=SC2086
published() { # WHERE WORDS..: the published files as a library, and the stand-ins
    where=$1
    shift
    set -- --edition 2021 -O --crate-type rlib -L "$where" --out-dir "$where" --check-cfg 'cfg(probe)' "$@"
    rustc "$@" --crate-name bitcoin "$here/shim/bitcoin.rs"
    rustc "$@" --crate-name elements --extern bitcoin "$here/shim/elements.rs"
    rustc "$@" --crate-name bitcoin_miniscript "$here/shim/bitcoin_miniscript.rs"
    rustc "$@" --crate-name elements_miniscript $all "$out/src/lib.rs"
}
published "$out/checked" -C overflow-checks=on
# shellcheck disable=SC2086
rustc --edition 2021 -O -C overflow-checks=on -L "$out/checked" -L "$here/../../target/staticlib" $all --extern elements_miniscript -o "$out/compare" "$here/compare.rs"
# The benchmark calls the private from_tokens, by a function appended to the published file.
cat "$here/probe.rs" >>"$out/src/extensions/arith.rs"
published "$out/plain" --cfg probe
# shellcheck disable=SC2086
rustc --edition 2021 -O -L "$out/plain" $all --extern elements_miniscript -o "$out/bench" "$here/bench.rs"
