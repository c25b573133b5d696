#!/bin/sh
# build.sh CRATE FROM TO: proves a crate and builds it, by `rt lib` where FROM is an archive, else by `rt run`, which runs the program too, on the crate's file stdin where
# there is one; puts the crate's out/FROM at TO. What rt says is shown where it fails. Standard output is the program's.
set -eu
cd "$(dirname "$0")/.."
crate=crates/$1 from=$2 to=$PWD/$3
said=$(mktemp)
trap 'rm -f "$said"' EXIT
mkdir -p "$(dirname "$to")"
cd "$crate"
input=/dev/null
test ! -f stdin || input=stdin
case $from in
*.a) rt lib >"$said" 2>&1 || { cat "$said"; exit 1; } ;;
*) rt run <"$input" 2>"$said" || { cat "$said" >&2; exit 1; } ;;
esac
cp "out/$from" "$to"
