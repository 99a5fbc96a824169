#!/usr/bin/env bash
# Tries the edits of one crate that stand outside the gate, as bench/edits.sh fv_tree: the prover must refuse each. It works on a copy of
# what is committed, in which they stand in place of the crate's own must-fail edits, and tells what `rt must-fail` does.
set -eu
top=$(cd "$(dirname "$(readlink -f "$0")")/.." && pwd)
crate=${1:?usage: bench/edits.sh CRATE}
edits=$top/bench/edits/$crate
[ -d "$edits" ] || { echo "edits: bench/edits has none of $crate" >&2; exit 2; }
room=$(mktemp -d)
trap 'rm -rf "$room"' EXIT
git clone -q "$top" "$room/copy"
cd "$room/copy"
rm -rf "crates/$crate/must-fail"
cp -r "$edits" "crates/$crate/must-fail"
rt must-fail "$crate"
