#!/bin/sh
# Tries wrong bodies outside the gate: each edit of crates/NAME/wrong must be refused by the proofs of its crate.
# usage: tools/house/wrong.sh [CRATE..]  (every crate that has some, where none is named)
# It works in a clone of what is committed, where the edits lie in must-fail/ as the toolchain wants them.
set -eu
top=$(git rev-parse --show-toplevel)
copy=$(mktemp -d "${TMPDIR:-/tmp}/wrong.XXXXXX")
trap 'rm -rf "$copy"' EXIT
git clone -q "$top" "$copy/tree"
cd "$copy/tree"
if [ $# -eq 0 ]; then
  set -- $(ls -d crates/*/wrong | cut -d/ -f2)
fi
for crate in "$@"; do
  rm -rf "crates/$crate/must-fail"
  cp -r "crates/$crate/wrong" "crates/$crate/must-fail"
done
rt must-fail "$@"
