#!/bin/sh
# Stress tests of a program elastic. Each says what it tries, and the last line names those that failed. Where no program is named,
# elastic and given_rows are proved and built first (`rt run`).
# usage: tools/measure/load.sh [PROGRAM]
set -u
tools=$(realpath "$(dirname "$0")/..")
if [ $# = 0 ]; then
  "$tools/use/program.py" build || exit 1
  (cd "$tools/../crates/given_rows" && rt run -- data/repeats.tsv > /dev/null) || exit 1
fi
program=$(realpath "${1:-$tools/../crates/elastic/out/elastic}")
failed=
for test in measure/load.py measure/saves.py measure/stack.sh measure/fail_alloc.py oracles/crews.py; do
  echo "tools/$test:"
  "$tools/$test" "$program" || failed="$failed tools/$test"
done
test -z "$failed" || { echo "failed:$failed"; exit 1; }
