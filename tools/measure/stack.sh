#!/bin/sh
# Reads, compiles and runs deep kernels with a small stack of 1,024 KiB:
# - the long and deep texts of crates/given_rows/data/repeats.tsv, by the program given_rows, whose answers must be the given ones;
#   left out where that program is neither named nor stands in crates/given_rows/out;
# - kernels of one long chain of operators, as long as a kernel may be, by elastic, where each call must end by itself; and one whose
#   helpers nest deepest, with 4,096 KiB.
# The programs are the proved ones where none are named.
# usage: tools/measure/stack.sh [ELASTIC [GIVEN_ROWS]]
set -eu
top=$(realpath "$(dirname "$0")/../..")
program=$(realpath "${1:-$top/crates/elastic/out/elastic}")
rows=$(realpath -m "${2:-$top/crates/given_rows/out/given_rows}")
stack=1024
folder=$(mktemp -d)
trap 'rm -rf "$folder"' EXIT
failed=0
if [ -x "$rows" ]; then
  crate=$top/crates/given_rows
  awk '/^== / { here = ($2 == "repeats.tsv") } here' "$crate/stdout" > "$folder/want"
  status=0
  (cd "$crate/data" && ulimit -s "$stack" && exec "$rows" repeats.tsv) > "$folder/out" || status=$?
  count=$(($(wc -l < "$folder/want") - 1))
  if [ "$status" = 0 ] && cmp -s "$folder/out" "$folder/want"; then
    echo "pass: $count texts in a stack of $stack KiB"
  else
    echo "fail: status $status; lines that differ (given, then answered):"
    diff "$folder/want" "$folder/out" || true
    failed=1
  fi
else
  echo "not tried: the texts of repeats.tsv, since $rows is not there"
fi
cd "$folder"
echo 'a = 1' > inputs
for operator in '+' '||' '<' '<<'; do
  chain=$(awk -v op="$operator" 'BEGIN { printf "a"; for (i = 1; i < 510; i++) printf " %s a", op }')
  printf '#include <stdint.h>\nint32_t f(int32_t a) { return %s; }\n' "$chain" > kernel.c
  for words in 'compile kernel.c' 'go kernel.c inputs' 'ref kernel.c inputs'; do
    status=0
    # 13 is the answer of `ref` where C leaves a shift undefined
    (ulimit -s "$stack" && exec "$program" $words) > out 2> err || status=$?
    if [ "$status" = 0 ] || [ "$status" = 13 ]; then
      echo "pass: $words, 510 operands of $operator, in a stack of $stack KiB"
    else
      echo "fail: $words, 510 operands of $operator, in a stack of $stack KiB: status $status"
      failed=1
    fi
  done
done
# helpers that call one another inside as many blocks as may nest: their tree without calls nests some 890 statements
awk 'BEGIN {
  for (h = 0; h < 14; h++) {
    printf "static int h%d(int a) { ", h
    for (i = 0; i < 62; i++) printf "{ "
    if (h) printf "a = h%d(a); ", h - 1; else printf "a++; "
    for (i = 0; i < 62; i++) printf "} "
    print "return a; }"
  }
  print "int f(int a) { a = h13(a); return a; }"
}' > kernel.c
for words in 'compile kernel.c' 'go kernel.c inputs' 'ref kernel.c inputs'; do
  status=0
  (ulimit -s 4096 && exec "$program" $words) > out 2> err || status=$?
  if [ "$status" = 0 ]; then
    echo "pass: $words, helpers in one another, in a stack of 4096 KiB"
  else
    echo "fail: $words, helpers in one another, in a stack of 4096 KiB: status $status, $(head -n 1 err)"
    failed=1
  fi
done
exit $failed
