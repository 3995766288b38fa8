#!/bin/sh
# runs_test.sh TESTS PROGRAMS: a program that reads standard input and writes standard output, on further inputs: what it writes for
# runs/PROGRAM/CASE.in is runs/PROGRAM/CASE.out, byte for byte.
#   latency_report: none (mask 0, no record), io_err (one IO_ERR, bit 63 of the mask), cut (a record of three bytes), mean (10,000 records,
#   more than a block; all bits of the mask; the mean 18742500/5000 cancels)
#   access: long (lines of every kind)
set -eu
out=$1 programs=$2
runs=$(cd "$(dirname "$0")/runs" && pwd)
checks=0
for in in "$runs"/*/*.in; do
    case=${in%.in} program=$(basename "$(dirname "$in")")
    "$programs/$program" <"$in" >"$out/run.out"
    cmp "$out/run.out" "$case.out"
    checks=$((checks + 1))
done
[ "$checks" -ge 5 ] || { echo "runs_test: only $checks cases" >&2; exit 1; }
echo "runs_test: $checks cases"
