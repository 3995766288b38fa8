#!/bin/sh
# The vectors, the cases and the hostile guest through the archive: c/replay.c prints what the proved program `replay` must print.
set -eu
out=$1
crates=$(cd "$(dirname "$0")/../crates" && pwd)
for script in replay replay_cases; do
    "$out/replay" < "$crates/$script/stdin" > "$out/$script.out"
    cmp "$out/$script.out" "$crates/$script/stdout"
done
# a script that is one byte too long
head -c 1048577 /dev/zero | "$out/replay" > "$out/long.out"
test "$(cat "$out/long.out")" = "0 99"
lines=$(cat "$crates"/replay/stdout "$crates"/replay_cases/stdout | wc -l)
echo "replay_test: $lines lines as the program replay prints them"
