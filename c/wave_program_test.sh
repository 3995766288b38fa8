#!/bin/sh
# wave_program_test.sh TESTS PROGRAMS: the program `wave` (wave_tool) on files: there and back, the order of the checks, what is left.
set -eu
program=$2/wave_tool
t=$(mktemp -d)
trap 'chmod -R u+w "$t"; rm -rf "$t"' EXIT
cd "$t"
checks=0

# says EXPECTED ARGUMENTS..: the whole of what is printed
says() {
    expected=$1
    shift
    got=$("$program" "$@" </dev/null; echo .)
    [ "$got" = "$expected
." ] || { echo "wave_program_test: wave $*: printed '$got', not '$expected'" >&2; exit 1; }
    checks=$((checks + 1))
}
holds() {
    [ "$(cat "$1")" = "$2" ] || { echo "wave_program_test: $1 was changed" >&2; exit 1; }
    checks=$((checks + 1))
}
only() {
    [ "$(ls)" = "$(printf '%s\n' "$@")" ] || { echo "wave_program_test: stray files: $(ls)" >&2; exit 1; }
    checks=$((checks + 1))
}

# ---- there and back, at lengths about a block's
for format in 4 5 11 17; do
    for n in 0 1 2 1920 1921 65535 65536 65537 131072 200001; do
        head -c $n /dev/urandom >in
        says "0 $n" write $format 2 7 in file
        [ "$(wc -c <file)" = $((44 + n + n % 2)) ]
        says "0 $format 2 7 $n" read file out
        cmp in out
        checks=$((checks + 2))
        rm file out
    done
done
for rate in 0 13; do
    for channels in 1 18; do
        says "0 200001" write 5 $channels $rate in file
        says "0 5 $channels $rate 200001" read file out
        rm file out
    done
done
only in

# ---- the order of the checks: 99, 20, FROM 98, 21 or 23 to 27, TO 98
printf abc >odd
printf old >to
rm in
says 99
says 99 write
says 99 write 5 2 7 odd
says 99 write 5 2 7 odd to more
says 99 read odd
says 99 read odd to more
says 99 wrote 5 2 7 odd to
says 99 writes 5 2 7 odd to
says 99 rea odd to
says 99 read 5 2 7 odd to
says 99 write odd to
for bad in '' x 5x ' 5' -5 +5 00000000005; do
    says 99 write "$bad" 2 7 none none/to
    says 99 write 5 "$bad" 7 none none/to
    says 99 write 5 2 "$bad" none none/to
done
says 99 write 0 0 x none none/to
for format in 0 1 3 6 12 25 261 4294967295 4294967296 4294967301 9999999999; do says 20 write $format 2 7 none none/to; done
for channels in 0 19 258 4294967298; do says 20 write 5 $channels 7 none none/to; done
for rate in 14 263 4294967303; do says 20 write 5 2 $rate none none/to; done
says 98 write 5 2 7 none to
says 98 write 5 2 7 . to
says 98 write 5 2 7 '' to
says 98 read none to
says 23 read odd none/to
says 98 write 5 2 7 odd none/to
says 98 write 5 2 7 odd .
says 98 write 5 2 7 odd ''
holds to old
only odd to
says '0 3' write 0000000005 0000000002 0000000007 odd file
cp file good

# each refusal of the reader leaves TO as it was, or not there
change() { # PLACE BYTE: good with one byte another, as bad
    cp good bad
    printf "$2" | dd of=bad bs=1 seek="$1" conv=notrunc 2>/dev/null
}
head -c 43 good >bad
says 23 read bad none/to
for at in 0 8 12 36; do
    change $at x
    says 24 read bad none/to
    says 24 read bad to
    says 24 read bad new
done
for at in 4 16 20 22 24 28 32 34 40; do
    change $at '\377'
    says 25 read bad to
    says 25 read bad new
done
head -c 47 good >bad
says 26 read bad to
{ cat good; printf '\0'; } >bad
says 26 read bad to
change 47 x
says 27 read bad to
says 27 read bad new
says 98 read good none/to
holds to old
only bad file good odd to

# ---- TO and FROM the same file; a TO that fails, or is no regular file, stays what it is
says '0 5 2 7 3' read file file
holds file abc
says 98 write 5 2 7 odd /dev/full
says '0 3' write 5 2 7 odd /dev/null
[ -c /dev/full ] && [ -c /dev/null ]
mkfifo pipe
cat pipe >copy &
says '0 3' write 5 2 7 odd pipe
wait
cmp copy good
cat odd >pipe &
says 98 write 5 2 7 pipe to
wait
rm pipe copy
# a write that fails half way
head -c 400000 /dev/zero >big
got=$(trap '' XFSZ && ulimit -f 100 && "$program" write 5 2 7 big to)
[ "$got" = 98 ] || { echo "wave_program_test: a failed write: printed '$got'" >&2; exit 1; }
holds to old
rm big
only bad file good odd to

# ---- one byte more than the largest data length, as a file with a hole
if truncate -s 4294967259 long 2>/dev/null; then
    says 21 write 5 2 7 long to
    holds to old
    rm long
fi
echo "wave_program_test: $checks checks"
