#!/bin/sh
# convert_program_test.sh TESTS PROGRAMS: the program `convert` on files, against the plain C filter of TESTS/convert_test.
set -eu
filter=$1/convert_test program=$2/convert
t=$(mktemp -d)
trap 'chmod -R u+w "$t"; rm -rf "$t"' EXIT
cd "$t"
checks=0

# says EXPECTED ARGUMENTS..: the whole of what is printed
says() {
    expected=$1
    shift
    got=$("$program" "$@" </dev/null; echo .)
    [ "$got" = "$expected
." ] || { echo "convert_program_test: convert $*: printed '$got', not '$expected'" >&2; exit 1; }
    checks=$((checks + 1))
}

# is FILE CONTENT, and nothing stray: only FILES.. are here
holds() {
    [ "$(cat "$1")" = "$2" ] || { echo "convert_program_test: $1 was changed" >&2; exit 1; }
    checks=$((checks + 1))
}
only() {
    [ "$(ls)" = "$(printf '%s\n' "$@")" ] || { echo "convert_program_test: stray files: $(ls)" >&2; exit 1; }
    checks=$((checks + 1))
}

# ---- each format, at lengths about a block's
for f in 1:1 3:1 4:1 5:2 6:2 11:3 17:4; do
    format=${f%:*} w=${f#*:}
    for n in 0 1 7 16384 24576 49151 49152 49153 98304 200001; do
        head -c $((n * w)) /dev/urandom >in
        "$filter" "$format" <in >expected
        says "0 $n" "$format" in out
        cmp out expected
        rm out
    done
done
only expected in

# ---- the order of the checks: 99, 30, FROM 98, 31, TO 98
printf abc >odd
printf abcd >even
printf old >to
rm -f in expected
says 99
says 99 5
says 99 5 even
says 99 5 even to more
says 99 '' none none/to
says 99 x none none/to
says 99 5x none none/to
says 99 ' 5' none none/to
says 99 -5 none none/to
says 99 +5 none none/to
says 99 00000000005 none none/to
for format in 0 2 7 10 12 16 18 25 261 65541 4294967295 4294967296 4294967301 9999999999; do says 30 $format none none/to; done
says 98 5 none none/to
says 98 5 none to
says 98 5 . to
says 98 5 '' to
says 31 5 odd none/to
says 31 5 odd to
says 98 5 even none/to
says 98 5 even .
says 98 5 even ''
holds to old
only even odd to
says '0 2' 0000000005 even to
holds to abcd
"$filter" 4 <to >expected
says '0 4' 4 to to
cmp to expected
rm expected
says '0 0' 17 /dev/null empty
[ ! -s empty ] && rm empty
only even odd to

# ---- a TO that fails, or is no regular file, stays what it is
says 98 5 even /dev/full
[ -c /dev/full ]
says '0 2' 5 even /dev/null
[ -c /dev/null ]
mkfifo pipe
cat pipe >read &
says '0 2' 5 even pipe
wait
holds read abcd
[ -p pipe ] && rm pipe read
if [ "$(id -u)" != 0 ]; then
    printf old >kept && chmod 400 kept
    says 98 5 even kept
    holds kept old
    rm -f kept
    mkdir shut && chmod 500 shut
    says 98 5 even shut/to
    rmdir shut
fi
# a write that fails half way
head -c 400000 /dev/zero >big
printf old >to
got=$(trap '' XFSZ && ulimit -f 100 && "$program" 5 big to)
[ "$got" = 98 ] || { echo "convert_program_test: a failed write: printed '$got'" >&2; exit 1; }
holds to old
rm big
only even odd to
# a pipe as FROM can't be read twice
mkfifo pipe
cat even >pipe &
says 98 5 pipe to
wait
rm pipe
holds to old
only even odd to
echo "convert_program_test: $checks checks"
