#!/bin/sh
# wave_field_test.sh TESTS PROGRAMS: the program `wave` (wave_tool) against readers and writers of the field, where they are installed: sox, and
# Python's module wave.
set -eu
program=$2/wave_tool
t=$(mktemp -d)
trap 'rm -rf "$t"' EXIT
cd "$t"
checks=0

fail() {
    echo "wave_field_test: $*" >&2
    exit 1
}
same() { # FILE FILE WHAT
    cmp -s "$1" "$2" || fail "$3"
    checks=$((checks + 1))
}
hz() { # the frames a second of a rate's number
    set -- $(($1 + 1)) 5512 8000 11025 16000 22050 32000 44100 48000 64000 88200 96000 176400 192000 384000
    shift "$1"
    echo "$1"
}

# in SOX's words: the format's number, its width, its coding
for f in 4:1:unsigned-integer 5:2:signed-integer 11:3:signed-integer 17:4:signed-integer; do
    format=${f%%:*} rest=${f#*:}
    width=${rest%%:*} coding=${rest#*:}
    for channels in 1 2; do
        for rate in 0 1 7 12; do
            bytes=$((width * channels * 501))
            head -c $bytes /dev/urandom >in
            [ "$("$program" write $format $channels $rate in ours.wav)" = "0 $bytes" ] || fail "wave write $format $channels $rate"
            if command -v sox >/dev/null; then
                sox -D ours.wav -t raw -e $coding -b $((8 * width)) out
                same in out "sox reads another sound: $format $channels $rate"
                [ "$(soxi -r ours.wav) $(soxi -c ours.wav) $(soxi -b ours.wav)" = "$(hz $rate) $channels $((8 * width))" ] ||
                    fail "soxi: $format $channels $rate"
                # sox writes the extended format part for more than 16 bits a sample; "wavpcm" is the plain one
                sox -D -t raw -r "$(hz $rate)" -c $channels -e $coding -b $((8 * width)) in -t wavpcm theirs.wav
                same ours.wav theirs.wav "sox writes another file: $format $channels $rate"
                [ "$("$program" read theirs.wav out)" = "0 $format $channels $rate $bytes" ] || fail "wave read, of sox: $format $channels $rate"
                same in out "sox's sound is read as another"
            fi
            if command -v python3 >/dev/null; then
                python3 - ours.wav in theirs.wav $channels $width "$(hz $rate)" <<'P' || fail "Python's wave: $format $channels $rate"
import sys, wave
ours, data, theirs, channels, width, hz = sys.argv[1], open(sys.argv[2], 'rb').read(), sys.argv[3], *map(int, sys.argv[4:])
with wave.open(ours) as w:
    assert (w.getnchannels(), w.getsampwidth(), w.getframerate()) == (channels, width, hz)
    assert w.readframes(w.getnframes()) == data
with wave.open(theirs, 'wb') as w:
    w.setnchannels(channels)
    w.setsampwidth(width)
    w.setframerate(hz)
    w.writeframes(data)
P
                checks=$((checks + 1))
                # it puts no pad byte behind an odd length, and counts none
                if [ $((bytes % 2)) = 0 ]; then
                    same ours.wav theirs.wav "Python's wave writes another file: $format $channels $rate"
                else
                    [ "$("$program" read theirs.wav out)" = 25 ] || fail "a file without its pad byte was read"
                    checks=$((checks + 1))
                fi
            fi
        done
    done
done
command -v sox >/dev/null && echo "wave_field_test: $(sox --version)"
command -v python3 >/dev/null && echo "wave_field_test: $(python3 --version)"
echo "wave_field_test: $checks checks"
