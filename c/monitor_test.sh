#!/bin/sh
# The example monitor: it ends well, and writes what it says.
set -eu
out=$1
"$out/monitor" "$out/played.raw" "$out/chime.wav" "$out/voice.wav" > "$out/monitor.out"
grep -q 'rolled over to 170' "$out/monitor.out"
# 65,486 frames of silence and one second of sound; the same sound behind the 44 bytes of the WAVE file
test "$(wc -c < "$out/played.raw")" -eq 453944
tail -c 192000 "$out/played.raw" > "$out/chime.raw"
tail -c +45 "$out/chime.wav" | cmp - "$out/chime.raw"
# 1.2 seconds, whose last fifth of a second was played after the chime's stream was released
test "$(wc -c < "$out/voice.wav")" -eq 230444
for file in chime voice; do
    test "$(head -c 4 "$out/$file.wav")" = RIFF
done
echo "monitor_test: chime and voice are played at once past a rollover, recorded, stopped and released"
