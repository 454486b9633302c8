#!/bin/sh
# Images that lack packets. First the sample of README, sent as symbols, with drawn symbols in place of those of six
# frames: plain `receive` gives three of its six files, `receive --mend 64` all six, three of them whole. Then an image
# of some 2,000 frames, coded and not, from which frames are left out at four rates, this many times each: how many come
# whole, and with N of 16, 64 and 255 how many are mended and lost. All pixels outside of the places that the marks tell
# have to be those that were sent.
# Usage: trials/mend.sh [DRAWS [ROOT]], by default 100. Ten minutes with 100. Needs rt and python3. ROOT is a folder
# with a Debian system that has SatDump, as for satdump.sh. Then SatDump gets the frames of twenty drawings of each rate
# too, by chroot, so as root and with Pillow: how many lines of its pictures stand in their place. With another program
# in LRITSTATION it is that one's.
. "$(dirname "$0")/lib.sh"
scratch_folder
find_program
cd "$scratch" || exit 1

# ---- six frames of the sample
python3 "$top/tools/bin/gomtasil" sample > frames || fail "sample"
"$LRITSTATION" sent init 30000000 > init.out && "$LRITSTATION" sent receive --input frames < frames > sent.out ||
    fail "the sample isn't shelved"
"$LRITSTATION" sent transmit 0 6 8 --line nrz-m --g2 plain > recording || fail "transmit"
python3 - << 'END' || exit 1
import random
draw = random.Random(6)
with open("recording", "r+b") as file:
    for frame in (140, 193, 328, 363, 389, 417):
        file.seek(frame * 16384)
        file.write(bytes(draw.choice((40, 216)) for _ in range(16384)))
END
for words in '' '--mend 64'; do
    rm -f shelf
    "$LRITSTATION" shelf init 30000000 > init.out || fail "init"
    # shellcheck disable=SC2086 # (the words of the option)
    "$LRITSTATION" shelf receive --line nrz-m --g2 plain $words < recording > "out$words" || fail "receive $words"
done
# is WHAT NUMBER WANTED
is() { [ "$2" = "$3" ] || fail "$1: $2 of the sample's files, and not $3"; }
mended='out--mend 64'
is "receive" "$(grep -c '^shelved ' out)" 3
is "--mend 64" "$(grep -c '^shelved .* mended [0-9]*$' "$mended")" 6
is "whole ones" "$(grep -c ' mended 0$' "$mended")" 3
fillers=$(sed -n 's/^shelved .* mended //p' "$mended" | paste -sd ' ')
echo "the sample without six frames: 3 files of 6, and with --mend 64 6 of 6, $fillers fillers"

# ---- an image of 2,000 frames
mkdir images
python3 "$top/trials/mend.py" images --draws "${1:-100}" ${2:+--satdump "$2"} || exit 1
echo "trials/mend.sh: passed"
