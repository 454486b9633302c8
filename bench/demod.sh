#!/bin/sh
# `lritdemod` beside GNU Radio and SatDump, over the same recordings with known symbols (bench/demod): what each loses
# beside the ideal symbols, in dB, the frames that `receive` restores of its symbols, when it takes up a signal, and its
# processor time. Then what `lritdemod` is held to: no slip in ten million symbols, no symbol of an hour of noise, its
# resident memory, and what it may lose in some thirty settings.
# Usage: bench/demod.sh [ROOT [FRAMES]], or bench/demod.sh --plot FILE.png [ROOT [FRAMES]], which draws the frames lost
# over Es/N0 of each. ROOT is a folder with a Debian system that has SatDump, as
#   mmdebstrap --variant=apt --include=satdump trixie ROOT
# makes it; chroot enters it, so this runs as root then. GNU Radio is measured where Debian's package is there. FRAMES
# are those of a recording, 150 by default. $LRITDEMOD and $LRITSTATION may name built programs; else rt builds them.
# Needs python3-numpy, and python3-matplotlib for the plot. The status is 1 where a goal isn't met.
set -e
. "$(dirname "$0")/../trials/lib.sh"
plot=
if [ "${1-}" = --plot ]; then
    plot=$2
    shift 2
fi
root=${1-}
frames=${2:-150}
python_with numpy || nothing "python3-numpy is missing"
scratch_folder
find_program
find_demodulator
export PYTHONPATH="$top/bench"
# measure PART [WORDS..]
measure() {
    part=$1
    shift
    "$python" -m demod "$part" --demodulator "$LRITDEMOD" --station "$LRITSTATION" --frames "$frames" \
        ${root:+--satdump "$root"} "$@"
}
if [ -n "$plot" ]; then
    measure levels --levels -1.8,-1.7,-1.6,-1.5,-1.4,-1.3,-1.2,-1,-0.5,0,0.5,1,2 --out "$scratch/curves.json"
    exec "$python" -m demod.plot "$scratch/curves.json" "$plot" "$(git -C "$top" log -1 --format=%h)"
fi
status=0
for part in levels lock fades; do
    measure $part || status=1
done
for part in held cases; do
    measure $part --own || status=1
done
exit $status
