#!/bin/sh
# Processor time, user and system, of the usual program and of the one for x86-64-v3, for the same work: symbols to a
# line for each frame, symbols to files on a shelf, and the first files of that shelf to symbols. What both print has to
# be the same. Usage: bench/processors.sh [RUNS [FRAMES]]. The two take turns, and the best of RUNS runs (5) of FRAMES
# frames (2048) is taken. Needs rt where the programs aren't built, python3, and a processor with what x86-64-v3 needs.
set -e
. "$(dirname "$0")/../trials/lib.sh"
runs=${1:-5}
frames=${2:-2048}
scratch_folder
find_program
program=$LRITSTATION
if ! [ -x "$program-v3" ] || ! /lib64/ld-linux-x86-64.so.2 --help | grep -q '^ *x86-64-v3 (supported'; then
    echo "bench/processors.sh: skipped, as there is no program for x86-64-v3 that may run here"
    exit 0
fi
cp "$program" "$scratch/v2"
cp "$program-v3" "$scratch/v3"
cd "$scratch"
./v2 - make 1 "$frames" 16 > symbols
python3 "$top/bench/processors.py" "$runs" "$frames"
