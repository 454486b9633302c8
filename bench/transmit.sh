#!/bin/sh
# Processor time, user and system, of a frame of symbols: of `transmit`, which reads files from a shelf, and of `make`,
# which draws its test stream. The shelf has the files of 1,024 frames of that stream, 97 of 65 packets and 923 of one.
# The two take turns, and the best of RUNS runs (5) is taken.
# Usage: bench/transmit.sh [RUNS]. Needs rt and python3.
set -e
. "$(dirname "$0")/../trials/lib.sh"
scratch_folder
find_program
cp "$LRITSTATION" "$scratch/lritstation"
cd "$scratch"
./lritstation shelf trial 1 1024 0
python3 "$top/bench/transmit.py" "${1:-5}"
