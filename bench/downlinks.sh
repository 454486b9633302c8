#!/bin/sh
# Wall time of four recordings of FRAMES frames (2,048) of the test stream onto one shelf: by `downlinks` of their
# bundle, and by four calls of `receive` with one worker, one after another. Beside them `receive` of all their frames
# as they were restored, which has no symbols to decode: layers, appends and lines, of which `downlinks` makes the
# appends under its lock. Runs take turns, and the best of RUNS (5) is taken. Then one run over a bundle of 786,384
# files of ten bytes.
# Usage: bench/downlinks.sh [RUNS [FRAMES [FOLDER]]]; FOLDER (/dev/shm) is where shelf and streams stand. Needs rt and
# python3.
set -e
. "$(dirname "$0")/../trials/lib.sh"
within=${3:-/dev/shm}
scratch_folder
find_program
cp "$LRITSTATION" "$scratch/lritstation"
cd "$scratch"
for start in 1 2 3 4; do
    ./lritstation - make $start "${2:-2048}" 0 > symbols.$start
    ./lritstation - make $start "${2:-2048}" 0 --output frames > frames.$start
done
"$top/examples/bundle.sh" symbols.1 symbols.2 symbols.3 symbols.4 > bundle
python3 "$top/bench/downlinks.py" "${1:-5}"
