#!/bin/sh
# Pixels a second of all images of a shelf in memory: by `export` of each file, one after another, and by `render` with
# 1, 2 and 4 that work. First images of 8 bits that aren't compressed, then coded ones of 5,500 columns of 10 bits, and
# then many small coded ones. Runs take turns, and the best of RUNS (5) is taken. The texts have to be the same each
# time. The lines are coded by reference/lines.py.
# Usage: bench/render.sh [RUNS]. Needs rt and python3.
set -e
. "$(dirname "$0")/../trials/lib.sh"
scratch_folder
(cd "$top/crates/lr_bench" && rt run -- none 1 > "$scratch/build.log" 2>&1) || { cat "$scratch/build.log"; exit 1; }
cp "$top/crates/lr_bench/out/lr_bench" "$scratch/lr_bench"
python3 "$top/reference/lines.py" coded 10 16 5500 10 1 > "$scratch/wide"
python3 "$top/reference/lines.py" coded 10 16 64 2 1 > "$scratch/small"
cd "$scratch"
python3 "$top/bench/render.py" "${1:-5}"
