#!/bin/sh
# `receive` of clean frames of the test stream, from a file to a synced shelf, with 1, 2, 4, 8 and 64 that work on
# windows: the time of the run, the processor time of all threads, and how many times faster than with 1 it is. Beside
# it what the caller's thread does alone (it feeds the lock, joins files, shelves and prints): the time with 1, less
# that from windows to outcomes by lr_bench. Output and shelf have to be the same each time.
# Usage: bench/workers.sh [RUNS [FRAMES [FOLDER]]]. The best of this many runs is taken, in turn (3 runs of 8192
# frames). The folder is where shelf and stream lie, by default that of temporary files. Needs rt and python3.
set -e
. "$(dirname "$0")/../trials/lib.sh"
runs=${1:-3}
frames=${2:-8192}
within=${3:-${TMPDIR:-/tmp}}
scratch_folder
find_program
cp "$LRITSTATION" "$scratch/lritstation"
(cd "$top/crates/lr_bench" && rt run -- lock 1 > "$scratch/build.log" 2>&1) || { cat "$scratch/build.log"; exit 1; }
cp "$top/crates/lr_bench/out/lr_bench" "$scratch/parts"
cd "$scratch"
./lritstation - make 1 "$frames" 0 > stream
python3 "$top/bench/workers.py" "$runs" "$frames"
