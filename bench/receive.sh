#!/bin/sh
# Where the time of a frame goes, on one core. First `receive` of clean frames of the test stream, from a file to a
# synced shelf, by the program: its time, its processor time, and symbols a second. Below it each step of a frame, by
# lr_bench: the processor time, user and system, beside that of the same work in C where there is one (bench/*.c, by gcc
# -O3; for words libfec, Debian's libfec-dev, left out where it isn't installed). The last column says whether both
# printed the same checksum.
# Usage: bench/receive.sh [RUNS [FRAMES]]. The two sides take turns, and the best of RUNS runs (5) is taken, `receive`
# of FRAMES frames (1024). Needs rt, gcc and python3.
set -e
. "$(dirname "$0")/../trials/lib.sh"
runs=${1:-5}
frames=${2:-1024}
scratch_folder
find_program
cp "$LRITSTATION" "$scratch/lritstation"
(cd "$top/crates/lr_bench" && rt run -- lock 1 > "$scratch/build.log" 2>&1) || { cat "$scratch/build.log"; exit 1; }
cp "$top/crates/lr_bench/out/lr_bench" "$scratch/parts"
gcc -O3 "$top/bench/lock.c" -o "$scratch/lock"
gcc -O3 "$top/bench/trellis.c" -o "$scratch/trellis"
gcc -O3 "$top/bench/shelf.c" -o "$scratch/shelf-loop"
gcc -O3 "$top/bench/reed_solomon.c" -o "$scratch/words" -lfec 2> "$scratch/gcc.log" || true
cd "$scratch"
./lritstation - make 1 "$frames" 0 > stream
python3 "$top/bench/receive.py" "$runs" "$frames"
