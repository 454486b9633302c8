#!/bin/sh
# Symbols a second through the lock, over noise and over frames, on one core: lr_bench beside the same loop in C (gcc
# -O3). Then frames a second from window to outcome, by lr_bench alone.
# Usage: bench/lock.sh [RUNS]. The best of RUNS runs is taken (5). Needs rt and gcc.
set -e
. "$(dirname "$0")/../trials/lib.sh"
runs=${1:-5}
crate=lr_bench
scratch_folder
(cd "$top/crates/$crate" && rt run -- lock 1 > "$scratch/build.log" 2>&1) || { cat "$scratch/build.log"; exit 1; }
cp "$top/crates/$crate/out/$crate" "$scratch/rattle"
gcc -O3 "$top/bench/lock.c" -o "$scratch/c"

# the least time of a round, in picoseconds
picoseconds() {
    program=$1 name=$2 rounds=$3 best=
    for _ in $(seq "$runs"); do
        start=$(date +%s%N)
        "$scratch/$program" "$name" "$rounds" > "$scratch/$program.line"
        each=$((($(date +%s%N) - start) * 1000 / rounds))
        if [ -z "$best" ] || [ "$each" -lt "$best" ]; then best=$each; fi
    done
    echo "$best"
}

printf '%-8s %16s %16s %10s   %s\n' name 'rattle ns/symbol' 'c ns/symbol' 'rattle/c' 'same windows'
for name in noise locked; do
    case $name in noise) rounds=500 ;; *) rounds=20000 ;; esac
    ours=$(picoseconds rattle "$name" "$rounds")
    theirs=$(picoseconds c "$name" "$rounds")
    if cmp -s "$scratch/rattle.line" "$scratch/c.line"; then same=yes; else same=no; fi
    awk -v name="$name" -v ours="$ours" -v theirs="$theirs" -v same="$same" 'BEGIN {
        printf "%-8s %16.3f %16.3f %10.2f   %s\n", name, ours / 32768e3, theirs / 32768e3, ours / theirs, same }'
done
each=$(picoseconds rattle frame 1000)
awk -v each="$each" 'BEGIN { printf "%-8s %16.1f us a frame %12.0f frames/s\n", "frame", each / 1e6, 1e12 / each }'
