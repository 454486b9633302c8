#!/bin/sh
# Words restored a second, with 0, 1, 8, 16 and 17 wrong bytes: lr_bench beside libfec as Debian builds it (its own
# code is in the library; gcc -O3 builds the program around it).
# Usage: bench/reed_solomon.sh [RUNS]. The best of RUNS runs is taken (7). Needs rt, gcc and libfec-dev.
set -e
. "$(dirname "$0")/../trials/lib.sh"
runs=${1:-7}
scratch_folder
(cd "$top/crates/lr_bench" && rt run -- rs 1 > "$scratch/build.log" 2>&1) || { cat "$scratch/build.log"; exit 1; }
gcc -O3 "$top/bench/reed_solomon.c" -o "$scratch/libfec" -lfec

# the least time of a round, in nanoseconds
nanoseconds() {
    program=$1 name=$2 rounds=$3 best=
    for _ in $(seq "$runs"); do
        start=$(date +%s%N)
        "$program" "$name" "$rounds" > "$scratch/line"
        each=$((($(date +%s%N) - start) / rounds))
        if [ -z "$best" ] || [ "$each" -lt "$best" ]; then best=$each; fi
    done
    echo "$best"
}

printf '%-6s %28s %28s   %s\n' name 'lr_rs: us a word, words/s' 'libfec: us a word, words/s' 'same answers'
for name in rs0 rs1 rs8 rs16 rs17; do
    case $name in rs0) rounds=100000 ;; *) rounds=10000 ;; esac
    ours=$(nanoseconds "$top/crates/lr_bench/out/lr_bench" "$name" "$rounds")
    our_line=$(cat "$scratch/line")
    theirs=$(nanoseconds "$scratch/libfec" "$name" "$rounds")
    if [ "$our_line" = "$(cat "$scratch/line")" ]; then same=yes; else same=no; fi
    awk -v name="$name" -v ours="$ours" -v theirs="$theirs" -v same="$same" 'BEGIN {
        printf "%-6s %14.2f %13.0f %14.2f %13.0f   %s\n", name, ours / 1000, 1e9 / ours, theirs / 1000, 1e9 / theirs, same }'
done
