#!/bin/sh
# Pixels exported a second from a file on a shelf in memory, on one core: lr_bench beside a plain program in C that does
# the same work. First an image of 8 bits that isn't compressed, then one of coded lines of 10 bits, beside libaec
# (Debian: libaec-dev; left out where it isn't installed) and beside the decoder of the lines alone. The lines are coded
# by reference/lines.py.
# Usage: bench/export.sh [RUNS]. The best of RUNS runs is taken (5). Needs rt, gcc and python3.
set -e
. "$(dirname "$0")/../trials/lib.sh"
runs=${1:-5}
scratch_folder
(cd "$top/crates/lr_bench" && rt run -- none 1 > "$scratch/build.log" 2>&1) || { cat "$scratch/build.log"; exit 1; }
ours="$top/crates/lr_bench/out/lr_bench"
theirs="$scratch/theirs"
if ! gcc -O3 -DAEC "$top/bench/export.c" -o "$theirs" -laec 2> "$scratch/gcc.log"; then
    gcc -O3 "$top/bench/export.c" -o "$theirs"
fi
: > "$scratch/input"

# the least time of a pixel, in picoseconds: PIXELS PROGRAM WORDS
picoseconds() {
    pixels=$1
    shift
    best=
    for _ in $(seq "$runs"); do
        start=$(date +%s%N)
        "$@" < "$scratch/input" > "$scratch/line" 2> /dev/null || { echo 0; return; }
        each=$((($(date +%s%N) - start) * 1000 / pixels))
        if [ -z "$best" ] || [ "$each" -lt "$best" ]; then best=$each; fi
    done
    echo "$best"
}

# told NAME PIXELS WORDS: both programs over these words
told() {
    name=$1 pixels=$2
    shift 2
    our=$(picoseconds "$pixels" "$ours" "$@")
    our_line=$(cat "$scratch/line")
    their=$(picoseconds "$pixels" "$theirs" "$@")
    if [ "$their" = 0 ]; then same=-; elif [ "$our_line" = "$(cat "$scratch/line")" ]; then same=yes; else same=no; fi
    awk -v name="$name" -v our="$our" -v their="$their" -v same="$same" 'BEGIN {
        printf "%-34s %10.1f %10s   %s\n", name, our ? 1e6 / our : 0, their ? sprintf("%.1f", 1e6 / their) : "-", same }'
}

printf '%-34s %10s %10s   %s\n' 'Mpixel/s' ours C 'same text'
told "8 bits, not compressed" $((100 * 1024 * 1024)) export 100
for block in 16 32; do
    columns=$((2750 / block * block))
    python3 "$top/reference/lines.py" coded 10 "$block" "$columns" 10 1 > "$scratch/input"
    told "10 bits, coded, blocks of $block" $((20 * 32 * 10 * columns)) export-lossless 10 "$block" "$columns" 10 20
    alone=$(picoseconds $((640 * 10 * columns)) "$ours" lines 10 "$block" "$columns" 10 640)
    awk -v block="$block" -v alone="$alone" 'BEGIN { printf "%-34s %10.1f\n", "its lines decoded alone", alone ? 1e6 / alone : 0 }'
done
