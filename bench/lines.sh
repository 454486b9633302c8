#!/bin/sh
# Pixels decoded a second from coded lines of some 5,500 columns at 10 bits, and pixels of such lines coded a second at
# 8 and 10 bits, on one core: lr_bench beside libaec as it is installed (Debian: libaec-dev; left out where it isn't).
# The lines are drawn and coded by reference/lines.py.
# Usage: bench/lines.sh [RUNS] [ROUNDS]. The best of RUNS runs (5) is taken, each of ROUNDS rounds (40) of 100 lines.
set -e
. "$(dirname "$0")/../trials/lib.sh"
runs=${1:-5}
rounds=${2:-40}
lines=100
scratch_folder
(cd "$top/crates/lr_bench" && rt run -- none 1 > "$scratch/build.log" 2>&1) || { cat "$scratch/build.log"; exit 1; }
ours="$top/crates/lr_bench/out/lr_bench lines"
theirs=
if gcc -O3 "$top/bench/lines.c" -o "$scratch/libaec" -laec 2> "$scratch/gcc.log"; then theirs="$scratch/libaec"; fi

# the least time of a pixel, in picoseconds: PROGRAM BLOCK COLUMNS
picoseconds() {
    best=
    for _ in $(seq "$runs"); do
        start=$(date +%s%N)
        $1 10 "$2" "$3" "$lines" "$rounds" < "$scratch/coded" > "$scratch/line"
        each=$((($(date +%s%N) - start) * 1000 / (rounds * lines * $3)))
        if [ -z "$best" ] || [ "$each" -lt "$best" ]; then best=$each; fi
    done
    echo "$best"
}

printf '%-6s %10s %20s %20s   %s\n' block 'bits/pixel' 'lr_rice: Mpixel/s' 'libaec: Mpixel/s' 'same samples'
for block in 8 16 32; do
    columns=$((5500 / block * block))
    python3 "$top/reference/lines.py" coded 10 "$block" "$columns" "$lines" 1 > "$scratch/coded"
    size=$(wc -c < "$scratch/coded")
    our=$(picoseconds "$ours" "$block" "$columns")
    our_line=$(cat "$scratch/line")
    their=0 same=-
    if [ -n "$theirs" ]; then
        their=$(picoseconds "$theirs" "$block" "$columns")
        if [ "$our_line" = "$(cat "$scratch/line")" ]; then same=yes; else same=no; fi
    fi
    awk -v block="$block" -v rate="$size" -v pixels=$((lines * columns)) -v our="$our" -v their="$their" -v same="$same" 'BEGIN {
        printf "%-6s %10.2f %20.1f %20s   %s\n", block, rate * 8 / pixels, 1e6 / our,
            their ? sprintf("%.1f", 1e6 / their) : "-", same }'
done

# the other way: lines coded, each by itself, and how many bytes they have
codes=
if gcc -O3 "$top/bench/coding.c" -o "$scratch/coding" -laec 2> "$scratch/gcc.log"; then codes="$scratch/coding"; fi
code="$top/crates/lr_bench/out/lr_bench"

# the least time of a pixel, in picoseconds: BITS BLOCK COLUMNS PROGRAM..
coding_picoseconds() {
    bits=$1 block=$2 columns=$3
    shift 3
    best=
    for _ in $(seq "$runs"); do
        start=$(date +%s%N)
        "$@" "$bits" "$block" "$columns" "$lines" "$rounds" < "$scratch/samples" > "$scratch/line"
        each=$((($(date +%s%N) - start) * 1000 / (rounds * lines * columns)))
        if [ -z "$best" ] || [ "$each" -lt "$best" ]; then best=$each; fi
    done
    echo "$best"
}

printf '\n%-5s %-6s %10s %26s %20s   %s\n' bits block 'bits/pixel' 'lr_rice_coder: Mpixel/s' 'libaec: Mpixel/s' 'bytes'
for bits in 8 10; do
    for block in 16 32; do
        columns=$((5500 / block * block))
        python3 "$top/reference/lines.py" samples "$bits" "$block" "$columns" "$lines" 1 > "$scratch/samples"
        size=$("$code" coded "$bits" "$block" "$columns" "$lines" 1 < "$scratch/samples" | wc -c)
        our=$(coding_picoseconds "$bits" "$block" "$columns" "$code" code)
        their=0 same=-
        if [ -n "$codes" ]; then
            their=$(coding_picoseconds "$bits" "$block" "$columns" "$codes")
            same="$size, libaec $(cat "$scratch/line")"
        fi
        awk -v bits="$bits" -v block="$block" -v rate="$size" -v pixels=$((lines * columns)) -v our="$our" -v their="$their" \
            -v same="$same" 'BEGIN {
            printf "%-5s %-6s %10.2f %26.1f %20s   %s\n", bits, block, rate * 8 / pixels, 1e6 / our,
                their ? sprintf("%.1f", 1e6 / their) : "-", same }'
    done
done
