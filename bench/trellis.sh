#!/bin/sh
# Frames and symbols decoded a second, on one core: lr_bench by its plain kernel, by lanes of 32 bits and by lanes of
# sixteen bits, beside the plain loop in C (gcc -O3) and in Rust (rustc -O; left out where it isn't installed). Each
# program draws 64 windows first, and goes through them again and again.
# Usage: bench/trellis.sh [RUNS] [WINDOWS]. The best of RUNS runs (5) is taken, each of WINDOWS windows (1000). The
# programs take turns, so that a load on the machine meets all of them. Needs rt and gcc.
set -e
. "$(dirname "$0")/../trials/lib.sh"
runs=${1:-5}
windows=${2:-1000}
scratch_folder
(cd "$top/crates/lr_bench" && rt run -- path 1 > "$scratch/build.log" 2>&1) || { cat "$scratch/build.log"; exit 1; }
cp "$top/crates/lr_bench/out/lr_bench" "$scratch/ours"
gcc -O3 "$top/bench/trellis.c" -o "$scratch/c"
names='c path lanes narrow'
if command -v rustc > /dev/null; then
    rustc -O "$top/bench/trellis.rs" -o "$scratch/rust"
    names='c rust path lanes narrow'
fi

# the line of a program over some windows: NAME WINDOWS
line() {
    case $1 in
        c | rust) "$scratch/$1" path "$2" ;;
        *) "$scratch/ours" "$1" "$2" ;;
    esac
}

# what stands for a name in the table
title() {
    case $1 in
        c) echo 'plain loop in C' ;;
        rust) echo 'plain loop in Rust' ;;
        path) echo 'plain kernel' ;;
        lanes) echo 'lanes of 32 bits' ;;
        narrow) echo 'lanes of sixteen bits' ;;
    esac
}

for _ in $(seq "$runs"); do
    for name in $names; do
        start=$(date +%s%N)
        line "$name" "$windows" > "$scratch/$name.line"
        each=$((($(date +%s%N) - start) / windows))
        best=$(cat "$scratch/$name.best" 2> /dev/null || echo "$each")
        if [ "$each" -le "$best" ]; then echo "$each" > "$scratch/$name.best"; fi
    done
done

printf '%-22s %10s %10s %12s %10s   %s\n' kernel 'us a frame' 'frames/s' 'Msymbols/s' 'times C' 'same bytes'
for name in $names; do
    same=no
    if [ "$(awk '{ print $NF }' "$scratch/$name.line")" = "$(awk '{ print $NF }' "$scratch/c.line")" ]; then same=yes; fi
    awk -v title="$(title "$name")" -v each="$(cat "$scratch/$name.best")" -v c="$(cat "$scratch/c.best")" -v same="$same" 'BEGIN {
        printf "%-22s %10.1f %10.0f %12.2f %10.2f   %s\n", title, each / 1000, 1e9 / each, 16332e3 / each, c / each, same }'
done
