#!/bin/sh
# Appends a second on a shelf in a file, beside a plain loop of two writes and two syncs in C; the time that a shelf of
# 100,000 small files takes to load, from a file and from memory, where at most 50 ms are wanted; the memory that it
# keeps of a file, where at most 16 bytes are wanted, as the greatest resident memory of a process that loads 2,097,152
# files, less that of one that loads 1,048,576; and how often `verify` reads the disk for a small file, where at most 2
# reads are wanted.
# Usage: bench/shelf.sh [FOLDER [APPENDS [RUNS]]]. The folder is on the disk to be measured (the current one), with 100
# MB free; the two take turns, and the best of this many runs is taken (500 appends, 15 runs). Needs rt, gcc and
# python3.
set -e
. "$(dirname "$0")/../trials/lib.sh"
folder=${1:-.}
appends=${2:-500}
runs=${3:-15}
scratch=$(mktemp -d "$folder/shelf-bench.XXXXXX")
scratch=$(cd "$scratch" && pwd)
trap 'rm -rf "$scratch"' EXIT
(cd "$top/crates/lr_bench" && rt run -- shelf-memory 1 > "$scratch/build.log" 2>&1) || { cat "$scratch/build.log"; exit 1; }
ours="$top/crates/lr_bench/out/lr_bench"
gcc -O2 "$top/bench/shelf.c" -o "$scratch/plain"
cd "$scratch"

# the time of a run, in nanoseconds
nanoseconds() {
    start=$(date +%s%N)
    "$@" > line
    echo $(($(date +%s%N) - start))
}

# the lesser of two times, where the first may be none yet
least() {
    if [ -z "$1" ] || [ "$2" -lt "$1" ]; then echo "$2"; else echo "$1"; fi
}

shelf='' plain=''
for _ in $(seq "$runs"); do
    shelf=$(least "$shelf" "$(nanoseconds "$ours" shelf-file "$appends")")
    plain=$(least "$plain" "$(nanoseconds ./plain "$appends")")
done
awk -v n="$appends" -v shelf="$shelf" -v plain="$plain" 'BEGIN {
    printf "appends: shelf %.0f a second, plain loop %.0f a second, %.2f times its time\n", n * 1e9 / shelf, n * 1e9 / plain, shelf / plain }'

# puts a shelf of this many files into `shelf.bench`
make_shelf() {
    python3 "$top/bench/shelf_made.py" "$1"
}

make_shelf 100000
load=
for _ in $(seq "$runs"); do
    load=$(least "$load" "$(nanoseconds "$ours" shelf-load 1)")
done
awk -v load="$load" -v line="$(cat line)" 'BEGIN { printf "load: %s, %.1f ms\n", line, load / 1e6 }'

# one load from memory: what 201 loads take more than one, by 200
one='' more=''
for _ in $(seq "$runs"); do
    one=$(least "$one" "$(nanoseconds "$ours" shelf-loads 1)")
    more=$(least "$more" "$(nanoseconds "$ours" shelf-loads 201)")
done
awk -v one="$one" -v more="$more" 'BEGIN { printf "load from memory: 100000 files, %.1f ms\n", (more - one) / 200 / 1e6 }'

# the greatest resident memory, in KiB, of a process that loads this many files
resident() {
    make_shelf "$1"
    python3 "$top/bench/shelf_memory.py" "$ours"
}

less=$(resident 1048576)
greater=$(resident 2097152)
awk -v less="$less" -v greater="$greater" 'BEGIN { printf "memory: %.1f bytes a file\n", (greater - less) / 1024 }'

"$ours" shelf-verify 10000 > line
awk '{ printf "%s: %.2f reads a file\n", $0, $NF / $2 }' line
