#!/bin/sh
# Processor time, user and system, of `decode` and of VOLK's Viterbi decoder with libfec's Reed-Solomon decoder over the
# same symbols: clean frames of the test stream. These two are told where each frame begins, and print nothing but the
# frames, which have to be those of `make`. `decode` of the program for x86-64-v3 has a line of its own, where it is
# built and the processor has what it needs. Usage: bench/volk.sh [RUNS [FRAMES]]. They take turns, and the best of RUNS
# runs (5) of FRAMES frames (8192) is taken. Needs rt, gcc and Debian's packages libvolk2-dev and libfec-dev.
set -e
. "$(dirname "$0")/../trials/lib.sh"
runs=${1:-5}
frames=${2:-8192}
scratch_folder
if ! gcc -O3 "$top/bench/volk.c" -o "$scratch/volk" -lvolk -lfec 2> /dev/null; then
    echo "bench/volk.sh: skipped, as libvolk2-dev, libfec-dev or gcc is missing"
    exit 0
fi
find_program
program=$LRITSTATION
programs=$program
if [ -x "$program-v3" ] && /lib64/ld-linux-x86-64.so.2 --help | grep -q '^ *x86-64-v3 (supported'; then
    programs="$program $program-v3"
fi
cd "$scratch"
"$program" - make 1 "$frames" 0 > symbols
"$program" - make 1 "$frames" 0 --output frames > frames

# took NAME WORDS: the processor time of a command over the symbols, in seconds, is a line of the file NAME
took() {
    name=$1
    shift
    bash -c 'TIMEFORMAT="%U %S"; time "$@" < symbols > out' bash "$@" 2> said
    awk '{ print $1 + $2 }' said >> "$name"
}

for _ in $(seq "$runs"); do
    took volk-times ./volk "$frames" 1
    cmp out frames
    for each in $programs; do
        took "${each##*/}-times" "$each" - decode
    done
done
printf '%-16s %12s %14s\n' program 'us a frame' "times VOLK's"
theirs=$(sort -n volk-times | head -n 1)
for name in lr_program lr_program-v3 volk; do
    [ ! -f $name-times ] || awk -v name="$name" -v ours="$(sort -n $name-times | head -n 1)" -v theirs="$theirs" -v frames="$frames" \
        'BEGIN { printf "%-16s %12.1f %14.2f\n", name, ours * 1e6 / frames, ours / theirs }'
done
