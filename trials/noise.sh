#!/bin/sh
# A long run of noise at constant memory: `receive` reads this many random symbols, in which some markers are found by
# chance and their frames are lost. The resident memory of the process is read each second; from the fifth second on it
# must not grow by more than 64 KiB. The last line must say that all symbols were read and that no frame was restored,
# and the shelf must stay empty.
# Usage: trials/noise.sh [SYMBOLS] (86,400,000,000, which are 24 hours at a million symbols a second). It takes some ten
# seconds for each thousand million symbols, or as long as /dev/urandom takes for them. Needs rt, and Linux for /proc.
. "$(dirname "$0")/lib.sh"
symbols=${1:-86400000000}
{ [ -r /proc/self/status ] && [ -r /dev/urandom ]; } || nothing "/proc or /dev/urandom is missing"
scratch_folder
find_program
station=$LRITSTATION
cd "$scratch" || exit 1

"$station" shelf init 1000000 > out || fail "init"
mkfifo noise
"$station" shelf receive < noise > out 2> err &
receiver=$!
head -c "$symbols" /dev/urandom > noise 2> noise.log &

# the resident memory of the receiver, in KiB, each second until it ends
start=$(date +%s)
: > resident
while kill -0 "$receiver" 2> gone.log; do
    awk '/^VmRSS/ { print $2 }' "/proc/$receiver/status" >> resident 2> gone.log
    sleep 1
done
wait "$receiver"
status=$?
awk -v seconds=$(($(date +%s) - start)) '
    NR >= 5 { if (!first) first = $1; if ($1 > most) most = $1 }
    END { printf "%d seconds, resident memory %d KiB in the fifth second, %d KiB at most from then on\n", seconds, first, most
          exit most > first + 64 }' resident || fail "its memory grew"
cat out
[ "$status" = 0 ] || fail "it ended with $status: $(cat err)"
grep -Eq "^symbols $symbols frames ([0-9]+) restored 0 lost \\1 packets 0 files 0 left 0 stop end\$" out || fail "the last line"
[ "$(wc -c < shelf)" = 20 ] || fail "something is on the shelf"
echo "trials/noise.sh: passed"
