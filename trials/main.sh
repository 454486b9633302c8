#!/bin/sh
# The program on real paths: which status it ends with, what it prints, and what is then there. The run ends with the
# first case that isn't as wanted. Cases that need a tool which is missing are skipped, with a word.
# Usage: trials/main.sh. Needs rt; python3 for one case, and root with losetup for another.
. "$(dirname "$0")/lib.sh"
scratch_folder
find_program
station=$LRITSTATION
cd "$scratch" || exit 1
cases=0 skipped=0

# ends STATUS WORDS: the program, on input `in`, ends with this status; what it prints is in `out` and `err`
ends() {
    wanted=$1
    shift
    "$station" "$@" < in > out 2> err
    status=$?
    [ "$status" = "$wanted" ] || fail "$* ended with $status, not $wanted: $(cat err)"
    cases=$((cases + 1))
}

# prints TEXT: these are the bytes in `out`
prints() { printf '%b' "$1" > wanted; cmp -s out wanted || fail "printed '$(cat out)', not '$(cat wanted)'"; }

# says TEXT: the same of `err`
says() { printf '%b' "$1" > wanted; cmp -s err wanted || fail "said '$(cat err)', not '$(cat wanted)'"; }

: > in

# a path that can't be opened, no word, and a word that isn't UTF-8
ends 1 nowhere/shelf verify; prints ''; says ''
mkdir folder
ends 1 folder verify; prints ''; says ''
ends 2; prints ''; says 'station: usage: SHELF COMMAND [WORDS]\n'
ends 2 shelf; says 'station: usage: SHELF COMMAND [WORDS]\n'
ends 2 shelf nothing; says 'station: usage: SHELF COMMAND [WORDS]\n'
if command -v python3 > /dev/null; then
    station=$station python3 -c \
        'import os; os.execv(os.environ["station"], [b"lritstation", b"shelf", b"\xff"])' 2> err
    status=$?
    [ "$status" = 2 ] || fail "a word that isn't UTF-8 ended with $status"
    says 'station: usage: SHELF COMMAND [WORDS]\n'
else
    echo "python3 is missing: no word that isn't UTF-8 was tried"
    skipped=$((skipped + 1))
fi

# a shelf is made, and is there after further starts
ends 0 shelf init 65536; prints 'shelf capacity 65536\n'
ends 11 shelf init 65536; prints ''; says 'station: not empty, length 20\n'
ends 0 shelf verify; prints ''
"$station" - make 1 64 0 > stream || fail "make"
cp stream in
ends 0 shelf receive
[ "$(tail -1 out)" = "symbols 1048576 frames 64 restored 64 lost 0 packets 452 files 63 left 0 stop end" ] ||
    fail "receive"
: > in
ends 0 shelf verify
[ "$(wc -l < out)" = 63 ] || fail "verify has $(wc -l < out) lines"
ends 0 shelf extract 7
[ "$(wc -c < out)" = 4121 ] || fail "extract has $(wc -c < out) bytes"
for workers in 1 2 8 64; do
    ends 0 shelf render --workers $workers; says 'rendered 6 skipped 57\n'
    [ "$(wc -c < out)" = 24654 ] || fail "render has $(wc -c < out) bytes"
done
ends 7 shelf extract 63; says 'station: no such file, count 63\n'
ends 0 shelf discard 7; prints 'discarded 7\n'
ends 13 shelf extract 7; says 'station: discarded\n'
ends 13 shelf discard 7; says 'station: discarded\n'
size=$(wc -c < shelf)

# the capacity, a wrong checksum, no shelf
ends 0 small init 20
cp stream in
ends 10 small receive; : > in
ends 0 small verify; prints ''
cp shelf damaged
printf 'X' | dd of=damaged bs=1 seek=100 conv=notrunc 2> dd.log
ends 12 damaged extract 0; says 'station: bad checksum\n'
ends 12 damaged verify
printf 'no shelf stands here, and more than twenty bytes' > other
ends 6 other verify; says 'station: not a shelf at 0\n'
ends 11 other init 100

# an input that fails, an output that fails, a disk that fails
"$station" small receive < folder > out 2> err; status=$?
[ "$status" = 3 ] || fail "a folder as input ended with $status"
if [ -w /dev/full ]; then
    "$station" shelf verify < in > /dev/full 2> err; status=$?
    [ "$status" = 5 ] || fail "a full output ended with $status"
else
    echo "/dev/full is missing: no full output was tried"
    skipped=$((skipped + 1))
fi
"$station" shelf verify < in >&- 2> err; status=$?
[ "$status" = 5 ] || fail "a closed output ended with $status"
(trap '' XFSZ; ulimit -f 1
    "$station" limited init 65536 > out 2> err && "$station" limited receive < stream > out 2> err)
status=$?
[ "$status" = 4 ] || fail "a file that may not grow ended with $status"
says 'station: disk failed\n'
lines=$(grep -c '^shelved' out)
"$station" limited verify < in > out 2> err || fail "the shelf that could not grow"
[ "$(wc -l < out)" -ge "$lines" ] || fail "of $lines files $(wc -l < out) are there"

# two that write: the second one isn't run, and nothing changes; one that reads is run
mkfifo hold
"$station" shelf receive < hold > held.out 2> held.err &
holder=$!
exec 3> hold
sleep 1
ends 1 shelf receive; prints ''; says ''
ends 1 shelf init 100
ends 1 shelf discard 0
ends 1 shelf trial 1 1 0
ends 1 shelf downlinks
ends 1 shelf repack 0 8
ends 0 shelf verify
exec 3>&-
wait "$holder" || fail "the process that held the shelf"
[ "$(wc -c < shelf)" = "$size" ] || fail "the shelf changed from $size to $(wc -c < shelf) bytes"

# a device keeps what stands on it
if [ "$(id -u)" = 0 ] && command -v losetup > /dev/null && head -c 1048576 /dev/zero > image \
    && device=$(losetup --find --show image 2> /dev/null); then
    "$station" "$device" init 1000 < in > out 2> err; status=$?
    losetup --detach "$device"
    [ "$status" = 11 ] || fail "init on a device ended with $status"
    head -c 1048576 /dev/zero | cmp -s - image || fail "init wrote onto a device"
else
    echo "no loop device can be had here: no device was tried"
    skipped=$((skipped + 1))
fi
# a bundle of as many bytes as one can have, and of one more
"$station" many init 1000 > out || fail "init"
printf '\001\000\000\000\000\017\377\377\367' > in
head -c 268435447 /dev/zero >> in
ends 0 many downlinks; prints 'downlinks 1 symbols 268435447 files 0\n'; says ''
printf '\0' >> in
ends 14 many downlinks; prints ''; says 'station: bad bundle: too-long\n'
: > in

echo "trials/main.sh: $cases cases and more are as wanted, $skipped skipped"
