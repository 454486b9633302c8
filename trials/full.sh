#!/bin/sh
# A disk that fills up, and an output that fails. `receive` runs with limits on the size of the shelf's file, from a few
# blocks on, and on a small file system in memory where one can be mounted (root); each run must end with 4, or with 0
# once all fits, each file whose line was printed must be there, and the shelf must go on once there is room. `receive`,
# `list`, `show`, `verify` and `extract` run with a full and a closed output and with a reader that leaves, and must end
# with 5, with the shelf's bytes unchanged, or of `receive` with the acknowledged files on it. It takes some ten
# seconds, or as the disk syncs. What needs a tool that is missing is skipped, with a word.
# Usage: trials/full.sh. Needs rt.
. "$(dirname "$0")/lib.sh"
scratch=$(mktemp -d) || exit 1
mounted=
trap '[ -z "$mounted" ] || umount "$mounted"; rm -rf "$scratch"' EXIT
find_program
station=$LRITSTATION
cd "$scratch" || exit 1

"$station" - make 1 64 0 > stream || fail "make"

# holds SHELF: the files whose lines are in `out` are on this shelf, at most one more is, and all of them are good
holds() {
    lines=$(grep -c '^shelved' out)
    "$station" "$1" verify > verified 2> err || fail "verify ended with $?"
    count=$(wc -l < verified)
    [ "$(grep -c ' ok$' verified)" = "$count" ] || fail "a file is bad"
    [ "$count" -ge "$lines" ] && [ "$count" -le $((lines + 1)) ] || fail "$lines lines, and $count files"
    cases=$((cases + 1))
}

# goes_on SHELF: all files are received after those that are there
goes_on() {
    count=$("$station" "$1" verify | wc -l)
    "$station" "$1" receive < stream > out 2> err || fail "the shelf doesn't go on: $(cat err)"
    [ "$("$station" "$1" verify | wc -l)" = $((count + 63)) ] || fail "the shelf that went on"
}

# a limit on the file's size, in blocks of 512 bytes
for blocks in 1 2 3 4 6 10 20 40 60 80 81 82 100; do
    rm -f limited
    (trap '' XFSZ; ulimit -f "$blocks"
    "$station" limited init 1000000 > out 2> err && "$station" limited receive < stream > out 2> err)
    status=$?
    size=$(wc -c < limited)
    if [ "$status" = 0 ]; then
        [ "$size" = 41666 ] || fail "with $blocks blocks it ended with 0, at $size bytes"
    else
        [ "$status" = 4 ] && [ "$(cat err)" = "station: disk failed" ] || fail "with $blocks blocks it ended with $status: $(cat err)"
    fi
    holds limited
    goes_on limited
done

# a file system that fills up
mkdir small
if [ "$(id -u)" = 0 ] && mount -t tmpfs -o size=24k none small 2> mount.log; then
    mounted=$scratch/small
    "$station" small/shelf init 1000000 > out 2> err || fail "init on a small file system"
    "$station" small/shelf receive < stream > out 2> err
    status=$?
    [ "$status" = 4 ] && [ "$(cat err)" = "station: disk failed" ] || fail "a full file system ended with $status: $(cat err)"
    holds small/shelf
    cp small/shelf grown
    goes_on grown
else
    echo "no file system can be mounted here: none was filled up"
fi

# a full and a closed output, and a reader that leaves
"$station" shelf init 1000000 > out || fail "init"
"$station" shelf receive < stream > out || fail "receive"
cp shelf before
# the descriptor 4 is a pipe whose reader has left
mkfifo left
exec 3<> left 4> left 3>&-
# outputs INPUT WORDS: these words end with 5 wherever the output fails
outputs() {
    input=$1
    shift
    if [ -w /dev/full ]; then
        "$station" shelf "$@" < "$input" > /dev/full 2> err
        status=$?
        [ "$status" = 5 ] && [ "$(cat err)" = "station: output failed" ] || fail "$1 onto a full output ended with $status"
        cases=$((cases + 1))
    fi
    "$station" shelf "$@" < "$input" >&- 2> err
    status=$?
    [ "$status" = 5 ] && [ "$(cat err)" = "station: output failed" ] || fail "$1 without an output ended with $status"
    (trap '' PIPE; exec "$station" shelf "$@" < "$input" >&4 2> err)
    status=$?
    [ "$status" = 5 ] && [ "$(cat err)" = "station: output failed" ] || fail "$1 without a reader ended with $status"
    cases=$((cases + 2))
}
[ -w /dev/full ] || echo "/dev/full is missing: no full output was tried"
for words in list verify "show 7" "extract 7"; do
    # shellcheck disable=SC2086 # (they are several)
    outputs /dev/null $words
    cmp -s shelf before || fail "$words changed the shelf"
done
outputs stream receive
: > out
"$station" shelf verify > verified || fail "verify after receive"
[ "$(wc -l < verified)" -ge 63 ] && [ "$(grep -c ' ok$' verified)" = "$(wc -l < verified)" ] || fail "the shelf after receive"
echo "trials/full.sh: $cases cases are as wanted"
