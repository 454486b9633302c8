#!/bin/sh
# No file waits for noise, nor for a stream that stalls. Symbols of the test stream come through a FIFO, and then
# nothing more: the FIFO stays open, and the receiver waits. The files of all frames whose windows have come have to be
# printed and to stand on the shelf meanwhile, with any number of workers.
#
# - After 64 frames come silence and random symbols: all 63 files.
# - Frames 0 to 62 come and then 0, 11, 12 or 16,383 symbols more, all at once or in pieces of 16,384. From 12 on, which
#   are the last ones of frame 62's window, all 63 files; with 11 those of frames 0 to 61. With 0 the last read may be
#   filled to the last symbol, and then the last 2 W + 1 of these frames may wait with W workers. With 12, all at once,
#   this is tried fifty times for each number of workers.
# - Of frames and blocks nothing comes after the last one, and no file waits either.
#
# Usage: trials/waits.sh [TIMES]. A minute or two. Needs rt. With another program in LRITSTATION it is that one's.
. "$(dirname "$0")/lib.sh"
scratch=$(mktemp -d) || exit 1
receiver=
trap 'exec 3>&-; [ -z "$receiver" ] || kill "$receiver" 2> /dev/null; rm -rf "$scratch"' EXIT
find_program
station=$LRITSTATION
times=${1:-50}
frame=16384
cd "$scratch" || exit 1

# at_once, in_pieces: puts what stands in the file `given` into the FIFO
at_once() { cat given; }

in_pieces() {
    exec 4< given
    while dd bs="$frame" count=1 status=none <&4 > piece && [ -s piece ]; do
        cat piece
        sleep 0.005
    done
}

# waits LEAST MOST HOW FORM OPTIONS..: what stands in the file `given` comes in this way, and nothing more; this many
# files at least and at most are there meanwhile
waits() {
    least=$1 most=$2 how=$3 form=$4
    shift 4
    rm -f shelf input
    mkfifo input
    "$station" shelf init 1000000 > init.out || fail "init"
    "$station" shelf receive --input "$form" "$@" < input > out 2> err &
    receiver=$!
    exec 3> input
    "$how" >&3 &
    giver=$!
    tries=0
    until [ "$(grep -c '^shelved ' out)" -ge "$least" ] && ! kill -0 "$giver" 2> /dev/null; do
        tries=$((tries + 1))
        [ "$tries" -lt 500 ] || fail "$what, $how, $form $*: $(grep -c '^shelved ' out) of $least files after 20 seconds"
        sleep 0.04
    done
    kill -0 "$receiver" 2> /dev/null || fail "$what, $how, $form $*: it doesn't wait for more"
    "$station" shelf list > list || fail "$what, $how, $form $*: list"
    there=$(sed -n 's/^files \([0-9]*\) .*/\1/p' list)
    [ "$there" -ge "$least" ] && [ "$there" -le "$most" ] || fail "$what, $how, $form $*: $there files, and not $least to $most"
    exec 3>&-
    wait "$receiver" || fail "$what, $how, $form $*: it ended with $?: $(cat err)"
    receiver=
    tail -n 1 out | grep -q " files $all .* stop end\$" || fail "$what, $how, $form $*: $(tail -n 1 out)"
}

# files_in: how many files come of what stands in the file `given`, where it ends there
files_in() {
    rm -f shelf
    "$station" shelf init 1000000 > init.out || fail "init"
    "$station" shelf receive < given > out || fail "receive"
    sed -n 's/^symbols .* files \([0-9]*\) .*/\1/p' out
}

"$station" - make 1 64 0 > symbols || fail "make"
all=63
what=noise
{ cat symbols; head -c 65536 /dev/zero; head -c 262144 /dev/urandom; } > given
for workers in 1 2 8; do
    waits 63 63 at_once symbols --workers "$workers"
done

# files_of FRAMES: how many files come of this number of frames
files_of() {
    [ "$1" -gt 0 ] || { echo 0; return; }
    head -c $(($1 * frame)) symbols > given
    files_in
}

before=$(files_of 62)
[ "$before" -lt 63 ] || fail "frame 62 brings no file"
for more in 0 11 12 16383; do
    what="frames 0 to 62 and $more symbols"
    head -c $((63 * frame + more)) symbols > given
    all=$(files_in)
    for workers in 1 2 4 8 64; do
        least=63 most=63
        if [ "$more" -lt 12 ]; then least=$before most=$before; fi
        # The last read may have been filled to the last symbol here, and only here.
        if [ "$more" = 0 ] && [ "$workers" -gt 1 ]; then
            least=$(files_of $((62 - 2 * workers - 1)))
            head -c $((63 * frame)) symbols > given
        fi
        for how in at_once in_pieces; do
            waits "$least" "$most" "$how" symbols --workers "$workers"
            echo "$what, $how, $workers workers: $there files"
        done
    done
done
head -c $((63 * frame + 12)) symbols > given
what="frames 0 to 62 and 12 symbols"
for workers in 1 2 4 8 64; do
    for _ in $(seq "$times"); do
        waits 63 63 at_once symbols --workers "$workers"
    done
    echo "$what, $workers workers: 63 files $times times"
done

all=63
what=units
for form in blocks frames; do
    "$station" - make 1 64 0 --output "$form" > given || fail "make $form"
    waits 63 63 at_once "$form"
done
echo "trials/waits.sh: passed"
