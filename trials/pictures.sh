#!/bin/sh
# Pictures of many shapes, received, exported and put together: netpbm (Debian's package of that name; without it
# nothing is tried) says of each PGM which size and which greatest pixel it has, and reads its pixels, which are those
# that were sent.
# Usage: trials/pictures.sh. Needs rt and python3.
. "$(dirname "$0")/lib.sh"
needs pnmfile pamtable pnmsplit
scratch_folder
find_program
station=$LRITSTATION
draw="python3 $top/trials/pictures.py"
cd "$scratch" || exit 1
tried=0
failed=0

# reads W H MOST: netpbm reads picture.pgm as one of this size and greatest pixel, with the pixels in `values`
reads() {
    told=$(pnmfile picture.pgm | tr -s '\t ' ' ')
    pamtable picture.pgm | sed 's/  */ /g; s/^ //' > found
    tried=$((tried + 1))
    if [ "$told" != "picture.pgm: PGM raw, $1 by $2 maxval $3" ] || ! cmp -s found values; then
        echo "differs: $told, not $1 by $2 maxval $3, or its pixels"
        failed=$((failed + 1))
    fi
}

$draw frames > frames && $draw list > list || exit 1
"$station" shelf init 200000 > out || exit 1
"$station" shelf receive --input frames < frames > out || exit 1
while read -r number columns lines most what; do
    "$station" shelf export "$number" > picture.pgm || { echo "$number, $what: export ended with $?"; exit 1; }
    cat picture.pgm >> exported
    $draw values "$number" > values
    reads "$columns" "$lines" "$most"
done < list
count=$(wc -l < list)
# all of them by `render`, the same for each number of workers, and cut apart again
for workers in 1 2 8 64; do
    "$station" shelf render --workers $workers > rendered 2> told || { cat told; exit 1; }
    tried=$((tried + 1))
    if ! cmp -s rendered exported || [ "$(cat told)" != "rendered $count skipped 0" ]; then
        echo "render --workers $workers differs from what is exported, or says $(cat told)"
        failed=$((failed + 1))
    fi
done
pnmsplit rendered cut.%d || exit 1
while read -r number columns lines most what; do
    mv "cut.$number" picture.pgm || exit 1
    $draw values "$number" > values
    reads "$columns" "$lines" "$most"
done < list
"$station" shelf assemble 0 "$count" 300 1 > picture.pgm 2> told || { cat told; exit 1; }
$draw whole > values
reads 40 30 1023
[ "$(cat told)" = "assembled 3 skipped 0 uncovered 200" ] || { cat told; failed=$((failed + 1)); }
echo "tried $tried failed $failed"
[ "$failed" = 0 ]
