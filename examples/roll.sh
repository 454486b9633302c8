#!/bin/sh
# Receives standard input onto a shelf for each day (UTC), FOLDER/YEAR-MONTH-DAY.shelf, over one connection; with
# --weeks for each week, FOLDER/YEAR-WEEK.shelf. Where one is full or corrupt, a next one is taken, with -2 at its
# name's end, up to the ninth.
# Usage: roll.sh [--weeks] FOLDER CAPACITY RATE [OPTIONS], with the symbols a second and the options of `receive`. The
# program is $LRITSTATION, or else `lritstation` on the path. It ends where the input does, with the status of `receive`
# or `init`, and says why where that isn't 0.
#
# A call of `receive` takes what comes until midnight, and the next call goes on with the symbol that follows. What
# straddles the change is lost: a frame, and of each channel and application the file that is under way. Where all nine
# shelves are full or corrupt, what comes until the next day is dropped; where the disk is full, what comes until there
# is room.
set -u
# shellcheck source-path=SCRIPTDIR source=common.sh
. "$(dirname -- "$0")/common.sh"
DAY=86400        # seconds
WEEK=604800      # seconds
MONDAY=345600    # seconds from the beginning of 1970 to its first Monday
EARLY=600        # seconds before midnight from which the next shelf is taken: clock and symbols never agree wholly
MOST_SHELVES=9   # of one name
FRAME=16384      # symbols; as frames these are 892 bytes, and as blocks 1,020
ROOM=${ROLL_ROOM:-65536} # KiB of the disk, below which it is full
DROPPED=60       # seconds between two looks for room
program=${LRITSTATION:-lritstation}
length=$DAY
begin=0
names=%Y-%m-%d
if [ "${1-}" = --weeks ]; then
    length=$WEEK
    begin=$MONDAY
    names=%G-%V
    shift
fi
if [ $# -lt 3 ] || ! is_number "$3" || [ "$3" = 0 ]; then
    echo "usage: roll.sh [--weeks] FOLDER CAPACITY RATE [OPTIONS]" >&2
    exit 2
fi
folder=$(path "$1")
capacity=$2
rate=$3
shift 3
# bytes a second, which `--symbols` counts
case $(form "$*") in
frames) bytes=$((rate * 892 / FRAME)) ;;
blocks) bytes=$((rate * 1020 / FRAME)) ;;
*) bytes=$rate ;;
esac
receiving=

# end STATUS: after a signal. (Where no reception writes its lines yet, what passes them on would wait for one for
# ever.)
end() {
    [ -z "$receiving" ] || stop "$receiving"
    [ ! -p "$scratch/lines" ] || exec 4<> "$scratch/lines"
    leave "$1"
}

# shelf_at PREFIX PLACE: PREFIX.shelf, PREFIX-2.shelf and so on
shelf_at() {
    case $2 in
    1) printf '%s\n' "$1.shelf" ;;
    *) printf '%s\n' "$1-$2.shelf" ;;
    esac
}

# last_place PREFIX: the place of the last shelf of this name, or 1 where there is none. The ones before were full.
last_place() {
    place=$MOST_SHELVES
    while [ "$place" -gt 1 ] && [ ! -e "$(shelf_at "$1" "$place")" ]; do
        place=$((place - 1))
    done
    echo "$place"
}

# made SHELF: makes the shelf where it is missing
made() {
    { said=$("$program" "$1" init "$capacity" 2>&1 >&4 < /dev/null); } 4>&1
    status=$?
    # (11: it is there already; whether it is corrupt, `receive` says)
    [ "$status" != 11 ] || status=0
    [ "$status" = 0 ] || say "init of $1 exited with $status: ${said:-$(reason "$status")}"
    return "$status"
}

# receive_onto PREFIX [OPTIONS]: receives descriptor 3 onto the last shelf of this name, and where that is full or
# corrupt onto a next one. It ends with the status of the last `receive`, or of `init`, and says it where it isn't 0.
receive_onto() {
    prefix=$1
    shift
    place=$(last_place "$prefix")
    while :; do
        shelf=$(shelf_at "$prefix" "$place")
        made "$shelf" || return
        defer
        "$program" "$shelf" receive "$@" <&3 3<&- &
        receiving=$!
        obey
        wait "$receiving"
        status=$?
        receiving=
        [ "$status" = 0 ] || say "receive onto $shelf exited with $status: $(reason "$status")"
        case $status in
        6 | 10) [ "$place" != "$MOST_SHELVES" ] || return "$status" ;;
        *) return "$status" ;;
        esac
        place=$((place + 1))
    done
}

# Passes the lines of `receive` on, each at once, and keeps the last one.
pass_on() {
    last=
    while IFS= read -r last; do
        printf '%s\n' "$last" || exit 5
        kept=$last
    done
    printf '%s\n' "${kept-}" > "$scratch/last"
}

# receive_on [OPTIONS]: receives for the rest of this day or week
receive_on() {
    now=$(($(date -u +%s) + EARLY))
    left=$((length - (now - begin) % length + EARLY)) # seconds
    : > "$scratch/last"
    pass_on < "$scratch/lines" &
    passing=$!
    receive_onto "$folder/$(date -u -d "@$now" "+$names")" --symbols $((bytes * left)) "$@" > "$scratch/lines"
    status=$?
    wait "$passing"
    return "$status"
}

# drop SECONDS: takes what comes in so long from the input. 1 where the input ends.
drop() {
    defer
    head -c $((bytes * $1)) <&3 3<&- | wc -c > "$scratch/dropped" &
    receiving=$!
    obey
    wait "$receiving"
    receiving=
    [ "$(cat "$scratch/dropped")" -ge $((bytes * $1)) ]
}

has_room() { [ "$(df -Pk "$folder" | awk 'NR == 2 { print $4 }')" -ge "$ROOM" ]; }

scratch_folder
exec 3<&0
mkfifo "$scratch/lines" || exit 1
while :; do
    receive_on "$@"
    status=$?
    case $status in
    0)
        # (any other last line says that the input ended)
        case $(cat "$scratch/last") in
        *" stop limit"*) ;;
        *) exit 0 ;;
        esac
        ;;
    4)
        ! has_room || exit 4
        say "the disk is full: all input is dropped until $ROOM KiB are free"
        until has_room; do
            drop "$DROPPED" || exit 0
        done
        ;;
    6 | 10)
        say "all shelves of this day or week are full or corrupt: all input is dropped until the next one"
        left=$((now - EARLY + left - $(date -u +%s)))
        [ "$left" -le 0 ] || drop "$left" || exit 0
        ;;
    *) exit "$status" ;;
    esac
done
