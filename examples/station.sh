#!/bin/sh
# A station at work: receives what a command brings onto a shelf for each day, and keeps the quality, in FOLDER/quality
# and FOLDER/minutes.
# Usage: station.sh FOLDER, with these in the environment (station.conf is an example):
#   SOURCE    the command that writes soft symbols, blocks or frames to its standard output, as the shell takes it
#   RATE      symbols a second
#   CAPACITY  bytes that a shelf may have
#   OPTIONS   --line, --g2, --input, --passes and --mend of `receive`
# The program is $LRITSTATION, or else `lritstation` on the path, and the quality is told by `gomtasil`. Each file and
# each minute has a line, on standard output and on standard error. It ends when the reception does, with its status,
# and ends the command then; with 2 where the command can't be run. Where the quality side ends, or can't write, the
# reception goes on, and that side is started again.
set -u
here=$(dirname -- "$0")
# shellcheck source-path=SCRIPTDIR source=common.sh
. "$here/common.sh"
program=${LRITSTATION:-lritstation}

# (in a checkout it stands beside this folder)
tool() {
    if [ -n "${GOMTASIL-}" ] || command -v gomtasil > /dev/null; then
        "${GOMTASIL:-gomtasil}" "$@"
    else
        "$here/../tools/bin/gomtasil" "$@"
    fi
}

# lines: what the program says of each frame of standard input. (Of frames the code is gone, and their counters are
# left.)
lines() {
    if [ "$(form "${OPTIONS-}")" = frames ]; then
        "$program" - frames
    else
        # shellcheck disable=SC2046 # (they are several words)
        "$program" - decode $(for_decode "${OPTIONS-}")
    fi
}

# drop: takes what comes to the quality side in some ten seconds. 1 where it ends.
drop() {
    case $(form "${OPTIONS-}") in
    frames) count=$((RATE * 10 * 892 / 16384)) ;;
    blocks) count=$((RATE * 10 * 1020 / 16384)) ;;
    *) count=$((RATE * 10)) ;;
    esac
    [ "$count" -gt 0 ] || count=1
    [ "$(head -c "$count" | wc -c)" = "$count" ]
}

# quality_of FOLDER: tells of the quality of standard input, and begins again where one of the programs for it ended.
# (Of frames and blocks it then has to be found where they begin.)
quality_of() {
    lines 2> /dev/null | tool quality --rate "$RATE" --keep "$1" >&2
    while drop; do
        say "the quality side has exited and is started again"
        tool align "$(form "${OPTIONS-}")" 2> /dev/null | lines 2> /dev/null |
            tool quality --rate "$RATE" --keep "$1" >&2
    done
}

# feed FOLDER SCRATCH: what SOURCE brings to standard output, and by the FIFO there its quality to the folder. This runs
# in a session of its own, so that all of it can be ended together.
feed() {
    quality_of "$1" < "$2/copy" &
    # (-p: it goes on with one side where the other one ends)
    {
        sh -c "$SOURCE" < /dev/null
        echo $? > "$2/source"
    } | tee -p "$2/copy"
    exec > /dev/null
    wait
}

# end STATUS: ends what feeds, and the reception
end() {
    [ -z "$receiving" ] || stop "$receiving"
    # (the latter before it has a session)
    [ -z "$feeding" ] || stop "$feeding" "-$feeding"
    leave "$1"
}

# told STATUS: how SOURCE ended, where that isn't 0; this status, or 2 where SOURCE can't be run
told() {
    ended=0
    [ ! -s "$scratch/source" ] || read -r ended < "$scratch/source"
    [ "$ended" = 0 ] || say "SOURCE exited with $ended: $SOURCE"
    case "$1 $ended" in
    "0 126" | "0 127") return 2 ;;
    esac
    return "$1"
}

if [ "${1-}" = --feed ]; then
    feed "$2" "$3"
    exit
fi
if [ $# != 1 ] || [ -z "${SOURCE-}" ] || [ -z "${RATE-}" ] || [ -z "${CAPACITY-}" ]; then
    echo "usage: station.sh FOLDER, with SOURCE, RATE, CAPACITY and OPTIONS in the environment" >&2
    exit 2
fi
folder=$(path "${1%/}")
feeding=
receiving=
scratch_folder
mkfifo "$scratch/copy" "$scratch/symbols" || exit 1
defer
setsid "$here/${0##*/}" --feed "$folder" "$scratch" > "$scratch/symbols" &
feeding=$!
# shellcheck disable=SC2086
"$here/roll.sh" "$folder" "$CAPACITY" "$RATE" ${OPTIONS-} < "$scratch/symbols" &
receiving=$!
obey
wait "$receiving"
status=$?
receiving=
# (0: the symbols have ended, and their quality is still to be told)
[ "$status" != 0 ] || wait "$feeding"
told "$status"
end "$?"
