# What the scripts of this folder share. They read it, so it is no script of its own.
# shellcheck shell=sh

# end STATUS: what a signal calls. A script with programs of its own to end has another one.
end() { leave "$1"; }

# leave STATUS: ends the script after a signal. (A further signal would end it before its folder is gone: within the
# trap for EXIT too.)
leave() {
    trap '' HUP INT TERM
    clear_away
    exit "$1"
}

# From here on a signal ends the script, with 128 and the signal's number.
obey() {
    trap 'end 129' HUP
    trap 'end 130' INT
    trap 'end 143' TERM
    [ -z "${kept-}" ] || end "$kept"
}

# From here on a signal is kept until `obey`, so that a program is started and noted, or not at all.
defer() {
    kept=
    trap 'kept=129' HUP
    trap 'kept=130' INT
    trap 'kept=143' TERM
}

# stop PID..: ends these programs of this script (or groups of them, -PID) and waits until they have. (A shell that
# starts a program loses a signal that comes before it is ready.)
stop() {
    for pid; do
        while kill -- "$pid" 2> /dev/null; do
            sleep 0.1
        done
    done
}

# Makes the folder $scratch. It goes when the script ends, by a signal too, and so does the file $part. (dash runs no
# trap for EXIT where a signal ends it.)
scratch_folder() {
    scratch=
    part=
    trap clear_away EXIT
    trap 'exit 141' PIPE
    defer
    scratch=$(mktemp -d) || exit 1
    obey
}

# (A program that is just ending may still write there while the folder goes, so it is tried once more.)
clear_away() {
    [ -z "${scratch-}" ] || rm -rf "$scratch" 2> /dev/null || { sleep 0.5 && rm -rf "$scratch"; }
    [ -z "${part-}" ] || rm -f "$part"
}

# path WORD: this path, so that no program takes it for an option
path() {
    case $1 in
    -*) printf '%s\n' "./$1" ;;
    *) printf '%s\n' "$1" ;;
    esac
}

# is_number WORD: whether it is a number of digits alone, without a zero in front
is_number() {
    case $1 in
    0) ;;
    '' | 0* | *[!0-9]*) return 1 ;;
    esac
}

say() { echo "${0##*/}: $1" >&2; }

# form OPTIONS: what the input is by these options of `receive`: symbols, blocks or frames
form() {
    case " $1 " in
    *" --input frames "* | *" --input=frames "*) echo frames ;;
    *" --input blocks "* | *" --input=blocks "*) echo blocks ;;
    *) echo symbols ;;
    esac
}

# for_decode OPTIONS: those of these options of `receive` that `decode` has too, which are all but --mend
for_decode() {
    kept='' skip=''
    for word in $1; do
        if [ -n "$skip" ]; then
            skip=
        else
            case $word in
            --mend) skip=yes ;;
            --mend=*) ;;
            *) kept="$kept $word" ;;
            esac
        fi
    done
    echo "$kept"
}

# reason STATUS: what a status says, in words
reason() {
    case $1 in
    1) echo "it can't be opened, or another process writes to it" ;;
    2) echo "invalid arguments" ;;
    3) echo "the input failed" ;;
    4) echo "the disk failed, or is full" ;;
    5) echo "the output couldn't be written" ;;
    6) echo "it is corrupt, or not a shelf: \`gomtasil salvage\` copies the files that it still has" ;;
    9) echo "out of memory" ;;
    10) echo "it is full" ;;
    126 | 127) echo "the program can't be run" ;;
    137) echo "it was killed (SIGKILL): perhaps the system ran out of memory" ;;
    1[3-9][0-9] | 12[89]) echo "signal $(($1 - 128)) ended it" ;;
    *) echo "docs/FORMATS.md says what that is" ;;
    esac
}
