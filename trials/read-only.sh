#!/bin/sh
# A shelf that may only be read: a file of another user, of mode 444, and a file system that is mounted for reading
# alone. Each command that only reads answers there what it answers where the shelf may be written. Each that writes
# ends with 1 and prints nothing, and so does any over a missing shelf in a folder that may not be written.
# Usage: trials/read-only.sh. Needs rt, and root with setpriv for the other user, and mkfs.ext4 and a loop device for
# the file system; what is missing is skipped, with a word. LRITSTATION names another program to try.
. "$(dirname "$0")/lib.sh"
needs setpriv
[ "$(id -u)" = 0 ] || nothing "this needs root"
scratch=$(mktemp -d) || exit 1
mounted=
trap '[ -z "$mounted" ] || umount "$mounted"; rm -rf "$scratch"' EXIT
find_program
mkdir "$scratch/shelves" && cp "$LRITSTATION" "$scratch/lritstation" || exit 1
chmod 755 "$scratch" "$scratch/shelves" "$scratch/lritstation"
program=$scratch/lritstation
shelf=$scratch/shelves/a.shelf
"$program" "$shelf" init 1000000 > /dev/null || exit 1
"$program" - make 1 64 0 --output frames | "$program" "$shelf" receive --input frames > /dev/null || exit 1
READERS="list verify show_0 extract_0 export_0 export_3 show_99 assemble_0_9_100_1 transmit_0_3_0 render_--workers_2"
WRITERS="receive discard_0 repack_0_8 init_1000000"
tried=0

# answers COMMAND FILE..: what the rest of the line, a way to run a program, makes of the command on this shelf, and its
# status
answers() {
    words=$(echo "$1" | tr _ ' ')
    file=$2
    shift 2
    # shellcheck disable=SC2086 # (they are several words)
    "$@" "$program" "$file" $words < /dev/null 2>&1
    echo "status $?"
}

# right FOLDER HOW..: each command over the shelf of this folder, run so
right() {
    folder=$1
    shift
    for command in $READERS; do
        answers "$command" "$shelf" env > "$scratch/wanted"
        answers "$command" "$folder/a.shelf" "$@" > "$scratch/said"
        cmp -s "$scratch/wanted" "$scratch/said" || { echo "trials/read-only.sh: $command over $folder"; diff "$scratch/wanted" "$scratch/said" | head -n 5; exit 1; }
        tried=$((tried + 1))
    done
    for command in $WRITERS; do
        [ "$(answers "$command" "$folder/a.shelf" "$@")" = "status 1" ] || { echo "trials/read-only.sh: $command over $folder isn't 1"; exit 1; }
        tried=$((tried + 1))
    done
    [ "$(answers list "$folder/none.shelf" "$@")" = "status 1" ] || { echo "trials/read-only.sh: a missing shelf in $folder isn't 1"; exit 1; }
    tried=$((tried + 1))
}

chmod 444 "$shelf"
chmod 555 "$scratch/shelves"
right "$scratch/shelves" setpriv --reuid=65534 --regid=65534 --clear-groups
echo "trials/read-only.sh: a shelf of another user, $tried calls right"

tried=0
mkdir "$scratch/disk"
if command -v mkfs.ext4 > /dev/null && truncate -s 8M "$scratch/image" && mkfs.ext4 -q -d "$scratch/shelves" "$scratch/image" 2> /dev/null &&
    mount -o loop,ro "$scratch/image" "$scratch/disk" 2> /dev/null; then
    mounted=$scratch/disk
    right "$scratch/disk" env
    echo "trials/read-only.sh: an ext4 that is mounted for reading alone, $tried calls right"
else
    echo "trials/read-only.sh: no ext4 could be mounted, so that was skipped"
fi
