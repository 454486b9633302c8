#!/bin/sh
# The library for C: a small program, library.c, runs commands by it over bytes in memory and over devices of its own,
# and the built program runs the same over files. Status, what is printed, the line on why it ended and the bytes of the
# shelf are the same; so they are where the rooms filled up at first. The same for arm64, under qemu. Each library is
# made twice, with the same bytes. Then the tests of the tool's module for it.
# Usage: trials/library.sh. Needs rt, python3, and a C compiler; for arm64 qemu, gcc for arm64 and the packages that
# packaging/library.sh names, and says so where one is missing. $LRITSTATION may name the built program, and $LIBRARY
# and $LIBRARY_ARM64 the folders of libraries that packaging/library.sh made, which are then not made.
. "$(dirname "$0")/lib.sh"
needs python3 cc
scratch_folder

find_program

# made ARCHITECTURE: makes its library as $scratch/ARCHITECTURE, twice
made() {
    for folder in "$scratch/$1" "$scratch/again"; do
        "$top/packaging/library.sh" "$folder" "$1" > "$scratch/build.log" 2>&1 || fail "$(cat "$scratch/build.log")"
    done
    diff -r "$scratch/$1" "$scratch/again" > /dev/null || fail "made again, the library for $1 has other bytes"
}

# programs NAME FOLDER COMPILER: library.c over the library of this folder, as NAME-loads and NAME-holds: with the one
# that is loaded, and with the one that is linked
programs() {
    set -- "$@" -std=c11 -O1 -Wall -Wextra -Werror "-I$2" "$top/trials/library.c"
    name=$1 folder=$2
    shift 2
    if ! "$@" -o "$scratch/$name-loads" "-L$folder" "-Wl,-rpath,$folder" -llritstation ||
        ! "$@" -o "$scratch/$name-holds" "$folder/liblritstation.a"; then
        fail "library.c can't be compiled for $name"
    fi
    ways="$ways $name-loads $name-holds"
}

# loads FOLDER NM: the library of this folder that is loaded shows its four calls alone, and needs nothing of the C
# library that came after glibc 2.34
loads() {
    shown=$("$2" -D --defined-only "$1/liblritstation.so.1" | awk '{ print $3 }' | xargs echo)
    [ "$shown" = "lr_run lr_run_over lr_version lr_words" ] || fail "$1/liblritstation.so.1 shows $shown"
    newest=$({ echo GLIBC_2.34 && grep -ao 'GLIBC_2\.[0-9]*' "$1/liblritstation.so.1"; } | sort -V | tail -n 1)
    [ "$newest" = GLIBC_2.34 ] || fail "$1/liblritstation.so.1 needs $newest"
}

# What is missing for arm64.
missing_for_arm64() {
    # shellcheck source=/dev/null
    . "$top/packaging/arm64/tools.sh"
    command -v qemu-aarch64-static > /dev/null || command -v qemu-aarch64 > /dev/null || echo qemu-user
    command -v aarch64-linux-gnu-gcc > /dev/null || echo gcc-aarch64-linux-gnu
    missing_packages
}

# Programs for arm64 that qemu starts.
programs_for_arm64() {
    qemu=$(command -v qemu-aarch64-static || command -v qemu-aarch64)
    loads "$LIBRARY_ARM64" aarch64-linux-gnu-nm
    programs arm64 "$LIBRARY_ARM64" aarch64-linux-gnu-gcc
    for name in arm64-loads arm64-holds; do
        mv "$scratch/$name" "$scratch/$name.program"
        printf '#!/bin/sh\nexec "%s" -L /usr/aarch64-linux-gnu "%s" "$@"\n' "$qemu" "$scratch/$name.program" \
            > "$scratch/$name"
        chmod +x "$scratch/$name"
    done
}

ways='' skipped=''
if [ -z "${LIBRARY-}" ]; then
    made amd64
    LIBRARY=$scratch/amd64
fi
loads "$LIBRARY" nm
programs amd64 "$LIBRARY" cc
missing=$(missing_for_arm64 | xargs echo)
if [ -n "$missing" ]; then
    skipped="; not tried for arm64 (apt-get install $missing)"
else
    if [ -z "${LIBRARY_ARM64-}" ]; then
        made arm64
        LIBRARY_ARM64=$scratch/arm64
    fi
    programs_for_arm64
fi
cd "$scratch" || exit 1
commands=0

# same INPUT WORDS: each way runs these words over its own copy of the shelf, and all comes out the same
same() {
    input=$1
    shift
    cp shelf theirs
    "$LRITSTATION" theirs "$@" < "$input" > out 2> err
    wanted=$?
    for way in $ways; do
        for devices in bytes devices; do
            cp shelf ours
            "./$way" $devices ours "$input" "$@" > out-ours 2> err-ours
            status=$?
            [ "$status" = "$wanted" ] || fail "$way, $devices: $* ended with $status, not $wanted"
            cmp -s out out-ours || fail "$way, $devices: $* put other bytes"
            cmp -s err err-ours || fail "$way, $devices: $* told '$(cat err-ours)', not '$(cat err)'"
            cmp -s theirs ours || fail "$way, $devices: $* left another shelf"
        done
    done
    commands=$((commands + 1))
    mv theirs shelf
}

: > none
python3 -m gomtasil sample > frames || fail "the sample wasn't drawn"
: > shelf
same none list
same none init 1000000
same none init 1000000
same frames receive --input frames
for command in list verify render; do same none $command; done
for number in 0 1 2 3 4 5 6; do
    for command in show extract export; do same none $command $number; done
done
same none assemble 0 6 313 1
same none repack 0 16
same none discard 1
same none list
same none nothing
same none show
same none transmit 0 6 8 --line nrz-m --g2 plain
"$LRITSTATION" shelf transmit 0 6 8 --line nrz-m --g2 plain > recording || fail "transmit"
same recording decode --line nrz-m --g2 plain
same recording receive --line nrz-m --g2 plain
python3 "$top/trials/redecode.py" --noise -1.6 < recording > noisy || fail "redecode.py"
same noisy decode --line nrz-m --g2 plain --passes 4
head -c 3000000 recording > part
same part receive --line nrz-m --g2 plain
same none make 1 64 0
same none trial 1 64 0
same frames frames
same frames packets
printf 'no shelf' > shelf
same none list
same none init 1000000
export LRITSTATION LRITSTATION_LIBRARY="$LIBRARY" PYTHONDONTWRITEBYTECODE=1
(cd "$top/tools" && python3 -m unittest tests.test_embedded) > "$scratch/said" 2>&1 ||
    fail "$(tail -n 30 "$scratch/said")"
tests=$(sed -n 's/^Ran \([0-9]*\) tests.*/\1/p' "$scratch/said")
echo "trials/library.sh: $commands commands, each by the program, and over bytes and over devices by$ways;" \
    "$tests tests from within Python$skipped"
