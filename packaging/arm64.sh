#!/bin/sh
# Makes the program for arm64 (aarch64-unknown-linux-gnu: a Raspberry Pi 3 or newer with a system of 64 bits, and the
# like), as FOLDER/CRATE-arm64, and says its name: that of CRATE, which is lr_program or lritdemod. As ./lritstation
# does, it has rt ci prove a copy of the crates below, which keeps what it proved, proves the crate for this processor,
# and compiles and links what was proved. The C library for it comes from Debian's cross packages, and arm64/edge.c has
# what the kit lacks. The same commit and packages give the same bytes.
# Usage: packaging/arm64.sh [FOLDER [CRATE]], by default crates/CRATE/out, and lr_program. Needs rt, and on Debian 12 or
# 13 the packages that it names. No network.
# shellcheck disable=SC2154 # ($made, $kit and others are set in what is read)
top=$(cd -- "$(dirname -- "$0")/.." && pwd) || exit 1
called=arm64.sh
crate=${2:-lr_program}
root=src/main.rt
product=program
folder=${1:-$top/crates/$crate/out}
mkdir -p -- "$folder" || exit 1
program=$(cd -- "$folder" && pwd)/$crate || exit 1
# shellcheck source-path=SCRIPTDIR source=proving.sh
. "$top/packaging/proving.sh" || exit 1
# shellcheck source-path=SCRIPTDIR source=arm64/tools.sh
. "$top/packaging/arm64/tools.sh" || exit 1

fail() {
    echo "$called: $1" >&2
    exit 1
}

# Proves the crate for arm64, and compiles what was proved as $made/object.
make_object() {
    with_words "$scratch/toolchain" "$kit/bin/rattle" build --target "$target" -o "$made/object"
    if [ ! -f "$made/object" ] || ! grep -q "^logic=proved .* target=$target " "$scratch/log"; then
        cat "$scratch/log" >&2
        return 1
    fi
    echo "$called: $count of $count, $crate" >&2
    grep "^logic=proved .* target=$target " "$scratch/log" >&2
}

command -v rt > /dev/null || fail "rt is missing: it comes with the kit"
missing=$(missing_packages | xargs echo)
[ -z "$missing" ] || fail "the C library for arm64 is missing: apt-get install $missing"
scratch_folder
find_kit || fail "rt doc doesn't say where the kit is"
make_toolchain "$scratch/toolchain" || fail "the files of the C library can't be copied"
compile_c edge.c "$scratch/edge.o" || fail "arm64/edge.c can't be compiled"
prove_below && make_object || exit 1
link "$scratch/toolchain" "$scratch/linked" "$made/object" "$scratch/edge.o" ||
    fail "the program can't be linked"
cp "$scratch/linked" "$program-arm64.new" && mv "$program-arm64.new" "$program-arm64" || exit 1
echo "$program-arm64"
