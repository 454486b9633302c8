#!/bin/sh
# Makes the demodulator for x86-64, as FOLDER/lritdemod, and says its name; packaging/arm64.sh makes the one for arm64.
# As ./lritstation does, it has rt ci prove a copy of the crate below, which keeps what it proved, proves lritdemod, and
# compiles and links what was proved. Where it stands there already and no source is newer, nothing is made.
# Usage: packaging/demodulator.sh [FOLDER], by default crates/lritdemod/out. Needs rt.
# shellcheck disable=SC2154 # ($made, $kit and others are set in what is read)
top=$(cd -- "$(dirname -- "$0")/.." && pwd) || exit 1
called=demodulator.sh
crate=lritdemod
root=src/main.rt
product=demodulator
folder=${1:-$top/crates/lritdemod/out}
mkdir -p -- "$folder" || exit 1
program=$(cd -- "$folder" && pwd)/lritdemod || exit 1
# shellcheck source-path=SCRIPTDIR source=proving.sh
. "$top/packaging/proving.sh" || exit 1

fail() {
    echo "$called: $1" >&2
    exit 1
}

# Proves lritdemod, and compiles what was proved as $made/object.
make_object() {
    with_words "$kit/toolchain" "$kit/bin/rattle" build -o "$made/object"
    if [ ! -f "$made/object" ] || ! grep -q '^logic=proved ' "$scratch/log"; then
        cat "$scratch/log" >&2
        return 1
    fi
    echo "$called: $count of $count, lritdemod" >&2
}

if [ -x "$program" ]; then
    newer=$(find "$top/crates/lr_demod/src" "$top/crates/lritdemod/src" -name '*.rt' -newer "$program" -print -quit)
    [ -n "$newer" ] || { echo "$program" && exit; }
fi
command -v rt > /dev/null || fail "rt is missing: it comes with the kit"
scratch_folder
find_kit || fail "rt doc doesn't say where the kit is"
prove_below && make_object || exit 1
"$kit/bin/rattle-link" --target x86_64-unknown-linux-gnu --toolchain "$kit/toolchain" -o "$scratch/linked" \
    "$made/object" "$kit/c/libos_c.a" "$kit/c/liblibc_c.a" || fail "the program can't be linked"
cp "$scratch/linked" "$program.new" && mv "$program.new" "$program" || exit 1
echo "$program"
