#!/bin/sh
# Makes the station as a library for C, and for all that can call C: FOLDER/liblritstation.a and .so.1 with the link
# .so, lritstation.h and lritstation.pc, and says the folder. As ./lritstation does, it has rt ci prove a copy of the
# crates below, which keeps what it proved, and proves lr_embed (lr_run) and lr_live, which stands outside of crates/
# and which devices.c leads to functions of the caller (lr_run_over). What was proved is compiled and linked by the
# kit's tools. The archive has what it needs of the kit in it. The same commit gives the same bytes; for arm64 the same
# commit and packages do.
# Usage: packaging/library.sh [FOLDER [ARCHITECTURE]], amd64 by default, and by default the folder out/library; arm64 is
# the other one, with the folder out/library-arm64. Needs rt and glibc, and for arm64, on Debian 12 or 13, the packages
# that it names. No network.
# shellcheck disable=SC2034,SC2154 # (some are set in what is read, and some used there)
top=$(cd -- "$(dirname -- "$0")/.." && pwd) || exit 1
called=library.sh
crate=lr_embed
root=src/lib.rt
product=library

fail() {
    echo "$called: $1" >&2
    exit 1
}

architecture=${2:-amd64}
case $architecture in
amd64) library=$top/out/library ;;
arm64) library=$top/out/library-arm64 ;;
*) fail "there is no library for $architecture: amd64 or arm64" ;;
esac
mkdir -p -- "${1:-$library}" || exit 1
library=$(cd -- "${1:-$library}" && pwd) || exit 1
program=$library/liblritstation
# shellcheck source-path=SCRIPTDIR source=proving.sh
. "$top/packaging/proving.sh" || exit 1
# shellcheck source-path=SCRIPTDIR source=arm64/tools.sh
. "$top/packaging/arm64/tools.sh" || exit 1
# shellcheck source-path=SCRIPTDIR source=version.sh
. "$top/packaging/version.sh" || exit 1

# Sets for the architecture: the target, the toolchain, what memory comes from, and the files that the one to load is
# linked to: the C library, and for arm64 what compilers call of gcc's own.
for_architecture() {
    if [ "$architecture" = amd64 ]; then
        target=x86_64-unknown-linux-gnu
        toolchain=$kit/toolchain heap=$kit/c/liblibc_c.a below=$(libc)
        [ -n "$below" ] || fail "the C library isn't found"
        return
    fi
    missing=$(missing_packages | xargs echo)
    [ -z "$missing" ] || fail "the C library for arm64 is missing: apt-get install $missing"
    toolchain=$scratch/toolchain heap=$scratch/heap.o
    below="$toolchain/lib/libc.so.6 $toolchain/lib/ld-linux-aarch64.so.1 $toolchain/lib/libgcc.a"
    make_toolchain "$toolchain" || fail "the files of the C library can't be copied"
    compile_c heap.c "$heap" || fail "arm64/heap.c can't be compiled"
}

# Proves the crate, and compiles what was proved as $scratch/NAME.a, NAME being the crate's.
compile() {
    with_words "$toolchain" "$kit/bin/rattle" build --target "$target" --crate-type staticlib -o "$made/station.a"
    if [ ! -f "$made/station.a" ] || ! grep -q "^logic=proved .* target=$target " "$scratch/log"; then
        cat "$scratch/log" >&2
        return 1
    fi
    grep '^logic=proved ' "$scratch/log" >&2
    cp "$made/station.a" "$scratch/$crate.a"
}

# Compiles what leads to the functions of the caller. (In its folder, so its path is in no byte.)
compile_devices() {
    (cd "$top/packaging" && "$kit/toolchain/bin/clang" --target="$target" -std=c11 -O2 -fPIC \
        -ftls-model=initial-exec -Wall -Wextra -Werror -ffreestanding -isystem headers \
        "-DLR_VERSION=\"$(version)\"" -c devices.c \
        -o "$scratch/devices.o")
}

# Links both libraries. The one to load shows the four calls of the header alone.
link_both() {
    tools=$kit/toolchain/bin
    both="$scratch/lr_embed.a $scratch/lr_live.a"
    echo '{ global: lr_run; lr_run_over; lr_version; lr_words; local: *; };' > "$scratch/shown"
    # shellcheck disable=SC2086 # (they are several)
    "$tools/llvm-ar" qLD "$scratch/liblritstation.a" $both "$scratch/devices.o" "$heap" &&
        "$tools/ld.lld" -shared -soname liblritstation.so.1 --version-script="$scratch/shown" -z defs -z now -z relro \
            --gc-sections --whole-archive $both --no-whole-archive "$scratch/devices.o" "$heap" --as-needed $below \
            -o "$scratch/liblritstation.so.1"
}

# The C library that is loaded here.
libc() { ldd /bin/sh | sed -n 's/^.*libc\.so\.6 => \([^ ]*\) .*$/\1/p'; }

# A file for pkg-config, which finds the library in its own folder.
describe() {
    cat << END
prefix=\${pcfiledir}
Name: lritstation
Description: The software half of a weather satellite ground station
Version: $(version)
Libs: -L\${prefix} -llritstation
Cflags: -I\${prefix}
END
}

command -v rt > /dev/null || fail "rt is missing: it comes with the kit"
scratch_folder
find_kit || fail "rt doc doesn't say where the kit is"
for_architecture
prove_below && compile || exit 1
outside "$top/packaging/web/lr_live" && compile || exit 1
compile_devices || fail "devices.c can't be compiled"
link_both || fail "the library can't be linked"
for name in liblritstation.a liblritstation.so.1; do
    cp "$scratch/$name" "$library/$name.new" && mv "$library/$name.new" "$library/$name" || exit 1
done
ln -sfn liblritstation.so.1 "$library/liblritstation.so" && cp "$top/packaging/lritstation.h" "$library/" || exit 1
describe > "$library/lritstation.pc" && echo "$library"
