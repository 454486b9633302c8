# What packaging/arm64.sh, packaging/library.sh and trials/arm64.sh share. They read it, so it is no script of its own.
# $top is the top of the repository, and $kit the kit's folder.
# shellcheck shell=sh
target=aarch64-unknown-linux-gnu
cross=/usr/aarch64-linux-gnu

# The folder of gcc's own files for arm64: the newest one.
gcc_cross() {
    find /usr/lib/gcc-cross/aarch64-linux-gnu -mindepth 1 -maxdepth 1 -name '[0-9]*' 2> /dev/null | sort -V | tail -n 1
}

# missing_packages: the packages of Debian that are missing for what is made for arm64, a line each. Debian 12 has
# gcc 12, and Debian 13 gcc 14.
missing_packages() {
    [ -f "$cross/lib/libc.so.6" ] && [ -f "$cross/include/stdlib.h" ] || echo libc6-dev-arm64-cross
    [ ! -f "$(gcc_cross)/libgcc.a" ] || return 0
    # shellcheck source=/dev/null
    case $(. /etc/os-release && echo "${VERSION_ID-}") in
    12) echo libgcc-12-dev-arm64-cross ;;
    *) echo libgcc-14-dev-arm64-cross ;;
    esac
}

# make_toolchain FOLDER: a folder like the kit's toolchain, with the kit's programs and the C library for arm64
make_toolchain() {
    mkdir -p "$1/bin" "$1/lib" && ln -s "$kit/toolchain/bin/"* "$1/bin/" || return 1
    for name in Scrt1.o crti.o crtn.o ld-linux-aarch64.so.1 libc.so.6 libm.so.6 libc_nonshared.a libgcc_s.so.1; do
        cp "$cross/lib/$name" "$1/lib/" || return 1
    done
    for name in crtbeginS.o crtendS.o libgcc.a; do
        cp "$(gcc_cross)/$name" "$1/lib/" || return 1
    done
}

# compile_c FILE OBJECT: compiles a file of packaging/arm64 for arm64. (In its folder, so its path is in no byte.)
compile_c() {
    (cd "$top/packaging/arm64" && "$kit/toolchain/bin/clang" --target=aarch64-linux-gnu -std=c11 -O2 -fPIC \
        -Wall -Wextra -Werror -isystem "$(gcc_cross)/include" -isystem "$cross/include" -c "$1" -o "$2")
}

# link FOLDER PROGRAM OBJECT..: links these over the toolchain of this folder. Where that fails, it says so with the
# names that nothing defines.
link() {
    over=$1
    linked=$2
    shift 2
    "$kit/bin/rattle-link" --target "$target" --toolchain "$over" -o "$linked" "$@" > "$linked.said" 2>&1 &&
        rm "$linked.said" && return
    undefined=$(sed -n 's/^ld\.lld: error: undefined symbol: //p' "$linked.said" | sort -u | xargs echo)
    if [ -n "$undefined" ]; then
        echo "neither the C library nor packaging/arm64/edge.c has: $undefined" >&2
    else
        cat "$linked.said" >&2
    fi
    rm -f "$linked.said"
    return 1
}
