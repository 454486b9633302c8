#!/bin/sh
# Makes the receiver as a web page, FOLDER/receiver.html, and says its name: one file that works from a disk and from
# any server. As packaging/library.sh does, it has rt ci prove a copy of the crates below, which keeps what it proved,
# and proves lr_embed, and lr_live and lr_radio, which stand outside of crates/. The module that the kit's compiler makes
# of each is given to the kit's clang once more, for WebAssembly with a memory of 64 bits and with vectors;
# web/retarget.py looks that nothing in it is of another machine. The same commit gives the same bytes.
# Usage: packaging/web.sh [FOLDER], by default the folder out/web. Needs rt, python3 and git. No network. $MODULES in
# the environment may name a folder that gets the three modules too.
# shellcheck disable=SC2034,SC2154 # (some are set in what is read, and some used there)
top=$(cd -- "$(dirname -- "$0")/.." && pwd) || exit 1
called=web.sh
crate=lr_embed
beside=lr_demod
root=src/lib.rt
product="web page"
mkdir -p -- "${1:-$top/out/web}" || exit 1
program=$(cd -- "${1:-$top/out/web}" && pwd)/receiver.html || exit 1
heap="rattle_alloc rattle_realloc rattle_dealloc"
host="lr_host_take lr_host_put lr_host_length lr_host_read lr_host_write lr_host_cut lr_host_sync"
# shellcheck source-path=SCRIPTDIR source=proving.sh
. "$top/packaging/proving.sh" || exit 1
# shellcheck source-path=SCRIPTDIR source=version.sh
. "$top/packaging/version.sh" || exit 1

fail() {
    echo "$called: $1" >&2
    exit 1
}

# Makes $scratch/keeping, a folder like the kit's toolchain, whose clang keeps the module that it is given as
# $scratch/module.bc and else is the kit's.
keeping_toolchain() {
    mkdir -p "$scratch/keeping/bin" && ln -s "$kit/toolchain/lib" "$scratch/keeping/lib" || return 1
    for tool in "$kit/toolchain/bin/"*; do
        ln -s "$tool" "$scratch/keeping/bin/" || return 1
    done
    rm "$scratch/keeping/bin/clang"
    cat > "$scratch/keeping/bin/clang" << END
#!/bin/sh
for word; do
    [ "\$word" != module.bc ] || cp module.bc '$scratch/module.bc' || exit 1
done
exec '$kit/toolchain/bin/clang' "\$@"
END
    chmod +x "$scratch/keeping/bin/clang"
}

# Proves the crate, and has the compiler make $scratch/module.bc of what was proved.
compile() {
    rm -f "$scratch/module.bc"
    with_words "$scratch/keeping" "$kit/bin/rattle" build --crate-type staticlib -o "$made/station.a"
    if [ ! -f "$scratch/module.bc" ] || [ ! -f "$made/station.a" ] ||
        ! grep -q '^logic=proved ' "$scratch/log"; then
        cat "$scratch/log" >&2
        return 1
    fi
    grep '^logic=proved ' "$scratch/log" >&2
}

# for_web EXPORT OPTIMISING NAME..: makes $scratch/modules/EXPORT.wasm of $scratch/module.bc. NAME.. are the functions
# of its host that it may import.
for_web() {
    export=$1
    optimising=$2
    shift 2
    tools=$kit/toolchain/bin
    (
        cd "$scratch" || exit 1
        "$tools/clang" --target=x86_64-unknown-linux-gnu -S -emit-llvm -Xclang -disable-llvm-passes -x ir module.bc \
            -o module.ll &&
            python3 "$top/packaging/web/retarget.py" module.ll web.ll "$@" || exit 1
        set -- --target=wasm64-unknown-unknown -mcpu=lime1 -msimd128 -c
        "$tools/clang" "$@" "$optimising" -ffunction-sections -fdata-sections -x ir web.ll -o web.o &&
            "$tools/clang" "$@" -O3 -ffreestanding -fno-builtin -x c "$top/packaging/web/builtins.c" -o builtins.o &&
            "$tools/ld.lld" -flavor wasm -mwasm64 --no-entry --stack-first -z stack-size=1048576 "--export=$export" \
                --export=__heap_base --allow-undefined --gc-sections --strip-all web.o builtins.o \
                -o "modules/$export.wasm"
    )
}

for tool in rt python3; do
    command -v $tool > /dev/null || fail "$tool is missing"
done
scratch_folder
find_kit || fail "rt doc doesn't say where the kit is"
{ keeping_toolchain && mkdir "$scratch/modules"; } || fail "the tools of the kit can't be linked to"
# shellcheck disable=SC2086 # (they are several)
prove_below && compile && for_web lr_run -Os $heap || exit 1
# shellcheck disable=SC2086
outside "$top/packaging/web/lr_live" && compile && for_web lr_live -O3 $heap $host || exit 1
# shellcheck disable=SC2086
outside "$top/packaging/web/lr_radio" && compile && for_web lr_radio -O3 $heap lr_host_take lr_host_put lr_host_told ||
    exit 1
made_of="$(version), commit $(git -C "$top" rev-parse --short=12 HEAD)"
[ -z "${MODULES-}" ] || cp "$scratch/modules/"*.wasm "$MODULES/" || exit 1
python3 "$top/packaging/web/bundle.py" "$scratch/modules" "$made_of" "$program.new" || exit 1
mv "$program.new" "$program" && echo "$program"
