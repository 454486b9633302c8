#!/bin/sh
# The program for arm64 as a board would use it, but under qemu: it agrees with the programs for x86-64-v2 and
# x86-64-v3 on drawn recordings and sessions (arm64.py), its kernel works on eight halfwords at once (arm64_loops.py),
# and its package is installed in an arm64 system of Debian 12 and in one of Debian 13, where README's session runs and
# the trials of real paths, kills, readers, refused memory and scripts pass with it. The demodulator gives the symbols
# of the one for x86-64. The functions of packaging/arm64/edge.c are tried on both processors first.
# Usage: trials/arm64.sh [PART..], of edge first lanes drawn demod streams bookworm trixie main memory kill beside
# examples. The last five, and streams, are the trials of these names with the C library of the cross packages. By
# default the first eight parts run, or all where no system can be had. (A system is none for closed streams: there the
# kernel hands the program's file to qemu, as standard input where that is closed.) Or trials/arm64.sh short: edge,
# first, and twenty drawn recordings and sessions. RECORDINGS, SESSIONS and SEED in the environment change what is drawn
# (500, 200 and 1), and SYSTEMS is as for package.sh. Needs rt, python3, qemu, and the packages that packaging/arm64.sh
# names; a part may need more and says so where that is missing. Where something was skipped, the last line names it,
# and the status is 77, which is no pass. $LRITSTATION and $LRITDEMOD may name the built programs; those with -v3 and
# -arm64 after their names stand beside them.
. "$(dirname "$0")/lib.sh"
# shellcheck source-path=SCRIPTDIR source=../packaging/arm64/tools.sh
. "$top/packaging/arm64/tools.sh"
qemu=$(command -v qemu-aarch64-static || command -v qemu-aarch64) ||
    nothing "qemu is missing (apt-get install qemu-user-static)"
needs rt python3
missing=$(missing_packages | xargs echo)
[ -z "$missing" ] || nothing "the C library for arm64 is missing (apt-get install $missing)"
kit=$(rt doc) && kit=${kit%/*} || exit 1
scratch_folder

# Both kinds of programs, made where they aren't named and aren't there, or are older.
find_programs() {
    if [ -z "${LRITSTATION-}" ]; then
        "$top/lritstation" - frames < /dev/null > "$scratch/said" 2>&1 || fail "$(cat "$scratch/said")"
        LRITSTATION=$top/crates/lr_program/out/lr_program
        [ -n "$(find "$LRITSTATION-arm64" -newer "$LRITSTATION" 2> /dev/null)" ] ||
            "$top/packaging/arm64.sh" > "$scratch/said" 2>&1 || fail "$(cat "$scratch/said")"
    fi
    usual=$LRITSTATION
    [ -x "$usual-arm64" ] || fail "$usual-arm64 is missing: packaging/arm64.sh makes it"
    export LRITSTATION="$scratch/under-qemu"
    under_qemu "$usual-arm64" > "$LRITSTATION" && chmod +x "$LRITSTATION"
    find_demodulator
    [ -x "$LRITDEMOD-arm64" ] || "$top/packaging/arm64.sh" "$(dirname "$LRITDEMOD")" lritdemod > "$scratch/said" 2>&1 ||
        fail "$(cat "$scratch/said")"
}

# under_qemu PROGRAM: a script that starts this program for arm64, with a library before the others where PRELOADED
# names one
under_qemu() {
    cat << SCRIPT
#!/bin/sh
exec "$qemu" -L "$cross" \${PRELOADED:+-E "LD_PRELOAD=\$PRELOADED"} "$1" "\$@"
SCRIPT
}

# The functions of C, on both processors, and the kit's own ones.
try_edge() {
    cd "$scratch" || return 1
    long=$(printf '\303%.0s' $(seq 300))
    make_toolchain toolchain && compile_c edge.c "$PWD/edge.o" && compile_c edge_test.c "$PWD/edge_test.o" || return 1
    link toolchain edge-arm64 edge_test.o edge.o || return 1
    said=$(link toolchain without edge_test.o 2>&1) && return 1
    case $said in
    *" has: rattle_alloc "*rattle_set_thread_name) ;;
    *) echo "where a function is missing the link says: $said" && return 1 ;;
    esac
    under_qemu "$PWD/edge-arm64" > edge-qemu && chmod +x edge-qemu
    printf 'edge.c on arm64: ' && "$qemu" -L "$cross" "$PWD/edge-arm64" one '' "$long" || return 1
    if ! command -v gcc > /dev/null; then
        echo "gcc is missing: edge.c wasn't tried on x86-64"
        return 77
    fi
    gcc -O2 -Wall -Wextra -Werror -o edge-ours "$top/packaging/arm64/edge.c" "$top/packaging/arm64/edge_test.c" &&
        gcc -O2 -o edge-kit "$top/packaging/arm64/edge_test.c" "$kit/c/liblibc_c.a" "$kit/c/libos_c.a" || return 1
    printf 'edge.c on x86-64: ' && ./edge-ours one '' "$long" &&
        printf 'the functions of the kit: ' && ./edge-kit one '' "$long"
}

try_first() {
    said=$("$LRITSTATION" - trial 1 64 0) || return 1
    echo "$said"
    [ "$said" = "symbols 1048576 frames 64 restored 64 lost 0 packets 452 files 63 left 0 stop end" ] || return 1
    newest=$(grep -ao 'GLIBC_2\.[0-9]*' "$usual-arm64" | sort -Vu | tail -n 1)
    echo "the newest of what it needs of the C library is of $newest"
    [ "$(printf '%s\nGLIBC_2.34\n' "$newest" | sort -V | tail -n 1)" = GLIBC_2.34 ]
}

try_lanes() {
    for reader in aarch64-linux-gnu-objdump llvm-objdump; do
        command -v $reader > /dev/null || continue
        $reader -d "$usual-arm64" | python3 "$top/trials/arm64_loops.py"
        return
    done
    echo "no objdump for arm64 is here (apt-get install binutils-aarch64-linux-gnu)"
    return 77
}

# drawn RECORDINGS SESSIONS: these many, on all programs that this processor can start
drawn() {
    mkdir -p "$scratch/drawn" || return 1
    set -- "$scratch/drawn" "${SEED:-1}" "$1" "$2" "$usual"
    if [ -x "$usual-v3" ] && /lib64/ld-linux-x86-64.so.2 --help | grep -q '^ *x86-64-v3 (supported'; then
        set -- "$@" "$usual-v3"
    else
        echo "no program for x86-64-v3 can be started here: two are compared"
        python3 "$top/trials/arm64.py" "$@" "$LRITSTATION" && return 77
        return 1
    fi
    python3 "$top/trials/arm64.py" "$@" "$LRITSTATION"
}

try_drawn() { drawn "${RECORDINGS:-500}" "${SESSIONS:-200}"; }
try_few() { drawn 20 20; }

# The symbols of samples in each form, and of their bytes from the second one on, which are no samples.
try_demod() {
    cd "$scratch" || return 1
    under_qemu "$LRITDEMOD-arm64" > demod-qemu && chmod +x demod-qemu || return 1
    "$usual" sent trial 1 7 0 > said && "$usual" sent transmit 0 6 0 > few || return 1
    for form in u8 s8 s16 f32; do
        python3 "$top/trials/demod.py" samples few "$form" > samples && tail -c +2 samples > shifted || return 1
        for recording in samples shifted; do
            set -- --rate 2500000 --symbols 1000000 --format "$form" --quiet
            # (it says that the last sample is torn)
            { "$LRITDEMOD" "$@" < $recording > ours && ./demod-qemu "$@" < $recording > theirs; } 2> said || return 1
            cmp ours theirs || return 1
            [ -s ours ] || [ $recording = shifted ] || { echo "no symbol came of $form" && return 1; }
        done
    done
    echo "the symbols are those of the program for x86-64"
}

try_main() { sh "$top/trials/main.sh"; }
try_streams() { sh "$top/trials/streams.sh"; }
# shellcheck disable=SC2086 # (they are several words)
try_kill() { sh "$top/trials/kill.sh" $kills; }
try_beside() { sh "$top/trials/beside.sh" short; }
# shellcheck disable=SC2086 # (they are several words)
try_examples() { sh "$top/trials/examples.sh" $scripts; }

try_memory() {
    make_refuse || return 1
    REFUSE_LIBRARY=$refuse LOADED_AS=PRELOADED sh "$top/trials/memory.sh"
}

# The library that refuses memory, for arm64.
make_refuse() {
    compile_c "$top/trials/refuse.c" "$scratch/refuse.o" &&
        "$kit/toolchain/bin/ld.lld" -shared -z defs -o "$refuse" "$scratch/refuse.o" \
            "$cross/lib/libc.so.6" "$(gcc_cross)/libgcc.a"
}

# in_suite SUITE: the package in a system of its own, and these trials there
in_suite() {
    make_refuse || return 1
    LRITSTATION=$usual REFUSE_LIBRARY=$refuse sh "$top/trials/package.sh" "$1" arm64 \
        main memory "kill $kills" "beside short" "examples $scripts"
}

try_bookworm() { in_suite bookworm; }
try_trixie() { in_suite trixie; }

# Whether this machine can have a system for arm64.
has_systems() {
    [ "$(id -u)" = 0 ] && { [ -n "${SYSTEMS-}" ] || command -v mmdebstrap > /dev/null; } &&
        grep -q '^flags: .*F' /proc/sys/fs/binfmt_misc/qemu-aarch64 2> /dev/null
}

refuse=$scratch/refuse.so
kills="6 300"
# (all parts but the one that is about loaders of x86-64)
scripts="days weeks full_shelves full_disk bundle ways_in station station_of_frames signals wrapper units form"
apart="main memory kill beside examples"
find_programs
! has_systems || apart=
parts=${*:-edge first lanes drawn demod streams bookworm trixie $apart}
[ "$parts" != short ] || parts="edge first few"
passed=0 skipped=
for part in $parts; do
    echo "$part:"
    (try_"$part")
    case $? in
    0) passed=$((passed + 1)) ;;
    77) skipped="$skipped $part" ;;
    *) fail "$part failed" ;;
    esac
done
echo "trials/arm64.sh: $passed parts passed; skipped:${skipped:- none}"
[ -z "$skipped" ] || exit 77
