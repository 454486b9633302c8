# What the scripts of trials and bench share. Each reads it first, so it is no script of its own. $top is the top of the
# repository, $name the script's name, and $cases counts what `is` compared.
# shellcheck shell=sh disable=SC2034 # (each is used where it is read)
top=$(cd "$(dirname "$0")/.." && pwd) || exit 1
name=$(basename "$(dirname "$(realpath "$0")")")/${0##*/}
cases=0
export PYTHONDONTWRITEBYTECODE=1 PYTHONPATH="$top/reference:$top/tools"

fail() {
    echo "$name: $1"
    exit 1
}

nothing() {
    echo "$name: $1, so nothing was tried"
    exit 77
}

# needs TOOL..: ends with 77 if a tool is missing
needs() {
    for tool; do
        command -v "$tool" > /dev/null || nothing "$tool is missing"
    done
}

# is WHAT GOT WANTED
is() {
    [ "$2" = "$3" ] || fail "$1 is '$2', not '$3'"
    cases=$((cases + 1))
}

# Makes the folder $scratch, in $within if that is set. It is removed at the end, also after a signal.
scratch_folder() {
    scratch=$(mktemp -d "${within:-${TMPDIR:-/tmp}}/trial.XXXXXX") || exit 1
    trap 'rm -rf "$scratch"' EXIT
    trap 'exit 130' HUP INT TERM
}

# Sets $LRITSTATION to the built program, unless it is set.
find_program() {
    [ -z "${LRITSTATION-}" ] || { export LRITSTATION && return; }
    "$top/lritstation" - frames < /dev/null > "$scratch/build.log" 2>&1 || fail "$(cat "$scratch/build.log")"
    export LRITSTATION="$top/crates/lr_program/out/lr_program"
}

# Sets $LRITDEMOD to the built demodulator, unless it is set.
find_demodulator() {
    [ -z "${LRITDEMOD-}" ] || { export LRITDEMOD && return; }
    LRITDEMOD=$("$top/packaging/demodulator.sh" 2> "$scratch/build.log") || fail "$(cat "$scratch/build.log")"
    export LRITDEMOD
}

# python_with MODULE: sets $python to the first Python that has it. Returns 1 if there is none.
python_with() {
    for python in python3 /usr/bin/python3; do
        "$python" -c "import $1" 2> /dev/null && return
    done
    python=python3
    return 1
}
