#!/bin/sh
# The page: packaging/web.sh makes it twice, with the same bytes. Its tests and types; each command by both of its
# modules in Node, over drawn recordings too, beside the built program; memory refused at each block. Then the page in
# Chromium and in Firefox, from a disk and from a server: from README's sample to a saved picture, other forms, images
# that lack packets, a shelf that is saved and opened again, hostile files, a recording of 770 MB and its memory, a
# stop, and what it asks of the network. Then the example of a live source. What they look like goes to $SHOTS, where
# that is a folder.
# Usage: trials/web.sh. Needs rt, python3 and Node 20 or later (node); chromium, firefox-esr, tsc and Pillow for some
# parts each, and some 2 GB of disk. $LRITSTATION and $LRITDEMOD may name the built programs, and $PAGE a folder with
# receiver.html and the modules (as MODULES=FOLDER packaging/web.sh FOLDER leaves it), which is then not made. TIMES in
# the environment says how often the recording stands in the long one, 100 by default, and PATIENCE how many times as
# long a browser is waited for, for a machine with other load.
top=$(cd "$(dirname "$0")/.." && pwd)
for tool in python3 node; do
    command -v $tool > /dev/null || { echo "trials/web.sh: $tool is missing, so nothing was tried"; exit 77; }
done
[ "$(node -p 'process.versions.node.split(".")[0] >= 20')" = true ] ||
    { echo "trials/web.sh: Node 20 or later is missing, so nothing was tried"; exit 77; }
python=python3
/usr/bin/python3 -c 'import PIL' 2> /dev/null && python=/usr/bin/python3
scratch=$(mktemp -d) || exit 1
trap 'rm -rf "$scratch"' EXIT
trap 'exit 130' HUP INT TERM

fail() {
    echo "trials/web.sh: $1"
    exit 1
}

# Runs a part, without a word where it passes.
quietly() { "$@" > "$scratch/said" 2>&1 || fail "$(tail -n 40 "$scratch/said")"; }

# Runs a part, and tells its last lines.
part() {
    quietly "$@"
    tail -n 2 "$scratch/said"
}

skipped=
if [ -z "${LRITSTATION-}" ]; then
    "$top/lritstation" - frames < /dev/null > "$scratch/build.log" 2>&1 || fail "$(cat "$scratch/build.log")"
    LRITSTATION=$top/crates/lr_program/out/lr_program
fi
if [ -z "${PAGE-}" ]; then
    PAGE=$scratch/page
    for folder in "$PAGE" "$scratch/again"; do
        mkdir -p "$folder"
        MODULES=$folder "$top/packaging/web.sh" "$folder" > "$scratch/build.log" 2>&1 ||
            fail "$(cat "$scratch/build.log")"
    done
    diff -r "$PAGE" "$scratch/again" > /dev/null || fail "the page has other bytes when it is made again"
else
    skipped="$skipped making the page;"
fi
PYTHONDONTWRITEBYTECODE=1
export PYTHONDONTWRITEBYTECODE
mkdir "$scratch/files" "$scratch/shots"
SHOTS=${SHOTS:-$scratch/shots}
quietly "$python" "$top/packaging/web/retarget_test.py"
quietly "$python" "$top/packaging/web/bundle_test.py"
(cd "$top/packaging/web" && node --test --test-reporter=tap tests/*.test.mjs) > "$scratch/said" 2>&1 ||
    fail "$(grep -A 12 '^not ok' "$scratch/said")"
tests=$(sed -n 's/^# pass //p' "$scratch/said")
if command -v tsc > /dev/null; then
    quietly tsc --noEmit --allowJs --checkJs --strict --skipLibCheck --target es2022 --module es2022 \
        --moduleResolution node --lib es2022,dom,webworker "$top/packaging/web/page/page.mjs" \
        "$top/packaging/web/page/worker.mjs" "$top/packaging/web/live/live.mjs" \
        "$top/packaging/web/live/live-worker.mjs"
else
    skipped="$skipped types (tsc);"
fi
quietly "$python" "$top/trials/web/files.py" "$LRITSTATION" "$scratch/files"
# (a newer Node has memory of 64 bits without the word)
node="node --no-warnings --experimental-wasm-memory64"
$node -e '' 2> /dev/null || node="node --no-warnings"
# shellcheck disable=SC2086 # (they are several words)
part $node "$top/trials/web/same.mjs" "$LRITSTATION" "$scratch/files" "$PAGE"
if [ -z "${LRITDEMOD-}" ]; then
    LRITDEMOD=$("$top/packaging/demodulator.sh" 2> "$scratch/build.log") || fail "$(cat "$scratch/build.log")"
fi
# shellcheck disable=SC2086
part $node "$top/trials/web/radio.mjs" "$LRITDEMOD" "$scratch/files" "$PAGE"
browsers=
command -v chromium > /dev/null && browsers=chromium || skipped="$skipped Chromium;"
command -v firefox-esr > /dev/null && browsers="$browsers firefox" || skipped="$skipped Firefox;"
if [ -n "$browsers" ]; then
    # shellcheck disable=SC2086
    part node "$top/trials/web/page.mjs" "$PAGE/receiver.html" "$scratch/files" "$SHOTS" "$LRITSTATION" $browsers
fi
echo "trials/web.sh: $tests tests of the page${skipped:+; not tried:$skipped}"
