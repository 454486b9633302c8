#!/bin/sh
# Writes a bundle of recordings, for `lritstation SHELF downlinks`: how many there are in a byte, and then each
# recording, its length in eight bytes in front of it. A recording is a file of soft symbols, a signed byte each.
# Usage: bundle.sh FILE.. > bundle, with 1 to 16 files
if [ $# -lt 1 ] || [ $# -gt 16 ]; then
    echo "usage: bundle.sh FILE.., with 1 to 16 files" >&2
    exit 2
fi
for file; do
    if [ ! -f "$file" ] || [ ! -r "$file" ]; then
        echo "bundle.sh: $file can't be read" >&2
        exit 1
    fi
done

# bytes NUMBER COUNT: a number in this many bytes, most significant first
bytes() {
    digits=$(printf "%0$(($2 * 2))x" "$1")
    while [ -n "$digits" ]; do
        rest=${digits#??}
        printf '%b' "\\0$(printf %03o "0x${digits%"$rest"}")"
        digits=$rest
    done
}

bytes $# 1
for file; do
    bytes "$(wc -c < "$file" | tr -d ' ')" 8
    cat < "$file" || exit 1
done
