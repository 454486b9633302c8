#!/bin/sh
# Readers beside those who write a shelf. `receive` takes 400 small files a second, and beside it six callers `list`,
# `show`, `extract`, `export`, `assemble`, `transmit`, `verify` and `render` without a pause; for one of them each read
# of the shelf waits for two milliseconds. Each call has to end with 0, with the bytes of the files or with the
# beginning of what the shelf has at last, and `list`, `verify` and `render` with at least the entries that were known
# before the call. Then the same beside calls of `discard` and `repack`; there 13 is right for an entry that is
# discarded meanwhile.
# Usage: trials/beside.sh [CALLS] (3,000 calls beside `receive`, and a third of that beside the others: two minutes), or
# trials/beside.sh short: 2,000 calls, none of them slowed, in half a minute at most, as the gate has it. Needs rt and
# python3, and but for `short` strace and the right to trace; without these nothing is tried, and the status is 77.
# LRITSTATION names another program.
. "$(dirname "$0")/lib.sh"
calls=${1:-3000}
plain=
if [ "$calls" = short ]; then
    calls=2000 plain=plain
else
    strace -o /dev/null true 2> /dev/null || nothing "strace is missing, or may not trace"
fi
needs python3
scratch_folder
find_program
cp "$LRITSTATION" "$scratch/lritstation" || exit 1
python3 "$top/trials/beside.py" "$scratch/lritstation" "$scratch" "$calls" $plain
