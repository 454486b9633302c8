#!/bin/sh
# What the program asks of the system, as strace sees it. A made stream is received onto a shelf's file: each item is
# written and synced, then its gate is opened by a write of one byte and synced, and only then its line is written. Then
# there is a run for each call on the shelf's file, each read of the input and each write of the output, in which the
# system refuses that call: the program asks for nothing more there, ends with its status, and has written no line of an
# item that wasn't synced.
# Usage: trials/syncs.sh. Needs rt, python3 and strace. Where strace is missing or can't trace, that is said, and
# nothing is tried.
set -e
. "$(dirname "$0")/lib.sh"
scratch_folder
strace -o "$scratch/log" true 2> "$scratch/strace.log" || nothing "strace is missing or can't trace"
find_program
cp "$LRITSTATION" "$scratch/lritstation"

python3 "$top/trials/syncs.py" "$scratch"
