#!/bin/sh
# Who decodes the strips of `render`: the processor time of the program's first thread, over large coded images, where
# it works alone and where four work. Where others decode strips, it takes a good deal less, since it keeps and writes
# what they decoded; a program that decodes all strips on its first thread fails, also where it starts others. The
# pictures are the same. The coded lines are made by reference/lines.py.
# Usage: trials/strips.sh. Needs rt, python3 and Linux, and two processors.
. "$(dirname "$0")/lib.sh"
[ -e /proc/self/task ] || nothing "there is no /proc/self/task"
[ "$(getconf _NPROCESSORS_ONLN)" -gt 1 ] || nothing "there is one processor"
scratch_folder
find_program
cp "$LRITSTATION" "$scratch/lritstation"
cd "$scratch" || exit 1
python3 "$top/trials/strips.py"
