#!/bin/sh
# Refused memory: each command of the program does its work on a real shelf again and again, and in each run one request
# for memory is refused, the first, the second, and so on, until the command makes no more. The command must do its
# work, or end with 9, its line and the beginning of what it prints; or, where the path's name finds no memory, with 1
# and nothing printed. Then the shelf must hold what was acknowledged and nothing else. Usage: trials/memory.sh. Needs
# rt, gcc and python3. REFUSE_LIBRARY in the environment names a built refuse.c, for a program of another processor, and
# LOADED_AS the variable from which what starts that program takes the library.
set -e
. "$(dirname "$0")/lib.sh"
needs python3
[ -n "${REFUSE_LIBRARY-}" ] || needs gcc
scratch_folder
find_program
cp "$LRITSTATION" "$scratch/lritstation"
if [ -n "${REFUSE_LIBRARY-}" ]; then
    cp "$REFUSE_LIBRARY" "$scratch/refuse.so"
else
    gcc -O2 -shared -fPIC "$top/trials/refuse.c" -o "$scratch/refuse.so"
fi
cd "$scratch"
HELP=$("$top/lritstation" --help)
export HELP
python3 "$top/trials/memory.py"
