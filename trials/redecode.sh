#!/bin/sh
# Frames out of noise: the share that is lost at -1.8 to -1.2 dB of Es/N0, with `--passes 4` and without it, and beside
# it SatDump's. Each frame that one pass restores has to come with four, and 1, 2 and 8 workers have to give the same.
# Then README's sample at two of these steps: how many of its files come whole, and with `--mend 64`.
# Usage: trials/redecode.sh [FRAMES [ROOT]], by default 3,000 a step. Ten minutes. Needs rt and python3. ROOT is a
# folder with a Debian system that has SatDump, as for satdump.sh; then it runs as root. With another program in
# LRITSTATION it is that one's.
. "$(dirname "$0")/lib.sh"
scratch_folder
find_program
python3 "$top/trials/redecode.py" "$scratch" --frames "${1:-3000}" ${2:+--satdump "$2"} || exit 1
echo "trials/redecode.sh: passed"
