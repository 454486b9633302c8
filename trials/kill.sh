#!/bin/sh
# The program over a real file: many small files are received, verified and extracted. Then rounds in which `receive` is
# killed (SIGKILL) at a drawn moment: each file whose line was printed must be on the shelf, with its bytes. Then as
# many rounds over one shelf, which goes on from each kill to the next. Then as many rounds in which `downlinks` of two
# recordings is killed: the shelf has the first ones of the files of each, in their order. A kill leaves what the system
# was handed, so this tries the order of the writes, and not what a disk keeps of them.
# Usage: trials/kill.sh [ROUNDS [FRAMES]] (20 rounds of 4,000 frames, each with one file). It takes as long as the disk
# takes for 4 syncs of each frame in each round: two minutes for 20 rounds of 600 frames, and some 15 by default. Needs
# rt and python3.
set -e
. "$(dirname "$0")/lib.sh"
rounds=${1:-20}
frames=${2:-4000}
scratch_folder
find_program
cp "$LRITSTATION" "$scratch/lritstation"

python3 "$top/trials/kill.py" "$scratch" "$rounds" "$frames"
