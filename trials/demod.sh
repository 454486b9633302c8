#!/bin/sh
# `lritdemod` on a signal that demod.py makes here, beside the symbols that were sent: samples of each form, heads,
# SigMF's metadata, statuses, the lines of JSON, drawn bytes, and a live input. Then each of its requests for memory is
# refused in turn, but with the word `short`. Where numpy is there the tests of bench/demod run too, which measures what
# it loses.
# Usage: trials/demod.sh [short]. Needs python3, and rt where $LRITDEMOD and $LRITSTATION name no built programs; gcc
# for the last part.
. "$(dirname "$0")/lib.sh"
scratch_folder
find_program
find_demodulator
refuse=
if [ "${1-}" != short ]; then
    if command -v gcc > /dev/null; then
        refuse=$scratch/refuse.so
        gcc -O2 -shared -fPIC "$top/trials/refuse.c" -o "$refuse" || exit 1
    else
        echo "gcc is missing: no memory was refused"
    fi
fi
if python_with numpy; then
    (cd "$top/bench" && "$python" -m unittest -q demod.test_demod) || exit 1
else
    echo "numpy is missing: the tests of bench/demod weren't run"
fi
python3 "$top/trials/demod.py" "$LRITDEMOD" "$LRITSTATION" ${refuse:+"$refuse"}
