#!/bin/sh
# The files of a test stream are sent by `transmit` under each line code, led through a noisy channel and received again
# by `lritdemod`, and by a flow graph of GNU Radio (Debian's package of that name; without it nothing is tried),
# bench/demod/gnuradio_usual.py. `receive` of the soft symbols gives each file with its bytes. Under one line code the
# samples also come as unsigned bytes. Then the sink of examples/gnuradio_sink.py receives the last soft symbols, by the
# library within GNU Radio.
# Usage: trials/radio.sh. Needs rt and python3. $LIBRARY may name the folder that packaging/library.sh names.
. "$(dirname "$0")/lib.sh"
python_with gnuradio || nothing "GNU Radio isn't installed"
scratch_folder
find_program
find_demodulator
station=$LRITSTATION
cd "$scratch" || exit 1

"$station" sent.shelf trial 1 64 0 || exit 1
# send FORM OPTIONS: sends the 63 files with these options, as samples of this form, and compares those that come back.
send() {
    form=$1
    shift
    "$station" sent.shelf transmit 0 63 0 "$@" > sent || exit 1
    "$python" "$top/trials/radio.py" sent "$form" > samples 2> radio.log || { cat radio.log; exit 1; }
    for receiver in lritdemod graph; do
        if [ "$receiver" = graph ]; then
            "$python" "$top/bench/demod/gnuradio_usual.py" --rate 4000000 --symbols 1000000 --form "$form"
        else
            "$LRITDEMOD" --rate 4000000 --symbols 1000000 --format "$form"
        fi < samples > soft 2> radio.log || { cat radio.log; exit 1; }
        compare "$@"
    done
}
# compare OPTIONS: receives the soft symbols, and compares the files
compare() {
    rm -f soft.shelf
    "$station" soft.shelf init 200000 > lines || exit 1
    "$station" soft.shelf receive "$@" < soft >> lines || exit 1
    tail -n 1 lines
    same soft.shelf
}
# same SHELF: compares its files with those that were sent
same() {
    number=0
    while [ "$number" -lt 63 ]; do
        "$station" sent.shelf extract "$number" > before || exit 1
        "$station" "$1" extract "$number" > after || exit 1
        cmp before after || exit 1
        number=$((number + 1))
    done
}
for line in nrz-l nrz-m; do
    for g2 in inverted plain; do
        send f32 --line "$line" --g2 "$g2"
    done
done
send u8 --line nrz-m --g2 plain
if [ -z "${LIBRARY-}" ]; then
    LIBRARY=$("$top/packaging/library.sh" "$scratch/library" 2> build.log) || { cat build.log; exit 1; }
fi
PYTHONPATH=$top/tools LRITSTATION_LIBRARY=$LIBRARY PYTHONDONTWRITEBYTECODE=1 \
    "$python" "$top/examples/gnuradio_sink.py" sink.shelf soft --line nrz-m --g2 plain > sink.log 2>&1 ||
    { cat sink.log; exit 1; }
[ "$(grep -c '^[0-9]' sink.log)" = 63 ] || { cat sink.log; exit 1; }
same sink.shelf
echo "63 files came back under each of 4 line codes, from unsigned bytes, and by the sink of GNU Radio"
