#!/bin/sh
# SatDump reads what `transmit` writes. The files of a test stream are sent with 16 wrong bytes in each word, with
# `--line nrz-m --g2 plain` to its pipeline goes_hrit and with `--g2 plain` to goes_lrit. Each frame that should be sent
# (by reference/uplink.py) is among its frames, byte for byte; each text file that it writes equals what `extract`
# writes, and each picture what `export` writes, pixel by pixel. Last, goes_lrit shows a picture that `repack` coded
# anew as `export` writes it.
# Usage: trials/satdump.sh ROOT. ROOT is a folder with a Debian system that has SatDump, as
#   mmdebstrap --variant=apt --include=satdump trixie ROOT
# makes it; chroot enters it, so this runs as root. Without a ROOT nothing is tried. Needs rt and python3.
. "$(dirname "$0")/lib.sh"
root=$1
[ -n "$root" ] || nothing "no folder with SatDump is named"
within=$root/tmp
scratch_folder
find_program
station=$LRITSTATION
cd "$scratch" || exit 1

# orbits of one satellite, so that SatDump doesn't look for them on the network
cat > orbits << 'ORBITS'
TEST
1 25544U 98067A   24001.50000000  .00016717  00000-0  10270-3 0  9005
2 25544  51.6400 208.9163 0006317  69.9862  25.2906 15.49560000 10009
ORBITS

"$station" shelf trial 1 64 0 || exit 1
"$station" shelf list > listed || exit 1
# Has SatDump's pipeline of this name read the symbols.
receive_by() {
    chroot "$root" sh -c "cd ${scratch#"$root"} && satdump $1 soft symbols $1 --tle_override orbits \
        --max_fill_lines 50 --fill_missing false --write_lrit true" > "$1.log" 2>&1 || { cat "$1.log"; exit 1; }
}
# Sends all files with these options, and has SatDump's pipeline of this name read them.
send() {
    pipeline=$1
    shift
    "$station" shelf transmit 0 63 16 "$@" > symbols || exit 1
    receive_by "$pipeline"
    python3 "$top/trials/satdump.py" all "$station" "$pipeline" || exit 1
}
send goes_hrit --line nrz-m --g2 plain
send goes_lrit --g2 plain

# A picture coded anew. SatDump reads coded lines where NOAA's own record says that they are there, so the file that
# `repack` gets has one.
python3 "$top/trials/satdump.py" frames > frames || exit 1
"$station" other.shelf init 100000 || exit 1
"$station" other.shelf receive --input frames < frames || exit 1
"$station" other.shelf repack 0 16 || exit 1
"$station" other.shelf transmit 1 2 0 --g2 plain > symbols || exit 1
rm -rf goes_lrit
receive_by goes_lrit
grep -q 'Rice header is present' goes_lrit.log || { echo "SatDump read no coded lines"; exit 1; }
python3 "$top/trials/satdump.py" picture "$station" goes_lrit || exit 1
