#!/bin/sh
# Processor time, user and system, of `decode` and of SatDump up to its transfer frames, over the same symbols: clean
# frames of the test stream. `decode` of the program for x86-64-v3 has a line of its own, where it is built and the
# processor has what it needs. SatDump's pipeline goes_lrit wants a second symbol that isn't complemented, so that
# symbol of each pair of `make` is turned first, and `decode` has `--g2 plain`. SatDump's frames have to be those of
# `make`.
# Usage: bench/satdump.sh ROOT [RUNS [FRAMES]]. ROOT is a folder with a Debian system that has SatDump, as
#   mmdebstrap --variant=apt --include=satdump trixie ROOT
# makes it; chroot enters it, so this runs as root. Without a ROOT nothing is compared. They take turns, and the best of
# RUNS runs (3) of FRAMES frames (8192) is taken. Needs rt and python3.
set -e
. "$(dirname "$0")/../trials/lib.sh"
root=$1
runs=${2:-3}
frames=${3:-8192}
if [ -z "$root" ]; then
    echo "bench/satdump.sh: skipped, as no folder with SatDump is named"
    exit 0
fi
within=$root/tmp
scratch_folder
find_program
program=$LRITSTATION
cp "$program" "$scratch/lritstation"
if [ -x "$program-v3" ] && /lib64/ld-linux-x86-64.so.2 --help | grep -q '^ *x86-64-v3 (supported'; then
    cp "$program-v3" "$scratch/lritstation-v3"
fi
cd "$scratch"
./lritstation - make 1 "$frames" 0 > symbols
./lritstation - make 1 "$frames" 0 --output frames > frames

# SatDump's own goes_lrit, without the steps after the transfer frames
mkdir pipelines
cat > pipelines/GOES.json <<'PIPELINE'
{
    "goes_lrit": {
        "name": "GOES-N LRIT",
        "live": false,
        "work": {
            "baseband": {},
            "soft": {},
            "cadu": {
                "ccsds_conv_concat_decoder": {
                    "constellation": "bpsk",
                    "cadu_size": 8192,
                    "viterbi_ber_thresold": 0.300,
                    "viterbi_outsync_after": 20,
                    "derandomize": true,
                    "nrzm": false,
                    "rs_i": 4,
                    "rs_type": "rs223",
                    "rs_usecheck": true
                }
            }
        }
    }
}
PIPELINE

# orbits of one satellite, so that SatDump doesn't look for them on the network
cat > orbits <<'ORBITS'
TEST
1 25544U 98067A   24001.50000000  .00016717  00000-0  10270-3 0  9005
2 25544  51.6400 208.9163 0006317  69.9862  25.2906 15.49560000 10009
ORBITS

python3 "$top/bench/satdump.py" "$root" "${scratch#"$root"}" "$runs" "$frames"
