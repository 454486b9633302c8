#!/bin/sh
# Sets of files such as Himawari, ELEKTRO-L and GOES send, drawn here, go through the whole station and into satpy's own
# readers: as frames, sent by `transmit` with wrong bytes in each word, received, taken off the shelf by `gomtasil
# follow`, and read. All pixels, platforms and times are those that were drawn. Images that are coded without loss are
# made plain by `plain`, and `geo` places an image where satpy does. Satpy finds the files of Himawari and ELEKTRO-L by
# their names, and reads GOES's image from its GeoTIFF.
# Usage: trials/satpy.sh. Needs rt, or LRITSTATION set to the built program, and python3 with satpy (Debian's package
# python3-satpy); without it nothing is tried.
. "$(dirname "$0")/lib.sh"
python_with satpy || nothing "satpy is missing"
scratch_folder
find_program
cd "$scratch" || exit 1

mkdir drawn && "$python" "$top/trials/satellites.py" draw drawn > frames || fail "satellites.py"
"$LRITSTATION" sent.shelf init 20000000 > log || fail "init"
"$LRITSTATION" sent.shelf receive --input frames < frames > log || fail "receive, of frames"
count=$(grep -c '^shelved' log)
"$LRITSTATION" received.shelf init 20000000 > log || fail "init"
"$LRITSTATION" sent.shelf transmit 0 "$count" 8 --line nrz-m --g2 plain |
    "$LRITSTATION" received.shelf receive --line nrz-m --g2 plain > log || fail "receive, of symbols"
tail -n 1 log
tool() { "$python" "$top/tools/bin/gomtasil" "$@"; }
tool follow received.shelf files --flat > log || fail "follow"
echo "files: $count sent, $(wc -l < log | tr -d ' ') taken by follow"
"$python" "$top/trials/satellites.py" compare drawn files || fail "satpy reads something else"

# coded without loss, and plain again (Himawari's line times are of the kind that repack leaves out, so its files stay)
mkdir plain
while read -r number name; do
    case $name in
    L-000*-00_6_* | OR_ABI*)
        coded=$("$LRITSTATION" received.shelf repack "$number" 16 | cut -d ' ' -f 4) || fail "repack"
        tool plain received.shelf "$coded" "plain/$name" || fail "plain"
        cmp -s "plain/$name" "files/$name" || fail "plain gives another $name"
        ;;
    *)
        cp "files/$name" plain/ || fail "cp"
        ;;
    esac
done < log
"$python" "$top/trials/satellites.py" compare drawn plain > log2 || fail "satpy reads another plain file"
echo "plain files of coded ones: the same in satpy"

# an image of Himawari's, where satpy places it
number=$(awk '$2 ~ /^IMG_DK01B14.*_001$/ { print $1 }' log)
tool geo received.shelf "$number" placed.tif --alone || fail "geo"
"$python" "$top/trials/satellites.py" placed files placed.tif || fail "geo places the image elsewhere"

# which of these files satpy finds by their names, and GOES's image by its GeoTIFF
number=$(awk '$2 ~ /^OR_ABI.*_0[.]lrit$/ { print $1 }' log)
tool geo received.shelf "$number" earth.tif || fail "geo, of GOES"
"$python" "$top/trials/satellites.py" readers files earth.tif || fail "satpy finds other files, or lays GOES elsewhere"
