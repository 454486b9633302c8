#!/bin/sh
# Makes an archive of the same files as the Debian package, as FOLDER/gomtasil-VERSION-x86_64.tar.xz, or aarch64 for
# arm64, and says its name. It unpacks anywhere: bin/lritstation finds the programs by its own path. The units are in
# share/gomtasil, and name /usr/local/share/gomtasil. The same commit and programs give the same bytes.
# Usage: packaging/archive.sh [FOLDER [ARCHITECTURE]], by default the folder out, and amd64; arm64 is the other one.
# Needs tar, xz, python3 and git. $LRITSTATION may name the built program, as for packaging/debian.sh.
top=$(cd -- "$(dirname -- "$0")/.." && pwd) || exit 1
# shellcheck source-path=SCRIPTDIR source=common.sh
. "$top/packaging/common.sh"

for_processor "${2-}"
begin tar xz python3 gzip realpath
folder=$(realpath -m -- "${1:-$top/out}") && mkdir -p "$folder" || exit 1
scratch_folder
base=gomtasil-$version
fill "$scratch/$base" site-functions || fail "the files can't be copied"
! has_library || { fill_library lib && fill_development lib; } || fail "the library can't be copied"
for unit in "$top/examples/"*.service "$top/examples/"*.timer; do
    put 644 "$unit" "share/gomtasil/${unit##*/}" || exit 1
done
put 644 "$top/CHANGELOG.md" share/doc/gomtasil/CHANGELOG.md || exit 1
dated "$scratch/$base"
name=$base-$processor.tar.xz
cd "$scratch" || exit 1
tar --format=ustar --sort=name --owner=0 --group=0 --numeric-owner --create --file="$base.tar" "$base" ||
    fail "tar failed"
xz -6 --threads=1 --stdout "$base.tar" > "$name" || fail "xz failed"
mv "$name" "$folder/$name" && echo "$folder/$name"
