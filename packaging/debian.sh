#!/bin/sh
# Makes a Debian package of the built programs, the tool, the scripts and units of examples/, manual pages,
# completions and documents, as FOLDER/gomtasil_VERSION_ARCHITECTURE.deb, and says its name. Where the library was made
# it makes liblritstation1 and liblritstation-dev too. Nothing is fetched. When the package is installed nothing runs,
# but for upgrade.sh after an earlier version. The same commit and programs give the same bytes.
# Usage: packaging/debian.sh [FOLDER [ARCHITECTURE]], by default the folder out, and amd64; arm64 is the other one.
# Needs dpkg-deb, python3 and git. $LRITSTATION may name the built program; the one for x86-64-v3 stands beside it, with
# -v3 after its name, and the one for arm64, as packaging/arm64.sh makes it, with -arm64. $LRITDEMOD may name the built
# demodulator likewise; where it isn't there the package is without it. $LIBRARY may name the folder of the library that
# packaging/library.sh made, by default out/library, or out/library-arm64.
top=$(cd -- "$(dirname -- "$0")/.." && pwd) || exit 1
# shellcheck source-path=SCRIPTDIR source=common.sh
. "$top/packaging/common.sh"

# unit FILE PLACE: a unit, or a part of one, which starts the scripts where the package has them
unit() {
    sed 's,/usr/local/,/usr/,' "$1" > "$scratch/unit" && put 644 "$scratch/unit" "lib/systemd/system/$2"
}

# The units stand where systemd looks. Those of one station serve for several too, by a name after `@`.
units() {
    for file in "$top/examples/"*.service "$top/examples/"*.timer "$top/examples/"*.path; do
        unit "$file" "${file##*/}" || return 1
    done
    for name in $(several); do
        unit "$top/examples/$name" "${name%.*}@.${name##*.}" || return 1
    done
    for file in "$top/examples/"*.d/*.conf; do
        unit "$file" "${file#"$top/examples/"}" || return 1
    done
}

# Those units in which `%i` stands.
several() { (cd "$top/examples" && grep -l '/%i' gomtasil-*.service; ls gomtasil-page.timer gomtasil-pictures.timer); }

# What dpkg runs after it has unpacked the package.
postinst() {
    cat << 'POSTINST'
#!/bin/sh
set -e
# An earlier version of the package had other names of units.
if [ "$1" = configure ] && [ -n "$2" ]; then
    /usr/share/gomtasil/upgrade.sh
fi
POSTINST
}

# overrides NAME: of this package (what is in it keeps the bytes that were tried, so it isn't stripped)
overrides() {
    mkdir -p "$tree/share/lintian/overrides" || return 1
    for name in "$tree/lib/gomtasil/"lritstation-* "$tree/$libraries/"*.so.1 "$tree/bin/lritdemod"; do
        [ ! -f "$name" ] || echo "$1: unstripped-binary-or-object [usr${name#"$tree"}]"
    done > "$tree/share/lintian/overrides/$1"
}

# What the description says of the processor.
processors() {
    if [ "$architecture" = arm64 ]; then
        echo " The program is for every arm64 processor."
    else
        echo " The processor must have what x86-64-v2 needs. Where it has what x86-64-v3"
        echo " needs, a faster program is started."
    fi
}

control() {
    cat << CONTROL
Package: gomtasil
Version: $version
Architecture: $architecture
Maintainer: Gomtasil maintainers <maintainers@users.noreply.gomtasil.example>
Installed-Size: $(du -sk --apparent-size "$package/usr" | cut -f 1)
Depends: libc6 (>= 2.34), python3 (>= 3.11)
Recommends: netcat-openbsd, python3-jinja2, python3-pil
Suggests: curl, gmt, gmt-gshhg-low, liblritstation1, msmtp, nanomsg-utils, rtl-sdr
Section: hamradio
Priority: optional
Description: receives files from the signal of weather satellites
 Gomtasil is the software half of a ground station for LRIT and HRIT. It takes
 the soft symbols of a demodulator, finds and corrects the frames, and joins
 their packets to files. These it keeps on a shelf, one journalled file that
 outlives a stop at any moment. The tool gomtasil makes pictures, texts and a
 page of them, and tells how a station goes.
 .
$(processors)
CONTROL
}

# part NAME SECTION DEPENDS: the control file of a package of the library
part() {
    cat << CONTROL
Package: $1
Source: gomtasil
Version: $version
Architecture: $architecture
Maintainer: Gomtasil maintainers <maintainers@users.noreply.gomtasil.example>
Installed-Size: $(du -sk --apparent-size "$package/usr" | cut -f 1)
Depends: $3
Section: $2
Priority: optional
Multi-Arch: same
CONTROL
    cat
}

# begin_package NAME: a folder for this package, with its rights and changes
begin_package() {
    package=$scratch/$1
    tree=$package/usr
    mkdir -p "$package/DEBIAN" && put 644 "$top/packaging/copyright" "share/doc/$1/copyright" || exit 1
    made changelog "share/doc/$1/changelog" && gzip -9n "$tree/share/doc/$1/changelog" || exit 1
}

# finish NAME: makes the package of this folder, and says its name
finish() {
    (cd "$package" && find usr -type f | sort | xargs md5sum > DEBIAN/md5sums) || exit 1
    dated "$package"
    name=$1_${version}_$architecture.deb
    dpkg-deb --root-owner-group -Zxz --build "$package" "$scratch/$name" > "$scratch/said" || fail "dpkg-deb failed"
    mv "$scratch/$name" "$folder/$name" && echo "$folder/$name"
}

# The library as Debian has libraries: what is loaded, and what a program is compiled with.
library_packages() {
    begin_package liblritstation1
    fill_library "$libraries" && overrides liblritstation1 || exit 1
    echo "liblritstation 1 liblritstation1 (>= $version)" > "$package/DEBIAN/shlibs"
    echo "activate-noawait ldconfig" > "$package/DEBIAN/triggers"
    part liblritstation1 libs "libc6 (>= 2.34)" > "$package/DEBIAN/control" << 'END' && finish liblritstation1 || exit 1
Description: software half of a weather satellite ground station - library
 The commands of lritstation as functions of C: over bytes in memory, and over
 devices of the caller. The Python module gomtasil.embedded uses it.
END
    begin_package liblritstation-dev
    fill_development "$libraries" || exit 1
    part liblritstation-dev libdevel "liblritstation1 (= $version)" > "$package/DEBIAN/control" << 'END' &&
Description: software half of a weather satellite ground station - development
 The header, the static library and the file for pkg-config of liblritstation1.
END
        finish liblritstation-dev || exit 1
}

for_processor "${2-}"
begin dpkg-deb python3 gzip realpath
folder=$(realpath -m -- "${1:-$top/out}") && mkdir -p "$folder" || exit 1
scratch_folder
libraries=lib/x86_64-linux-gnu
[ "$architecture" = amd64 ] || libraries=lib/aarch64-linux-gnu
prefix=/usr/
package=$scratch/package
fill "$package/usr" vendor-completions || fail "the files can't be copied"
units || fail "the units can't be written"
put 755 "$top/packaging/upgrade.sh" share/gomtasil/upgrade.sh || exit 1
overrides gomtasil || exit 1
made changelog share/doc/gomtasil/changelog && gzip -9n "$tree/share/doc/gomtasil/changelog" || exit 1
mkdir -p "$package/DEBIAN" && control > "$package/DEBIAN/control" && postinst > "$package/DEBIAN/postinst" || exit 1
chmod 755 "$package/DEBIAN/postinst"
export DPKG_DEB_THREADS_MAX=1
finish gomtasil
! has_library || library_packages
