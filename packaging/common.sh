# What the scripts of this folder share. They read it, so it is no script of its own.
# shellcheck shell=sh
export LC_ALL=C TZ=UTC
umask 022
# shellcheck source-path=SCRIPTDIR source=version.sh
. "$top/packaging/version.sh" || exit 1

fail() {
    echo "${0##*/}: $1" >&2
    exit 1
}

# Makes the folder $scratch, which goes when the script ends.
scratch_folder() {
    scratch=
    trap '[ -z "$scratch" ] || rm -rf "$scratch"' EXIT
    trap 'exit 129' HUP
    trap 'exit 130' INT
    trap 'exit 143' TERM
    scratch=$(mktemp -d) || exit 1
}

# for_processor WORD: sets $architecture as Debian calls it, amd64 where the word is none, and $processor as GNU does
for_processor() {
    architecture=${1:-amd64}
    case $architecture in
    amd64) processor=x86_64 ;;
    arm64) processor=aarch64 ;;
    *) fail "there is no program for $architecture: amd64 or arm64" ;;
    esac
    export ARCHITECTURE="$architecture"
}

# look_for_programs: those of the architecture are there
look_for_programs() {
    program=${LRITSTATION:-$top/crates/lr_program/out/lr_program}
    if [ "$architecture" = arm64 ]; then
        [ -x "$program-arm64" ] || fail "$program-arm64 is missing: packaging/arm64.sh makes it"
        return
    fi
    for built in "$program" "$program-v3"; do
        [ -x "$built" ] || fail "$built is missing: a first run of ./lritstation makes both on a newer processor"
    done
}

# begin TOOL..: looks for the tools and for the programs, and sets $version, and the time of all files: the commit's
begin() {
    for tool; do
        command -v "$tool" > /dev/null || fail "$tool is missing"
    done
    look_for_programs
    SOURCE_DATE_EPOCH=${SOURCE_DATE_EPOCH:-$(git -C "$top" log -1 --format=%ct)}
    [ -n "$SOURCE_DATE_EPOCH" ] || fail "there is no commit here, and no SOURCE_DATE_EPOCH"
    export SOURCE_DATE_EPOCH
    [ -z "$(git -C "$top" status --porcelain 2> /dev/null)" ] ||
        echo "${0##*/}: some files are not those of the commit, so these bytes aren't either" >&2
    version=$(version)
}

# put MODE FILE PLACE: a copy in $tree with these rights
put() { mkdir -p "$tree/${3%/*}" && install -m "$1" "$2" "$tree/$3"; }

# page NAME: one of the pages that are made from others
page() { python3 "$top/packaging/pages.py" "$1" "$top" "$version" "${prefix-}"; }

# made NAME PLACE: such a page in $tree
made() { mkdir -p "$tree/${2%/*}" && page "$1" > "$tree/$2"; }

# tool_page NAME PLACE: one that is made from the parser of gomtasil
tool_page() { mkdir -p "$tree/${2%/*}" && python3 "$top/packaging/tool_pages.py" "$1" "$top" "$version" > "$tree/$2"; }

# The tool: its launcher, its package, its manual page and its completions; ZSH as below.
fill_tool() {
    sed "1s,.*,#!/usr/bin/python3," "$top/tools/bin/gomtasil" > "$scratch/launcher" || return 1
    put 755 "$scratch/launcher" bin/gomtasil || return 1
    for module in "$top/tools/gomtasil/"*.py "$top/tools/gomtasil/"*.html; do
        put 644 "$module" "share/gomtasil/gomtasil/${module##*/}" || return 1
    done
    tool_page man share/man/man1/gomtasil.1 && gzip -9n "$tree/share/man/man1/gomtasil.1" || return 1
    tool_page bash share/bash-completion/completions/gomtasil || return 1
    tool_page zsh "share/zsh/$1/_gomtasil" || return 1
    tool_page fish share/fish/vendor_completions.d/gomtasil.fish
}

# The programs of the architecture, as bin/lritstation starts them.
fill_programs() {
    if [ "$architecture" = arm64 ]; then
        put 755 "$program-arm64" lib/gomtasil/lritstation-arm64
    else
        put 755 "$program" lib/gomtasil/lritstation-v2 && put 755 "$program-v3" lib/gomtasil/lritstation-v3
    fi
}

# The demodulator of the architecture, where it was made, with its manual page and completions; ZSH as below.
fill_demodulator() {
    demodulator=${LRITDEMOD:-$top/crates/lritdemod/out/lritdemod}
    [ "$architecture" = amd64 ] || demodulator=$demodulator-$architecture
    if [ ! -x "$demodulator" ]; then
        echo "${0##*/}: without lritdemod, which packaging/demodulator.sh makes, or arm64.sh" >&2
        return
    fi
    is_for_architecture "$demodulator" || fail "$demodulator is no program for $architecture"
    put 755 "$demodulator" bin/lritdemod || return 1
    for place in man:share/man/man1/lritdemod.1 bash:share/bash-completion/completions/lritdemod \
        "zsh:share/zsh/$1/_lritdemod" fish:share/fish/vendor_completions.d/lritdemod.fish; do
        file=$tree/${place#*:}
        mkdir -p "${file%/*}" || return 1
        python3 "$top/packaging/demod_pages.py" "${place%%:*}" "$top" "$version" > "$file" || return 1
    done
    gzip -9n "$tree/share/man/man1/lritdemod.1"
}

# is_for_architecture FILE: whether this file of code (ELF) is for the architecture, by the number of its processor
is_for_architecture() {
    case $architecture in
    amd64) number=62 ;;
    *) number=183 ;;
    esac
    [ "$(od -A n -t u1 -j 18 -N 2 "$1" | tr -d ' ')" = "${number}0" ]
}

# Whether there is a library for this architecture, whose folder is $library then.
has_library() {
    library=$top/out/library
    [ "$architecture" = amd64 ] || library=$library-$architecture
    library=${LIBRARY:-$library}
    if [ ! -f "$library/liblritstation.so.1" ]; then
        echo "${0##*/}: without the library, which packaging/library.sh makes" >&2
        return 1
    fi
    is_for_architecture "$library/liblritstation.so.1" || fail "$library is no library for $architecture"
}

# fill_library LIBRARIES: the library that is loaded, in this folder of libraries
fill_library() { put 644 "$library/liblritstation.so.1" "$1/liblritstation.so.1"; }

# fill_development LIBRARIES: what a program in C is compiled and linked with; pkg-config finds it from its file's place
fill_development() {
    put 644 "$library/lritstation.h" include/lritstation.h || return 1
    put 644 "$library/liblritstation.a" "$1/liblritstation.a" || return 1
    ln -s liblritstation.so.1 "$tree/$1/liblritstation.so" && mkdir -p "$tree/$1/pkgconfig" || return 1
    up=$(echo "$1/pkgconfig" | sed 's,[^/]*,..,g')
    sed "s,^prefix=.*,prefix=\${pcfiledir}/$up,; s,^Libs:.*,Libs: -L\${prefix}/$1 -llritstation,
        s,^Cflags:.*,Cflags: -I\${prefix}/include," "$library/lritstation.pc" > "$tree/$1/pkgconfig/lritstation.pc"
}

# fill TREE ZSH: what both packages have, under the folder TREE; ZSH is the folder of zsh's functions there
fill() {
    tree=$1
    put 755 "$top/packaging/lritstation" bin/lritstation || return 1
    fill_programs && fill_demodulator "$2" || return 1
    for example in "$top/examples/"*.sh; do
        # (what others read is no program of its own, and has no `#!`)
        mode=755
        head -c 2 "$example" | grep -q '#!' || mode=644
        put $mode "$example" "share/gomtasil/${example##*/}" || return 1
    done
    put 644 "$top/examples/station.conf" share/gomtasil/station.conf || return 1
    put 644 "$top/packaging/words.sh" share/gomtasil/words.sh || return 1
    fill_tool "$2" || return 1
    made help share/gomtasil/help && made commands share/gomtasil/commands || return 1
    made man share/man/man1/lritstation.1 && gzip -9n "$tree/share/man/man1/lritstation.1" || return 1
    made bash share/bash-completion/completions/lritstation || return 1
    made zsh "share/zsh/$2/_lritstation" || return 1
    made fish share/fish/vendor_completions.d/lritstation.fish || return 1
    (cd "$top" && ls README.md CONTRIBUTING.md SECURITY.md docs/*.md docs/*.png trials/README.md bench/README.md) \
        > "$scratch/documents"
    while read -r document; do
        put 644 "$top/$document" "share/doc/gomtasil/$document" || return 1
    done < "$scratch/documents"
    for page in index:INDEX definitions:DEFINITIONS; do
        python3 "$top/trials/${page%:*}.py" "$scratch/${page#*:}.md" > "$scratch/said" || return 1
        put 644 "$scratch/${page#*:}.md" "share/doc/gomtasil/docs/${page#*:}.md"
    done
    put 644 "$top/packaging/copyright" share/doc/gomtasil/copyright
}

# dated FOLDER: every file and folder has the commit's time
dated() { find "$1" -exec touch --no-dereference --date "@$SOURCE_DATE_EPOCH" {} +; }
