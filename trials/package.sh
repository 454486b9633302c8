#!/bin/sh
# The Debian package and the archive of packaging/: two runs and another clone give the same bytes, the installed
# `lritstation` starts the program that fits the processor, refuses mistyped words and makes no file for a command that
# only reads, and the pages name every command and no path that isn't installed.
# Then a fresh Debian system: the package is installed there, README's example runs as a user without rights, the shelf
# is that of the built program, systemd takes the units, and after the removal nothing is left.
# Usage: trials/package.sh [SUITE [ARCHITECTURE [TRIAL..]]], bookworm and amd64 by default. Each TRIAL is the name of
# another trial with its words ('kill 6 300'): it runs in that system too, with the program that is installed there.
# Where one of them tries nothing there, the status is 77. Needs dpkg-deb, git, python3, xz, and both built programs:
# that of $LRITSTATION, or else of this folder, and the one beside it with -v3 after its name. Root, mmdebstrap and the
# network for the system, and lintian, zsh, fish and man for some cases. It takes a minute. For arm64 it needs the
# program with -arm64 after its name instead, and that this machine starts programs for arm64 by qemu (binfmt_misc with
# flag F, as Debian's qemu-user-static sets it up). The system is one for arm64 then, for which mmdebstrap needs
# arch-test; where there is none the status is 77. $SYSTEMS in the environment may name a folder that has fresh systems
# as ARCHITECTURE-SUITE (amd64-bookworm), of which a copy is taken; $REFUSE_LIBRARY is for memory.sh. $LIBRARY may name
# the folder of the library, as for packaging/debian.sh; with one, pkg-config and a C compiler are needed for a case.
# shellcheck disable=SC2012,SC2016 # (the names are those that are made here; a variable is one of an inner shell)
. "$(dirname "$0")/lib.sh"
suite=${1:-bookworm} architecture=${2:-amd64}
shift $(($# < 2 ? $# : 2))
needs dpkg-deb git python3 xz
scratch_folder
# (a system may have mounts of this machine)
trap 'rm -rf --one-file-system "$scratch"' EXIT
find_program
if [ "$architecture" = arm64 ]; then
    if [ ! -x "$LRITSTATION-arm64" ] || ! grep -q '^flags: .*F' /proc/sys/fs/binfmt_misc/qemu-aarch64 2> /dev/null; then
        nothing "there is no program for arm64, or this machine starts none"
    fi
    export QEMU_LD_PREFIX=/usr/aarch64-linux-gnu
elif [ ! -x "$LRITSTATION-v3" ]; then
    nothing "there is no program for x86-64-v3"
fi
# (another clone has no library of its own)
library=$top/out/library
[ "$architecture" = amd64 ] || library=$library-$architecture
export LIBRARY="${LIBRARY:-$library}"
unset SOURCE_DATE_EPOCH LRITSTATION_CPU
cd "$scratch" || exit 1
installed_there=''
skipped=''

# same ONE OTHER: these files have the same bytes
same() {
    cmp -s "$1" "$2" || fail "$1 and $2 differ"
    cases=$((cases + 1))
}

# lacks TOOL WHAT: whether the tool is missing, with a word then
lacks() {
    command -v "$1" > /dev/null && return 1
    echo "$1 is missing: $2"
}

# make_packages TOP FOLDER: both packages of this clone
make_packages() {
    "$1/packaging/debian.sh" "$2" "$architecture" > made 2> said || fail "debian.sh: $(cat said)"
    "$1/packaging/archive.sh" "$2" "$architecture" > made 2> said || fail "archive.sh: $(cat said)"
}

try_bytes() {
    make_packages "$top" first
    sleep 1
    make_packages "$top" second
    for file in first/*; do
        same "$file" "second/${file##*/}"
    done
    if [ -n "$(git -C "$top" status --porcelain)" ]; then
        echo "some files are not those of the commit: no other clone was tried"
        return
    fi
    git clone -q "$top" "another place/clone" 2> said || fail "git: $(cat said)"
    (umask 077 && make_packages "$PWD/another place/clone" third) || exit 1
    for file in first/*; do
        same "$file" "third/${file##*/}"
    done
}

# loader LINE: what the loader says from here on of the processor, to the `lritstation` of the folder `away`
loader() {
    printf '#!/bin/sh\necho "  %s"\n' "$1" > loader
    chmod +x loader
}

# starts WHAT WANTED: which program is started, as the very process, with its words, its status and its streams
starts() {
    echo input | "away/bin/lritstation" - list 'a  b' > out 2> err
    is "the status where $1" "$?" 7
    is "what is started where $1" "$(cat out) $(cat err)" "$2 - list a  b input error"
}

# The archive, unpacked under a path with a space, with scripts in the places of its programs.
try_choice() {
    mkdir -p "un packed"
    xz -dc first/*.tar.xz | tar -C "un packed" -xf - || fail "the archive"
    installed=$(echo "$PWD/un packed/"gomtasil-*)
    cp -R "$installed" away
    for level in v2 v3 arm64; do
        [ -x "away/lib/gomtasil/lritstation-$level" ] || continue
        printf '#!/bin/sh\necho "%s $*" $(cat)\necho error >&2\nexit 7\n' $level > away/lib/gomtasil/lritstation-$level
    done
    sed -i "s,^loader=.*,loader=$PWD/loader," away/bin/lritstation
    if [ "$architecture" = arm64 ]; then
        is "the programs there" "$(ls away/lib/gomtasil)" lritstation-arm64
        starts "the processor is arm64" arm64
        return
    fi
    loader "x86-64-v3 (supported, searched)"
    starts "the processor is a new one" v3
    LRITSTATION_CPU=x86-64-v2 starts "the environment says so" v2
    loader "x86-64-v2 (supported, searched)"
    starts "the processor is an old one" v2
    loader "x86-64-v3"
    starts "the loader doesn't say that it is supported" v2
    rm loader
    starts "there is no loader" v2
}

# ends WHAT STATUS WORDS: the installed `lritstation` ends so with these words; what it says is in ../out and ../err
ends() {
    what=$1
    wanted=$2
    shift 2
    "$station" "$@" > ../out 2> ../err < /dev/null
    is "the status with $what" "$?" "$wanted"
}

# The words of a help, a line each, and its paths as those of a checkout. (A longer path moves the ends of the lines.)
placed() { tr -s ' \n' '\n' | sed 's,share/doc/gomtasil/docs/,docs/,g; s,share/gomtasil/,examples/,g'; }

# What is answered at once, and the true program: its statuses, a signal, and a link to it.
try_installed() {
    station=$installed/bin/lritstation
    mkdir empty && cd empty || exit 1
    is "the version" "$("$station" --version)" "Gomtasil $version"
    is "the first line of the help" "$("$station" --help | head -n 1 | cut -d : -f 1)" "Gomtasil $version"
    is "what -h says" "$("$station" -h)" "$("$station" --help)"
    is "the files that are there then" "$(ls -A)" ""
    is "the last line of the help" "$("$station" --help | tail -n 1)" "$("$top/lritstation" --help | tail -n 1)"
    ends "no word" 2
    is "what is said then" "$(cat ../err)" "$("$station" --help)"
    for words in "shelf" "shelf nothing" "list shelf" "nowhere/shelf nothing" "- list," "--help nothing"; do
        # shellcheck disable=SC2086 # (they are several words)
        ends "$words" 2 $words
        is "what is said of $words" "$(cat ../out ../err | sed '/^lritstation: ./d')" \
            "station: usage: SHELF COMMAND [WORDS]"
        is "lines on what is wrong with $words" "$(grep -c '^lritstation: ' ../err)" 1
    done
    ends "a folder that isn't there" 1 nowhere/shelf verify
    for word in list verify "show 0" render "transmit 0 1 0"; do
        # shellcheck disable=SC2086 # (they are several words)
        ends "$word of a shelf that isn't there" 6 ./missing.shelf $word
        is "what is said of $word" "$(cat ../out ../err)" "station: not a shelf at 0
lritstation: ./missing.shelf: no such file"
    done
    is "the files that are there still" "$(ls -A)" ""
    ends "init of a shelf that isn't there" 0 ./missing.shelf init 1000
    is "the file that it makes" "$(ls -A)" missing.shelf
    for word in $("$station" --help | awk '/^  [a-z]/ { sub(/,.*/, "", $1); print $1 }'); do
        is "the help of $word" "$("$station" --help "$word" | placed)" "$("$top/lritstation" --help "$word" | placed)"
    done
    ln -s "$station" ../link
    is "what a link to it does" "$(../link - trial 1 1 0 | cut -d ' ' -f 4)" 1
    cd ..
    mkfifo hold
    "$station" held.shelf init 1000 > out || fail "init"
    "$station" held.shelf receive < hold > out 2> err &
    receiving=$!
    exec 9> hold
    sleep 1
    is "which program has the process" "$(basename "$(readlink "/proc/$receiving/exe")")" "$process"
    kill "$receiving"
    wait "$receiving" 2> said
    is "the status after TERM" "$?" 143
    exec 9>&-
}

# Each command of the help stands in the manual page and in the completions.
try_pages() {
    share=$installed/share
    gzip -dc "$share/man/man1/lritstation.1.gz" > page || fail "the manual page"
    sed 's/\\f[BR]//g; s/\\-/-/g' page > plain
    names='s/^  \([a-z, ]*[a-z]\)  .*/\1/p; s/^  \([a-z]*\) [[A-Z].*/\1/p'
    for word in $(sed -n "$names" "$share/gomtasil/help" | tr -d ,); do
        for file in plain "$share/bash-completion/completions/lritstation" "$share/zsh/site-functions/_lritstation" \
            "$share/fish/vendor_completions.d/lritstation.fish"; do
            grep -qw "$word" "$file" || fail "${file##*/} doesn't name $word"
            cases=$((cases + 1))
        done
    done
    for heading in COMMANDS OPTIONS "EXIT STATUS" ENVIRONMENT FILES; do
        is "headings $heading of the manual page" "$(grep -c "^.SH \"$heading\"" plain)" 1
    done
    for path in $(grep -oE '(^|[ `(])(share|lib)/[A-Za-z0-9./_-]*[A-Za-z0-9/]' plain | tr -d '`( '); do
        [ -e "$installed/$path" ] || fail "the manual page names $path, which isn't installed"
        cases=$((cases + 1))
    done
    is "the statuses on the manual page" \
        "$(sed -n '/^.SH "EXIT STATUS"/,/^.SH "THE/p' plain | grep -c '^[0-9]\{1,\}@')" \
        "$(sed -n '/^## Statuses/,/^## The/p' "$top/docs/FORMATS.md" | grep -c '^| [0-9]')"
    is "paths of a checkout on the manual page" "$(grep -cE '(^|[^/])(examples|docs)/' page)" 0
    gzip -dc "$share/man/man1/gomtasil.1.gz" > tool-page || fail "the manual page of gomtasil"
    for word in $("$top/tools/bin/gomtasil" --help | sed -n 's/^    \([a-z]*\)  .*/\1/p'); do
        for file in tool-page "$share/bash-completion/completions/gomtasil" "$share/zsh/site-functions/_gomtasil" \
            "$share/fish/vendor_completions.d/gomtasil.fish"; do
            grep -qiw "$word" "$file" || fail "${file##*/} doesn't name $word"
            cases=$((cases + 1))
        done
    done
    for page in page tool-page; do
        lacks man "the manual pages were only read" ||
            is "what man says" "$(man --warnings -l $page 2>&1 > /dev/null)" ""
    done
    lacks bash "its completions were only read" ||
        is "what bash completes" "$(completed)" "receive render repack symbols blocks "
    for program in lritstation gomtasil; do
        lacks zsh "its completions were only read" || zsh -n "$share/zsh/site-functions/_$program" || fail "zsh"
        lacks fish "its completions were only read" ||
            fish -n "$share/fish/vendor_completions.d/$program.fish" || fail "fish"
    done
    is "what the archive's tool says" "$("$installed/bin/gomtasil" --help | head -n 1)" \
        "usage: gomtasil [-h] [--version] COMMAND ..."
}

completed() {
    bash -c '. "$1"
        for words in "x re" "x decode --input "; do
            IFS=" " read -r -a COMP_WORDS <<< "lritstation $words"
            [ "${words% }" = "$words" ] || COMP_WORDS+=("")
            COMP_CWORD=$((${#COMP_WORDS[@]} - 1))
            _lritstation
            printf "%s " "${COMPREPLY[@]}"
        done' bash "$share/bash-completion/completions/lritstation"
}

# The demodulator, where it was made: each option of its help stands on its manual page and in its completions.
try_demodulator() {
    share=$installed/share
    if [ ! -x "$installed/bin/lritdemod" ]; then
        echo "there is no lritdemod for $architecture: it wasn't tried (packaging/demodulator.sh makes it)"
        return
    fi
    gzip -dc "$share/man/man1/lritdemod.1.gz" > demod-page || fail "the manual page of lritdemod"
    sed 's/\\f[BRI]//g; s/\\-/-/g' demod-page > plain
    sed -n 's/^ *\(-h, \)*--\([a-z-]*\) .*/\2/p' "$top/crates/lritdemod/stdout" > words
    while read -r word; do
        for file in plain "$share/bash-completion/completions/lritdemod" "$share/zsh/site-functions/_lritdemod" \
            "$share/fish/vendor_completions.d/lritdemod.fish"; do
            grep -q -e "$word" "$file" || fail "${file##*/} doesn't name $word"
            cases=$((cases + 1))
        done
    done < words
    lacks man "its manual page was only read" ||
        is "what man says" "$(man --warnings -l demod-page 2>&1 > /dev/null)" ""
    lacks zsh "its completions were only read" || zsh -n "$share/zsh/site-functions/_lritdemod" || fail "zsh"
    lacks fish "its completions were only read" ||
        fish -n "$share/fish/vendor_completions.d/lritdemod.fish" || fail "fish"
    lacks bash "its completions were only read" || bash -n "$share/bash-completion/completions/lritdemod" || fail "bash"
    [ "$architecture" != amd64 ] ||
        is "its help" "$("$installed/bin/lritdemod" --help)" "$(cat "$top/crates/lritdemod/stdout")"
}

# The library, where it was made: a program in C finds it by its file for pkg-config.
try_library() {
    compiler=cc triplet=x86_64-linux-gnu
    [ "$architecture" = amd64 ] || compiler=aarch64-linux-gnu-gcc triplet=aarch64-linux-gnu
    if [ ! -f "$installed/lib/liblritstation.so.1" ]; then
        echo "there is no library for $architecture: it wasn't tried (packaging/library.sh makes it)"
        return
    fi
    for package in first/liblritstation*.deb; do
        dpkg-deb --extract "$package" unpacked || fail "$package"
    done
    try_development "$installed" lib
    try_development "$PWD/unpacked/usr" "lib/$triplet"
}

# try_development PREFIX LIBRARIES: a program in C with what stands below
try_development() {
    is "the files of the library in $1" "$(cd "$1" && echo include/* "$2"/liblrit* "$2"/pkgconfig/*)" \
        "include/lritstation.h $2/liblritstation.a $2/liblritstation.so $2/liblritstation.so.1 $2/pkgconfig/lritstation.pc"
    lacks pkg-config "the library was only listed" && return
    lacks "$compiler" "the library was only listed" && return
    flags=$(PKG_CONFIG_PATH=$1/$2/pkgconfig pkg-config --cflags --libs lritstation) || fail "pkg-config"
    eval "$compiler '$top/trials/library.c' -o uses $flags" > said 2>&1 || fail "$compiler: $(cat said)"
    : > new.shelf
    is "what a program with the library says" "$(LD_LIBRARY_PATH=$1/$2 ./uses bytes new.shelf - init 1000)" \
        "shelf capacity 1000"
}

try_lintian() {
    lacks lintian "the package wasn't looked at" && return
    # (it would rather not be root)
    is "what lintian finds" "$(lintian --fail-on none first/*.deb 2> said | grep '^[EW]:')" ""
}

# make_root [TRIAL..]: a fresh system in the folder `root`, where it can be had, with what these need
make_root() {
    if [ -d "${SYSTEMS-}/$architecture-$suite" ]; then
        cp -a "$SYSTEMS/$architecture-$suite" root
        return
    fi
    lacks mmdebstrap "nothing was installed" && return 1
    mirror=$(cat /etc/apt/sources.list.d/debian.sources /etc/apt/sources.list 2> /dev/null |
        awk '$1 == "URIs:" || $1 == "deb" { print $2; exit }')
    mmdebstrap --quiet --variant=apt --architectures="$architecture" \
        --include="netcat-openbsd,procps,python3-jinja2,python3-pil,systemd${1:+,git,nanomsg-utils}" "$suite" root \
        "${mirror:-http://deb.debian.org/debian}" > said 2>&1 && return
    tail -n 3 said
    echo "no Debian system can be had here (is there a network?): nothing was installed"
    return 1
}

# example: a script that runs README's example word for word; where a command has lines after it, it printed them
example() {
    cat << 'EXAMPLE'
run() {
    eval "$1" > /tmp/said 2>&1 || { echo "'$1' ended with $?: $(cat /tmp/said)"; exit 1; }
    [ -z "$2" ] || [ "$(cat /tmp/said)" = "$2" ] || { echo "'$1' printed '$(cat /tmp/said)', not '$2'"; exit 1; }
}
cd /example || exit 1
EXAMPLE
    awk '
        function end() { if (command != "") printf "run '\''%s'\'' '\''%s'\''\n", command, lines }
        $0 == "## From symbols to a picture" { on = 1; next }
        /^## / { on = 0 }
        on && /^    \$ / { end(); command = substr($0, 7); lines = ""; next }
        on && /^    / { lines = lines (lines == "" ? "" : "\n") substr($0, 5) }
        END { end() }' "$top/README.md"
}

# radio_lines: README's lines from a radio to the shelf
radio_lines() {
    awk '
        $0 == "## From a radio" { on = 1; next }
        /^## / { on = 0 }
        on && /^    / { print }' "$top/README.md"
}

# README's lines from a radio to the picture, in the system, where samples of its recording take the radio's place. The
# picture is that of its symbols.
try_radio() {
    if [ ! -x root/usr/bin/lritdemod ] || ! python_with numpy; then
        skipped="$skipped radio (lritdemod, or numpy here)"
        return
    fi
    (cd "$top/bench" && "$python" -m demod.channel u8) < root/example/recording > root/example/samples || fail "samples"
    printf '#!/bin/sh\nexec cat /example/samples\n' > root/usr/local/bin/rtl_sdr
    chmod 755 root/usr/local/bin/rtl_sdr
    {
        echo 'set -e; cd /example; rm -r my.shelf; mv pictures pictures-before'
        echo 'lritstation my.shelf init 1000000 > /tmp/said'
        radio_lines
        grep -h '^    \$ gomtasil pictures ' "$top/README.md" | cut -c 7-
    } > root/example/radio
    chroot --userspec=nobody:nogroup root sh /example/radio > said 2>&1 < /dev/null || fail "from a radio: $(cat said)"
    grep -q 'lritdemod: .* locked, Es/N0 [56]\.[0-9] dB' said || fail "what is said of the signal: $(cat said)"
    # (drawn symbols come after the last frame, and the lock looks for one more there)
    is "the frames from a radio" "$(grep -o 'restored 470 lost 1 packets 54 files 6 ' said)" \
        "restored 470 lost 1 packets 54 files 6 "
    for picture in root/example/pictures-before/*.png; do
        same "$picture" "root/example/pictures/${picture##*/}"
    done
    rm root/usr/local/bin/rtl_sdr
}

# files: what stands in the system, without what lasts no start, and what apt and dpkg note for themselves
files() { find root -xdev | grep -v '^root/\(run\|tmp\|var/lib/dpkg\|var/lib/apt\|var/log\|var/cache\)/' | sort; }

# apt VERB PACKAGE: in the system
apt() { chroot root apt-get "$1" --yes "$2" > said 2>&1 < /dev/null || fail "apt-get $1: $(cat said)"; }

# in_system WORDS: runs these in the system, which has processes of its own and the devices of this machine
in_system() {
    # shellcheck disable=SC2016 # (they are those of the inner shell)
    unshare --mount --pid --fork --kill-child sh -c \
        'mount -t proc proc root/proc && mount --bind /dev root/dev && chroot root "$@"; exit $?' sh "$@"
}

# Other trials, with the program that is installed in the system. (No file of Python's own is to be new then.)
try_others() {
    mkdir root/top
    (cd "$top" && cp -R CHANGELOG.md HANDLES README.md docs examples lritstation packaging reference tools trials \
        "$OLDPWD/root/top/") ||
        fail "the trials can't be copied"
    [ -z "${REFUSE_LIBRARY-}" ] || cp "$REFUSE_LIBRARY" root/top/refuse.so || fail "the library for memory.sh"
    for trial; do
        # shellcheck disable=SC2086 # (words of a trial)
        set -- $trial
        trial=$1
        shift
        in_system env PATH=/usr/sbin:/usr/bin:/sbin:/bin PYTHONDONTWRITEBYTECODE=1 \
            LRITSTATION="/usr/lib/gomtasil/lritstation-$usual" ${REFUSE_LIBRARY:+REFUSE_LIBRARY=/top/refuse.so} \
            sh "/top/trials/$trial.sh" "$@" < /dev/null
        case $? in
        0) cases=$((cases + 1)) ;;
        77) skipped="$skipped $trial" ;;
        *) fail "$trial.sh failed in $suite" ;;
        esac
    done
    rm -rf root/top
}

try_system() {
    if [ "$(id -u)" != 0 ]; then
        echo "this needs root: nothing was installed"
        return
    fi
    make_root "$@" || return
    cp first/gomtasil_*.deb root/gomtasil.deb
    files > before
    apt install /gomtasil.deb
    mkdir -m 777 root/example
    example > root/example/run
    is "the commands of README's example" "$(grep -c '^run ' root/example/run)" "$(grep -c '^    \$ ' "$top/README.md")"
    is "what went wrong with them" "$(chroot --userspec=nobody:nogroup root sh /example/run 2>&1)" ""
    "$LRITSTATION" my.shelf init 1000000 > out || fail "init"
    "$LRITSTATION" my.shelf receive --line nrz-m --g2 plain < root/example/recording > out || fail "receive"
    same my.shelf root/example/my.shelf
    is "the page and the pictures" \
        "$(cd root/example && ls page/index.html earth.pgm pictures/*.png | wc -l)" 3
    try_radio
    for file in root/usr/share/doc/gomtasil/docs/GLOSSARY.md root/usr/share/doc/gomtasil/CONTRIBUTING.md; do
        [ -f "$file" ] || fail "README names $file"
        cases=$((cases + 1))
    done
    is "the version there" "$(chroot root lritstation --version)" "Gomtasil $version"
    is "the version of the tool there" "$(chroot root gomtasil --version)" "Gomtasil $version"
    rm -rf root/example root/tmp/said
    line='from gomtasil import embedded; print(embedded.run(["init", "1000"])[:3])'
    if [ -f "$installed/lib/liblritstation.so.1" ]; then
        for package in liblritstation1 liblritstation-dev; do
            cp first/${package}_*.deb "root/$package.deb" && apt install "/$package.deb" && rm "root/$package.deb"
        done
        is "what the library says in Python there" "$(chroot root env PYTHONPATH=/usr/share/gomtasil \
            PYTHONDONTWRITEBYTECODE=1 python3 -c "$line" 2>&1)" "(0, b'shelf capacity 1000\\n', '')"
        apt purge liblritstation1
    fi
    try_units
    try_others "$@"
    apt purge gomtasil
    files > after
    is "what is new after the removal" "$(diff before after)" ""
    installed_there=yes
}

# The units of the package, as systemd reads them.
try_units() {
    for unit in $(cd "$top/examples" && ls ./*.service ./*.timer); do
        unit=${unit#./}
        is "what systemd says of $unit" "$(chroot root systemd-analyze verify "/usr/lib/systemd/system/$unit" 2>&1)" ""
    done
}

process=lritstation-v2 usual=v2
! /lib64/ld-linux-x86-64.so.2 --help | grep -q 'x86-64-v3 (supported' || process=lritstation-v3
if [ "$architecture" = arm64 ]; then
    process=$(basename "$(realpath "$(sed -n 's/^interpreter //p' /proc/sys/fs/binfmt_misc/qemu-aarch64)")")
    usual=arm64
fi
try_bytes
version=$(dpkg-deb --field first/gomtasil_*.deb Version)
for part in choice installed pages demodulator library lintian; do
    try_$part
done
try_system "$@"
installed_there=${installed_there:+, with an installation in $suite}
echo "trials/package.sh: $cases cases$installed_there${skipped:+; tried nothing there:$skipped}"
# (for arm64, and with other trials, the installation is what it is about)
[ "$architecture $#" = "amd64 0" ] || [ -n "$installed_there" ] || exit 77
[ -z "$skipped" ] || exit 77
