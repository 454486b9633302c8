#!/bin/sh
# The scripts under examples/ and the wrapper `lritstation`: shelves for weeks and days, full ones and full disks, a
# bundle of recordings, a station of symbols, blocks and frames, what a signal leaves, ways in, and the units beside
# docs/OPERATING.md.
# Usage: trials/examples.sh [PART..], by default all parts of its end. Needs python3, and rt where $LRITSTATION names no
# built program; systemd-analyze, nanocat, shellcheck, and root for small disks, for some cases each.
# shellcheck disable=SC2012,SC2013,SC2094 # (names are those that are made here; no file is read and written at once)
. "$(dirname "$0")/lib.sh"
needs python3
small=
clear_away() {
    [ -z "$small" ] || umount "$small"
    rm -rf "$scratch"
}

scratch=$(mktemp -d) || exit 1
trap clear_away EXIT
trap 'exit 130' HUP INT TERM
find_program
mkdir -p "$scratch/in/side" "$scratch/tmp" && cd "$scratch/in/side" || exit 1
examples=$top/examples
python="python3 $top/trials/examples.py"
long=$((100000 + $$)) # seconds: of programs that are to be ended, and told from those of other runs
cases=0 skipped=0

# ends WHAT STATUS WORDS: a program ends so, and says something in `out` and `err`
ends() {
    what=$1
    wanted=$2
    shift 2
    "$@" > out 2> err
    status=$?
    [ "$status" = "$wanted" ] || fail "$what ends with $status, not $wanted: $(cat out err)"
    cases=$((cases + 1))
}

# says WHAT TEXT: these words stand in `out` or `err`
says() {
    cat out err | grep -qF -e "$2" || fail "$1 says '$(cat out err)', and not '$2'"
    cases=$((cases + 1))
}

# lacks TOOL WHAT: whether the tool is missing, with a word then
lacks() {
    command -v "$1" > /dev/null && return 1
    echo "$1 is missing: $2"
    skipped=$((skipped + 1))
}

# small_disk SIZE: a file system of this size on `small`, where it can be had
small_disk() {
    mkdir -p small
    if mount -t tmpfs -o "size=$1" tmpfs small 2> /dev/null; then
        small=$PWD/small
        return
    fi
    echo "no small disk can be had here: $2"
    skipped=$((skipped + 1))
    return 1
}

end_small_disk() {
    umount "$small" || exit 1
    small=
}

# what was restored and shelved over all calls, from the last lines in `received`
sums() {
    awk '$1 == "symbols" { symbols += $2; restored += $6; files += $12 }
        END { print symbols, restored, files }' received
}

# A clock that goes on by the time that a call took: `date` says the seconds in `clock`, and moves it to the next
# midnight.
slow_clock() {
    mkdir -p clock
    real=$(command -v date)
    cat > clock/date << CLOCK
#!/bin/sh
case \$* in
"-u +%s")
    read -r now < "$PWD/clock/now"
    echo "\$now"
    echo \$(((now / 86400 + 1) * 86400)) > "$PWD/clock/now"
    ;;
*) exec "$real" "\$@" ;;
esac
CLOCK
    chmod +x clock/date
    echo $((20000 * 86400 + 86400 - 1000)) > clock/now
}

# Days over one connection: 1,000 seconds to midnight, and then whole days of 86,400.
try_days() {
    slow_clock
    mkdir days
    "$LRITSTATION" - make 1 256 16 > stream || fail "make"
    "$LRITSTATION" once.shelf init 1000000 > init.log
    "$LRITSTATION" once.shelf receive < stream > received
    is "what one call gets" "$(sums)" "4194304 256 254"
    PATH=$PWD/clock:$PATH "$examples/roll.sh" days 1000000 20 < stream > received 2> err || fail "roll.sh: $(cat err)"
    is "the shelves" "$(ls days | tr '\n' ' ')" "2024-10-04.shelf 2024-10-05.shelf 2024-10-06.shelf 2024-10-07.shelf "
    is "what days over one connection get" "$(sums)" "4194304 253 245"
    is "the rounds" "$(sed -n 's/^symbols \([0-9]*\) .* stop /\1 /p' received | tr '\n' ' ')" \
        "20000 limit 1728000 limit 1728000 limit 718304 end "
    ends "roll.sh whose shelf can't be made" 1 "$examples/roll.sh" nowhere 1000000 20 < stream
    says "roll.sh whose shelf can't be made" "can't be opened"
    ends "roll.sh with no rate" 2 "$examples/roll.sh" days 1000000 --line
}

# Shelves of a week, and those that are full, one after another. (A shelf of 20,000 bytes takes a part of the 63 files.)
try_weeks() {
    "$LRITSTATION" - make 1 64 16 > symbols || fail "make"
    week=$(date -u +%G-%V)
    mkdir ./-weeks
    ends "roll.sh --weeks" 0 "$examples/roll.sh" --weeks -weeks 100000 1000 < symbols
    is "the last line" "$(tail -n 1 out)" \
        "symbols 1048576 frames 64 restored 64 lost 0 packets 452 files 63 left 0 stop end"
    ends "roll.sh with a limit" 0 "$examples/roll.sh" --weeks -weeks 100000 1000 --workers 1 < symbols
    # (no shelf has so little room, so the words are wrong)
    rm ./-weeks/*
    ends "roll.sh with a capacity of 10" 2 "$examples/roll.sh" --weeks -weeks 10 1000 < symbols
    says "roll.sh with a capacity of 10" "init of ./-weeks/"
    ends "roll.sh with no rate" 2 "$examples/roll.sh" --weeks -weeks 100000
    ends "roll.sh with small shelves" 0 "$examples/roll.sh" --weeks -weeks 20000 1000 < symbols
    says "roll.sh with small shelves" ".shelf exited with 10: it is full"
    [ "$(date -u +%G-%V)" = "$week" ] || return
    is "the shelves" "$(ls ./-weeks | tr '\n' ' ')" "$week-2.shelf $week.shelf "
    is "the files of both" "$(for shelf in ./-weeks/*; do "$LRITSTATION" "$shelf" verify; done | grep -c ' ok$')" \
        "$(grep -c '^shelved' out)"
}

# Where all nine shelves of a day are full, the rest of it is dropped, and the next day goes on; the same of frames, of
# which --symbols counts bytes.
try_full_shelves() {
    mkdir full
    slow_clock
    PATH=$PWD/clock:$PATH ends "roll.sh with shelves of no room" 0 "$examples/roll.sh" full 60 20 < stream
    says "roll.sh with shelves of no room" "all shelves of this day or week are full"
    # (the clock goes on by a day each time that it is asked, and no file ends in the first seconds)
    is "the first days" "$(ls full | cut -c 1-10 | sort | uniq -c | awk '{ print $1, $2 }' | head -n 3 | tr '\n' ' ')" \
        "1 2024-10-04 9 2024-10-05 9 2024-10-07 "
    rm -rf full && mkdir full
    slow_clock
    "$LRITSTATION" - make 1 256 0 --output frames > made-frames || fail "make"
    PATH=$PWD/clock:$PATH ends "roll.sh of frames" 0 "$examples/roll.sh" full 1000000 20 --input frames < made-frames
    is "the rounds" "$(sed -n 's/^symbols \([0-9]*\) .* stop /\1 /p' out | tr '\n' ' ')" \
        "1000 limit 86400 limit 86400 limit 54552 end "
}

# A disk that is full ends nothing: once there is room the reception goes on.
try_full_disk() {
    small_disk 300k "roll.sh wasn't tried on a full disk" || return
    head -c 270000 /dev/zero > small/filled
    mkfifo slowly
    ROLL_ROOM=100 "$examples/roll.sh" small 1000000 1000 < slowly > received 2> err &
    rolling=$!
    exec 9> slowly
    cat symbols >&9
    until_it grep -q "the disk is full" err
    rm small/filled
    head -c 60000 /dev/zero >&9
    cat symbols symbols >&9
    exec 9>&-
    wait "$rolling" || fail "roll.sh after a full disk ended with $?: $(cat err)"
    is "the last line after that" "$(tail -n 1 received | grep -c ' stop end$')" 1
    [ "$("$LRITSTATION" small/*.shelf list | tail -n 1 | cut -d ' ' -f 2)" -gt 63 ] ||
        fail "what came after there was room"
    end_small_disk
}

# until_it WORDS: waits at most 20 seconds until these words are true
until_it() {
    for _ in $(seq 200); do
        "$@" > /dev/null 2>&1 && return
        sleep 0.1
    done
    fail "$* never came"
}

try_bundle() {
    "$LRITSTATION" - make 1 8 0 > ./-first || fail "make"
    "$LRITSTATION" - make 2 8 0 > second || fail "make"
    "$examples/bundle.sh" -first second > bundle || fail "bundle.sh"
    python3 -c 'import sys
first, second = (open(name, "rb").read() for name in ("-first", "second"))
parts = b"".join(len(it).to_bytes(8, "big") + it for it in (first, second))
sys.stdout.buffer.write(bytes([2]) + parts)' > wanted
    cmp -s bundle wanted || fail "bundle.sh wrote another bundle"
    "$LRITSTATION" many.shelf init 65536 > init.log || fail "init"
    "$LRITSTATION" many.shelf downlinks < bundle > receipts || fail "downlinks"
    is "the last line of downlinks" "$(tail -n 1 receipts)" "downlinks 2 symbols 262144 files 14"
    is "the receipts" "$(grep -c '^receipt [01] [0-6] number [0-9]*$' receipts)" 14
    is "the numbers" "$(sed -n 's/.* number //p' receipts | sort -n | tr '\n' ' ')" "0 1 2 3 4 5 6 7 8 9 10 11 12 13 "
    ends "bundle.sh with no word" 2 "$examples/bundle.sh"
    ends "bundle.sh with no file" 1 "$examples/bundle.sh" nowhere
}

# Frames of SatDump's form, and what nanomsg's client takes from a publisher.
try_ways_in() {
    "$LRITSTATION" - make 1 64 0 --output frames > made-frames || fail "make"
    $python cadu < made-frames > x.cadu
    "$examples/cadu.sh" < x.cadu | cmp -s - made-frames || fail "cadu.sh"
    head -c 60000 x.cadu > rest.cadu
    ends "cadu.sh with a rest" 0 "$examples/cadu.sh" < rest.cadu
    is "the bytes of 58 frames and a rest" "$(wc -c < out)" 51736
    tail -c +2 x.cadu > moved.cadu
    ends "cadu.sh without markers" 1 "$examples/cadu.sh" < moved.cadu
    says "cadu.sh without markers" "no marker at 0"
    lacks nanocat "no publisher was tried" && return
    take_published 15004 892 made-frames --input frames
    take_published 15001 4096 symbols
}

# take_published PORT SIZE FILE [OPTIONS]: the line of docs/RECEIVING.md, with a publisher of this file in messages of
# this size
take_published() {
    port=$1
    $python publish "$port" "$2" < "$3" &
    shift 3
    rm -f published.shelf
    "$LRITSTATION" published.shelf init 100000 > init.log
    sleep 0.5
    timeout 5 nanocat --sub --connect "tcp://127.0.0.1:$port" --raw |
        "$LRITSTATION" published.shelf receive "$@" > received
    is "the files of a publisher" "$(tail -n 1 received | sed 's/.* files \([0-9]*\) .*/\1/')" 63
}

# The quality is told by the tool, from a checkout here.
try_station() {
    mkdir stationed
    export RATE=1000000 CAPACITY=1000000 OPTIONS=
    SOURCE="cat symbols" ends "station.sh" 0 "$examples/station.sh" stationed
    is "the last line" "$(tail -n 1 out)" \
        "symbols 1048576 frames 64 restored 64 lost 0 packets 452 files 63 left 0 stop end"
    says "station.sh" "minute 0 frames 64 lost 0 corrected 64.00"
    is "the quality" "$(cat stationed/quality)" "minute 0 frames 64 lost 0 corrected 64.00"
    is "the minutes" "$(cut -d ' ' -f 2- stationed/minutes)" "64 0 4096"
    # (a source that can't be run is an error, and one that ends so is told)
    SOURCE="no-such-program -x" ends "station.sh with a source that isn't there" 2 "$examples/station.sh" stationed
    says "station.sh with a source that isn't there" "SOURCE exited with 127: no-such-program -x"
    SOURCE="cat symbols; exit 3" ends "station.sh with a source that ends with 3" 0 "$examples/station.sh" stationed
    says "station.sh with a source that ends with 3" "SOURCE exited with 3"
    SOURCE="cat symbols; exec sleep $long" OPTIONS="--line x" \
        ends "station.sh with wrong options" 2 "$examples/station.sh" stationed
    # (a source that stays beside a reception that ends is ended)
    # (of tomorrow too, since midnight may pass meanwhile)
    rm -rf stationed && mkdir stationed
    for day in today tomorrow; do
        echo "no shelf stands here, and these are more than twenty bytes" \
            > "stationed/$(date -u -d $day +%Y-%m-%d).shelf"
    done
    SOURCE="cat symbols" ends "station.sh whose shelf is none" 0 "$examples/station.sh" stationed
    says "station.sh whose shelf is none" "exited with 6"
    is "the shelf that is taken then" "$(find stationed -name '*-2.shelf' | wc -l)" 1
    is "sources that are left" "$(pgrep -f "sleep $long")" ""
    # (the quality side can't write, and the reception has every frame)
    rm -rf stationed && mkdir -p stationed/quality stationed/minutes
    SOURCE="cat stream" ends "station.sh that can't write the quality" 0 "$examples/station.sh" stationed
    is "the frames all the same" "$(sed -n 's/^symbols .* restored \([0-9]*\) .*/\1/p' out)" 256
    printf '#!/bin/sh\nexec true\n' > no-tool && chmod +x no-tool
    rm -rf stationed && mkdir stationed
    SOURCE="cat stream" GOMTASIL=$PWD/no-tool \
        ends "station.sh whose quality side ends" 0 "$examples/station.sh" stationed
    is "the frames without a quality side" "$(sed -n 's/^symbols .* restored \([0-9]*\) .*/\1/p' out)" 256
    unset RATE CAPACITY OPTIONS
    ends "station.sh with no settings" 2 "$examples/station.sh" stationed
}

# Blocks, and frames as goesrecv's packets, with two that are lost: the quality, the losses, and what the station is.
try_station_of_frames() {
    export RATE=1000000 CAPACITY=1000000
    rm -rf stationed && mkdir stationed
    "$LRITSTATION" - make 1 256 0 --output frames > made-frames || fail "make"
    (head -c $((892 * 100)) made-frames; tail -c +$((892 * 102 + 1)) made-frames) > lossy-frames
    SOURCE="cat lossy-frames" OPTIONS="--input frames" ends "station.sh of frames" 0 "$examples/station.sh" stationed
    is "the quality of frames" "$(cat stationed/quality)" "minute 0 frames 256 lost 2"
    is "the frames that came" "$(sed -n 's/^symbols .* restored \([0-9]*\) .*/\1/p' out)" 254
    ends "the state of frames" 0 "$top/tools/bin/gomtasil" state --full 100 stationed
    says "the state of frames" "2 of 256 frames lost"
    rm -rf stationed && mkdir stationed
    "$LRITSTATION" - make 1 256 16 --output blocks > made-blocks || fail "make"
    SOURCE="cat made-blocks" OPTIONS="--input blocks" ends "station.sh of blocks" 0 "$examples/station.sh" stationed
    is "the quality of blocks" "$(cat stationed/quality)" "minute 0 frames 256 lost 0 corrected 64.00"
    unset RATE CAPACITY
}

# signalled SIGNAL STATUS WORDS: this script, ended by a signal, leaves nothing in $TMPDIR
signalled() {
    name=$1
    wanted=$2
    shift 2
    rm -rf "$scratch/tmp" && mkdir "$scratch/tmp"
    is "the status of ${1##*/} after $name" \
        "$(TMPDIR=$scratch/tmp $python signal "$name" "$scratch/tmp" "$@" 2> err)" "$wanted"
    is "what ${1##*/} leaves after $name" "$(ls -A "$scratch/tmp")" ""
}

# A program that takes its time, and rt that never ends.
slow_programs() {
    mkdir -p slow
    printf '#!/bin/sh\nsleep 0.5\nexec "%s" "$@"\n' "$LRITSTATION" > slow/lritstation
    printf '#!/bin/sh\necho "rt: lr_bits proved"\nsleep %d\n' "$long" > slow/rt
    chmod +x slow/*
}

try_signals() {
    slow_programs
    for pair in "HUP 129" "INT 130" "TERM 143"; do
        # shellcheck disable=SC2086 # (they are two words)
        set -- $pair
        RATE=1000 CAPACITY=100000 SOURCE="exec sleep $long" signalled "$1" "$2" "$examples/station.sh" stationed
        PATH=$PWD/slow:$PATH signalled "$1" "$2" "$(unbuilt)/lritstation" - frames
    done
    ended_reception roll.sh --weeks ./-weeks 100000 1000
    ended_reception roll.sh days 100000 1000
    is "programs that are left" "$(pgrep -f "sleep $long")" ""
}

# ended_reception SCRIPT WORDS: a script that receives what never comes is ended, and so is the reception
ended_reception() {
    rm -rf endless "$scratch/tmp"
    mkdir "$scratch/tmp"
    mkfifo endless
    script=$1
    shift
    TMPDIR=$scratch/tmp "$examples/$script" "$@" < endless > out 2> err &
    receiving=$!
    exec 9> endless
    sleep 0.5
    kill "$receiving"
    wait "$receiving"
    is "the status of $script after TERM" "$?" 143
    exec 9>&-
    is "what $script leaves after TERM" "$(ls -A "$scratch/tmp")" ""
    is "shelves that are held after TERM" "$(for shelf in ./-weeks/*.shelf days/*.shelf; do held "$shelf"; done)" ""
}

# held SHELF: names it where a process writes to it
held() { flock --nonblock "$1" true || echo "$1"; }

# The top of the repository with nothing built.
unbuilt() {
    if [ ! -d unbuilt ]; then
        mkdir -p unbuilt/crates/lr_program/src unbuilt/packaging unbuilt/docs
        cp "$top/lritstation" "$top/CHANGELOG.md" "$top/HANDLES" unbuilt/
        cp "$top/packaging/proving.sh" "$top/packaging/version.sh" "$top/packaging/words.sh" unbuilt/packaging/
        cp "$top/docs/FORMATS.md" unbuilt/docs/
        echo "lr_program:" > unbuilt/crates.txt
    fi
    echo "$PWD/unbuilt"
}

# The commands, those that may write their shelf first.
writers="init receive downlinks discard repack trial"
others="list show extract export render assemble verify transmit decode frames packets make"

try_wrapper() {
    printf '#!/bin/sh\necho "rt was run: $*"\nexit 1\n' > slow/rt
    wrapper=$(unbuilt)/lritstation
    before=$PATH
    PATH=$PWD/slow:$PATH
    try_version
    try_help
    for words in "help" "--verbose" "shelf" "shelf nothing" "shelf list," "list shelf" "--unproved" "--unproved shelf" \
        "--unproved - nothing" "--help nothing" "--help list,"; do
        # shellcheck disable=SC2086 # (they are several words)
        ends "the wrapper with $words" 2 "$wrapper" $words
        is "what it says" "$(sed '/^lritstation: ./d' out err)" "station: usage: SHELF COMMAND [WORDS]"
        is "the file that it leaves" "$(ls -d shelf list 2> /dev/null)" ""
    done
    for word in $writers $others; do
        ends "the wrapper with $word and no rt that works" 1 "$wrapper" - "$word"
        says "the wrapper with $word" "rt was run"
    done
    for word in $writers; do
        ends "--unproved with $word" 2 "$wrapper" --unproved shelf "$word" 1 1 0
        says "--unproved with $word" "--unproved can't run $word on shelf, since what it writes would be lost"
        is "the file that it leaves" "$(ls -d shelf 2> /dev/null)" ""
    done
    for word in trial $others; do
        mkdir -p unbuilt/crates/lr_program
        ends "--unproved with $word on no shelf" 1 "$wrapper" --unproved - "$word" 1 1 0
        says "--unproved with $word on no shelf" "rt was run: try -- - $word 1 1 0"
    done
    ends "--unproved with a shelf that is missing" 1 "$wrapper" --unproved shelf show 1
    says "--unproved with a shelf that is missing" "rt was run: try -- - show 1"
    PATH=$before
}

# Without a commit to be had the version is that of the newest heading, and that more came since; else the commit's
# minute.
try_version() {
    number=$(sed -n 's/^## \([0-9.]*\) .*/\1/p' "$top/CHANGELOG.md" | head -n 1)
    since=
    ! grep -q '^## Next$' "$top/CHANGELOG.md" || since=+next
    ends "--version" 0 "$wrapper" --version
    is "the version" "$(cat out)" "Gomtasil $number$since"
    sed -i '/^## Next$/d' unbuilt/CHANGELOG.md
    ends "--version of a release" 0 "$wrapper" --version
    is "the version of a release" "$(cat out)" "Gomtasil $number"
    lacks git "no version of a commit was tried" && return
    sed "s/^## $number .*/## Next\\n\\n&/" "$top/CHANGELOG.md" > unbuilt/CHANGELOG.md
    git init -q unbuilt || fail "git"
    git -C unbuilt -c user.name=a -c user.email=a@b commit -q --allow-empty --date=@86400 -m a || fail "git"
    minute=$(date -u -d "@$(git -C unbuilt log -1 --format=%ct)" +%Y%m%d.%H%M)
    ends "--version of a commit" 0 "$wrapper" --version
    is "the version of a commit" "$(cat out)" "Gomtasil $number+$minute"
    rm -rf unbuilt/.git
}

# The help of each command is its row, with the values that another row has, and the last line says what status 2 is.
try_help() {
    ends "--help" 0 "$wrapper" --help
    is "the last line of the help" "$(tail -n 1 out | cut -c 1-46)" "Status 2 says that the words have no command's"
    for word in $writers $others; do
        ends "--help $word" 0 "$wrapper" --help "$word"
        is "the first words of --help $word" "$(head -n 1 out | cut -d ' ' -f 1-4)" "usage: lritstation SHELF $word"
        is "the values that --help $word leaves out" "$(grep -c '\[[^]]*\.\.\]' out)" 0
    done
    ends "--help decode" 0 "$wrapper" --help decode
    is "what decode takes" "$(head -n 2 out | xargs echo)" "usage: lritstation SHELF decode [--input symbols|blocks] \
[--line nrz-l|nrz-m] [--g2 inverted|plain] [--passes N] [--symbols N] [--workers W]"
}

# fake_kit: an rt and a kit whose programs are scripts that say for which processor they are
fake_kit() {
    mkdir -p kit/bin
    cat > kit/bin/rt << KIT
#!/bin/sh
case \$1 in
doc) echo "$PWD/kit/START-HERE.md" ;;
ci) echo "rt: ok, 0 passed, 0 failed" ;;
esac
KIT
    # (the usual program can be made always)
    cat > kit/bin/rattle << KIT
#!/bin/sh
case "\$*" in
*--cpu=*)
    echo "\$*" > "$PWD/kit/said"
    [ ! -e "$PWD/kit/refuses" ]
    ;;
esac
KIT
    cat > kit/bin/rattle-link << 'KIT'
#!/bin/sh
while [ "$1" != -o ]; do shift; done
printf '#!/bin/sh\necho "%s $$ $*"\nexit 7\n' "${2#out/}" > "$2"
chmod +x "$2"
KIT
    chmod +x kit/bin/*
}

# loader LINE: what the loader of this machine says from here on of the processor
loader() {
    printf '#!/bin/sh\necho "Subdirectories of glibc-hwcaps directories:"\necho "  %s"\n' "$1" > kit/loader
    chmod +x kit/loader
}

# runs WHAT WANTED: which program the wrapper starts, as the very process, with its words and its status
runs() {
    "$wrapper" - list 'a  b' > out 2> err
    is "the status of the program where $1" "$?" 7
    is "what is run where $1" "$(cut -d ' ' -f 1,3- out)" "$2 - list a  b"
    "$wrapper" - frames > same 2> same.err &
    started=$!
    wait "$started"
    is "the status of the same process where $1" "$?" 7
    is "what runs as it where $1" "$(cat same)" "$2 $started - frames"
}

# has_for SHELF COMMAND WANTED: what the program has for the shelf, as the scripts of fake_kit tell their words
has_for() {
    "$wrapper" "$1" "$2" > out 2> err
    is "what the program has for $1 by $2" "$(cut -d ' ' -f 3- out)" "$3 $2"
}

# Where the file is missing a command that only reads has an empty disk. In a folder that is missing no file is made.
try_missing() {
    touch there.shelf
    ln -s missing.shelf dangling.shelf
    for word in $others; do
        for shelf in missing.shelf ./missing.shelf dangling.shelf; do
            has_for $shelf "$word" -
        done
        for shelf in - there.shelf nowhere/missing.shelf; do
            has_for $shelf "$word" $shelf
        done
    done
    for word in $writers; do
        has_for missing.shelf "$word" missing.shelf
    done
    rm there.shelf dangling.shelf
}

# A processor for either program, whose kit and loader are made here.
try_processors() {
    fake_kit
    before=$PATH
    PATH=$PWD/kit/bin:$PATH
    rm -rf unbuilt
    wrapper=$(unbuilt)/lritstation
    sed -i "s,^loader=.*,loader=$PWD/kit/loader," "$wrapper"
    out=unbuilt/crates/lr_program/out
    loader "x86-64-v2 (supported, searched)"
    runs "the processor is an old one" v2
    is "the programs there" "$(ls $out | tr '\n' ' ')" "lr_program lr_program.sources "
    try_missing
    loader "x86-64-v3 (supported, searched)"
    runs "the usual program alone was made" v2
    rm -rf $out
    runs "the processor is a new one" v3
    is "the programs then" "$(ls $out | tr '\n' ' ')" "lr_program lr_program-v3 lr_program.sources "
    is "for which processor it was made" "$(grep -c -e '--crate-name lr_program .* --cpu=x86-64-v3' kit/said)" 1
    runs "nothing has changed" v3
    LRITSTATION_CPU=x86-64-v2 runs "the environment says so" v2
    loader "x86-64-v3"
    runs "the loader doesn't say that it is supported" v2
    rm kit/loader
    runs "there is no loader" v2
    loader "x86-64-v3 (supported, searched)"
    touch -d '1 hour ago' $out/lr_program-v3
    runs "the second program is older" v2
    rm -rf $out
    touch kit/refuses
    runs "the second program can't be made" v2
    says "the wrapper then" "the one for x86-64-v2 is run"
    is "the programs then" "$(ls $out | tr '\n' ' ')" "lr_program lr_program.sources "
    end_second
    PATH=$before
}

# A signal while the second program is made.
end_second() {
    rm -rf "$out" "$scratch/tmp"
    mkdir -p kit/begun "$scratch/tmp" "$out"
    printf '#!/bin/sh\ntouch "%s"\nsleep %d\n' "$PWD/kit/begun/mark" "$long" > kit/bin/rattle
    is "the status after a signal there" \
        "$(TMPDIR=$scratch/tmp $python signal TERM kit/begun "$wrapper" - frames 2> err)" 143
    is "what is left then" "$(find "$scratch/tmp" "$out" -mindepth 1; pgrep -f "sleep $long")" ""
}

# The statuses in OPERATING's table after which the unit starts again, or stays down.
statuses() { sed -n "s/^| \([0-9]*\) |.*| $1 |\$/\1/p" "$top/docs/OPERATING.md" | sort -n | tr '\n' ' '; }

# packaged: the wrapper of the package beside the program, as packaging/debian.sh has both
packaged() {
    mkdir -p package/bin package/lib/gomtasil package/share/gomtasil
    cp "$top/packaging/lritstation" package/bin/ && cp "$top/packaging/words.sh" package/share/gomtasil/
    cp "$LRITSTATION" package/lib/gomtasil/lritstation-v2 && cp "$LRITSTATION" package/lib/gomtasil/lritstation-v3
    for page in help commands; do
        SOURCE_DATE_EPOCH=1 python3 "$top/packaging/pages.py" $page "$top" 0 > package/share/gomtasil/$page
    done
}

# explained WORDS STATUS LINE: the wrapper ends with this status, and says this after the program's own line
explained() {
    # shellcheck disable=SC2086 # (they are several words)
    package/bin/lritstation $1 > out 2> err < /dev/null
    is "the status of $1" "$?" "$2"
    is "what is said of $1" "$(sed 1d err)" "lritstation: $3"
}

# What is wrong with the words of a call, and drawn words: status, output and the program's line are the same with the
# wrapper and without it, but for files that it doesn't make.
try_words() {
    packaged
    "$LRITSTATION" my.shelf trial 1 8 0 > out || fail "trial"
    cp my.shelf broken.shelf
    printf '\377\377\377\377' | dd of=broken.shelf bs=1 seek=28 conv=notrunc 2> /dev/null
    explained "my.shelf receive --rate 5" 2 "receive: unknown option --rate"
    explained "my.shelf receive --line x" 2 'receive: --line must be nrz-l or nrz-m, not "x"'
    explained "my.shelf receive --workers 65" 2 'receive: --workers must be a number from 1 to 64, not "65"'
    explained "my.shelf lists" 2 'no command "lists"; the shelf comes before the command'
    explained "my.shelf repack 1 9" 2 'repack: BLOCK must be 8, 16, 32 or 64, not "9"'
    explained "my.shelf show" 2 "show needs N"
    last=$(($("$LRITSTATION" my.shelf list | tail -n 1 | cut -d ' ' -f 2) - 1))
    explained "my.shelf show 99999" 7 "no file 99999: the shelf has files 0 to $last"
    explained "nosuch.shelf list" 6 "nosuch.shelf: no such file"
    explained "new.shelf receive" 6 "new.shelf is not a shelf yet: create it with init CAPACITY"
    explained "broken.shelf list" 6 \
        "broken.shelf is corrupt at byte 19: \`gomtasil salvage\` copies the files before and after it"
    explained "my.shelf list 5" 2 'list: unexpected "5"'
    explained "my.shelf init 5000" 11 "my.shelf exists already"
    python3 - package/bin/lritstation "$LRITSTATION" << 'DRAW' || fail "drawn words"
import random, shutil, subprocess, sys

drawn = random.Random(5)
commands = "init receive downlinks list show extract export render assemble verify discard repack transmit".split()
commands += ["decode", "frames", "packets", "make", "trial", "shows", "--help="]
words = "0 1 5 64 65 16 17 -1 1x 99999999999999999999 184467440737095516151 007 nrz-m plain --line --line=nrz-m".split()
words += "--g2 --symbols --symbols=5 --workers=2 --workers --mend=3 --mend --input=frames --output --rate".split()
words += "x  a\tb --".split(" ")
kinds = {}
for draw in range(300):
    call = [drawn.choice(commands), *(drawn.choice(words) for _ in range(drawn.randrange(5)))]
    found = []
    for program in sys.argv[1:]:
        shutil.copy("my.shelf", "drawn.shelf")
        done = subprocess.run([program, "drawn.shelf", *call], input=b"", capture_output=True)
        lines = done.stderr.split(b"\n")
        found.append((done.returncode, done.stdout, [it for it in lines if not it.startswith(b"lritstation: ")]))
        if program == sys.argv[1] and done.returncode == 2 and not any(it.startswith(b"lritstation: ") for it in lines):
            sys.exit(f"nothing says what is wrong with {call}")
    if found[0] != found[1]:
        sys.exit(f"{call}: {found}")
    kinds[found[0][0]] = kinds.get(found[0][0], 0) + 1
print(kinds)
DRAW
    cases=$((cases + 300))
}

try_units() {
    for unit in "$examples/"*.service; do
        name=${unit##*/}
        for script in $(sed -n 's,^Exec.*/usr/local/share/gomtasil/\([a-z.]*\).*,\1,p' "$unit"); do
            [ -x "$examples/$script" ] || fail "$name names $script"
            cases=$((cases + 1))
        done
        for command in $(sed -n 's,^Exec.*/usr/local/bin/gomtasil \([a-z]*\).*,\1,p' "$unit"); do
            ends "gomtasil $command --help" 0 "$top/tools/bin/gomtasil" "$command" --help
        done
        for other in $(sed -n 's/^OnFailure=\([a-z-]*@\).*/\1.service/p' "$unit"); do
            [ -f "$examples/$other" ] || fail "$name names $other"
            cases=$((cases + 1))
        done
    done
    for unit in receive contents page pictures web; do
        is "who is told of gomtasil-$unit.service" "$(grep '^OnFailure=' "$examples/gomtasil-$unit.service")" \
            OnFailure=gomtasil-watch.service
    done
    is "when the checks begin after a start" "$(grep '^OnBootSec=' "$examples/gomtasil-watch.timer")" OnBootSec=1min
    # shellcheck source=/dev/null
    is "what is said of a kill" "$(. "$examples/common.sh" && reason 137)" \
        "it was killed (SIGKILL): perhaps the system ran out of memory"
    is "lines of the page where one side ends the other" "$(grep -c '| tee [^-]' "$top/docs/OPERATING.md")" 0
    is "the statuses after which the unit starts again" "$(statuses "starts again")" "0 1 3 5 9 "
    unit=gomtasil-receive.service
    is "the statuses after which $unit stays down" \
        "$(sed -n 's/^RestartPreventExitStatus=//p' "$examples/$unit") " "$(statuses "stays down")"
    is "the limit of starts of $unit" "$(grep '^StartLimit' "$examples/$unit")" StartLimitIntervalSec=0
    is "what $unit restarts" "$(sed -n 's/^Restart=//p' "$examples/$unit")" always
    is "whether $unit waits for the clock" "$(grep -c '^After=.*time-sync.target' "$examples/$unit")" 1
    enabled=$(cd "$examples" && grep -l '^\[Install\]' gomtasil-* 2> /dev/null | sed 's/^gomtasil-//' | sort)
    is "the units that can be enabled" "$(echo "$enabled" | tr '\n' ' ')" \
        "alarm.path contents.service page.timer pictures.timer receive.service watch.timer web.service "
    lacks systemd-analyze "the units were only read" && return
    mkdir units && cp -R "$examples"/gomtasil-* units/
    verify_units
    # (what delivers alarms may use programs with rights of their own)
    for unit in receive contents page pictures web watch failed@; do
        unit=gomtasil-$unit.service
        score=$(systemd-analyze security --offline=yes "$PWD/units/$unit" 2> /dev/null |
            sed -n 's/.*exposure level for .*: \([0-9.]*\) .*/\1/p')
        [ "$(echo "${score:-10}" | tr -d .)" -lt 40 ] || fail "the exposure of $unit is $score"
        cases=$((cases + 1))
    done
}

# The scripts and the program stand in a folder of their own here.
verify_units() {
    find units -type f -exec sed -i "s,/usr/local/share/gomtasil,$examples,
        s,/usr/local/bin/gomtasil,$top/tools/bin/gomtasil,
        s/^User=.*//" {} +
    systemd-analyze verify "$PWD/units/"*.service "$PWD/units/"*.timer "$PWD/units/"*.path > verified 2>&1
    is "what systemd-analyze says" "$(grep units/ verified)" ""
}

try_form() {
    lacks shellcheck "the scripts were only run" && return
    # (common.sh, proving.sh and others that are only read are checked with the scripts that read them)
    ends "shellcheck" 0 shellcheck -x "$top/lritstation" "$top/packaging/lritstation" "$top/.ci/run" \
        "$top"/packaging/[adluw]*.sh "$examples"/[!c]*.sh "$examples/cadu.sh" "$top"/bench/*.sh "$top"/trials/*.sh
}

parts="days weeks full_shelves full_disk bundle ways_in station station_of_frames signals wrapper words processors
    units form"
# shellcheck disable=SC2086 # (they are several)
[ $# -gt 0 ] || set -- $parts
for part; do
    "try_$part"
done
echo "trials/examples.sh: $cases cases, $skipped parts skipped"
