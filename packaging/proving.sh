# What `lritstation` and packaging's arm64.sh, library.sh and web.sh share: the proofs of a copy of the crates, and the
# words of a build over it. They read it, so it is no script of its own. $top is the top of the repository, $program the
# path of the built program, and $called the name under which progress is told. What is built is the crate $crate, whose
# root is $root, and $product says what that is. $beside may name a further crate of the copy.
# shellcheck shell=sh

# Makes the folder $scratch. It goes when the script ends, by a signal too: the proofs, $proving, end then, and the
# status is 128 and the signal's number.
scratch_folder() {
    proving=
    scratch=
    trap clear_away EXIT
    trap 'exit 141' PIPE
    defer
    scratch=$(mktemp -d) || exit 1
    obey
}

# From here on a signal ends the script, or is kept until then.
obey() {
    trap 'leave 129' HUP
    trap 'leave 130' INT
    trap 'leave 143' TERM
    [ -z "$kept" ] || leave "$kept"
}

defer() {
    kept=
    trap 'kept=129' HUP
    trap 'kept=130' INT
    trap 'kept=143' TERM
}

# leave STATUS: ends the script after a signal. (A further signal would end it before all is cleared away: within the
# trap for EXIT too.)
leave() {
    trap '' HUP INT TERM
    clear_away
    exit "$1"
}

clear_away() {
    # (a shell that starts a program loses a signal that comes before it is ready, so more than once)
    while [ -n "$proving" ] && { kill -- "-$proving" || kill "$proving"; } 2> /dev/null; do
        sleep 0.1
    done
    rm -rf "$scratch" "$program.new" "$program-v3.new" "$program-arm64.new"
}

# The lines of crates.txt for the crate that is built, for that beside it, and for all that they stand on.
needed() {
    awk -v built="$crate" -v beside="${beside-}" '
        /^#/ || !NF { next }
        { split($0, sides, ":"); split(sides[1], words, " "); line[words[1]] = $0; libraries[words[1]] = sides[2] }
        function need(name,    many, place, used) {
            if (!(name in line) || name in seen) return
            seen[name] = 1
            many = split(libraries[name], used, " ")
            for (place = 1; place <= many; place++) need(used[place])
            print line[name]
        }
        END { need(built); need(beside) }' "$top/crates.txt"
}

# Copies what rt ci reads of the crates whose names come in, a line each.
copied() {
    while read -r name; do
        mkdir -p "$scratch/below/crates/$name" || return 1
        for part in src specs proofs stdin stdout args status data; do
            [ ! -e "$top/crates/$name/$part" ] ||
                cp -R "$top/crates/$name/$part" "$scratch/below/crates/$name/" || return 1
        done
    done
}

# Passes on how far the proofs are, from the lines of rt ci, which are kept.
progress() {
    proved=0
    tee "$scratch/log" | while read -r line; do
        case $line in
        "rt: lr_"*" proved" | "rt: lr_"*" is kept"*)
            proved=$((proved + 1))
            line=${line#rt: }
            echo "$called: $proved of $count, ${line%% *}" >&2
            ;;
        esac
    done
}

# apart FOLDER OUTPUT WORDS: starts a program there, after `defer`, and waits for its end. It has a session of its own,
# so that all its processes can be ended together, and is waited for, since a shell meets no signal while it runs a
# program.
apart() {
    folder=$1
    output=$2
    shift 2
    (cd "$folder" && exec setsid "$@") > "$output" 2>&1 &
    proving=$!
    obey
    wait "$proving"
    status=$?
    proving=
    return "$status"
}

# Runs rt ci over the copy: it proves each crate that the program stands on, and makes its library.
prove() {
    mkfifo "$scratch/lines" || return 1
    defer
    progress < "$scratch/lines" &
    telling=$!
    apart "$scratch/below" "$scratch/lines" env PYTHONUNBUFFERED=1 rt ci
    wait "$telling"
    if ! tail -n 1 "$scratch/log" | grep -q ', 0 failed'; then
        cat "$scratch/log" >&2
        return 1
    fi
}

# Copies the crate and all that it stands on into $scratch, sets $count, and proves all but the crate itself there, by
# rt ci. That keeps what it proved.
prove_below() {
    needed > "$scratch/all.txt"
    grep "^$crate[ :]" "$scratch/all.txt" > "$scratch/program.txt"
    mkdir "$scratch/below" && cp "$top/HANDLES" "$scratch/below" || return 1
    grep -v "^$crate[ :]" "$scratch/all.txt" > "$scratch/below/crates.txt"
    sed 's/[ :].*//' "$scratch/below/crates.txt" > "$scratch/names"
    copied < "$scratch/names" || return 1
    cp -R "$top/crates/$crate" "$scratch/" && rm -rf "$scratch/$crate/out" || return 1
    made=$scratch/$crate/out
    mkdir -p "$made" || return 1
    count=$(($(wc -l < "$scratch/all.txt")))
    processors=$(getconf _NPROCESSORS_ONLN)
    echo "$called: proves $count crates on $processors processors and builds the $product, this once" >&2
    prove
}

# outside FOLDER: the crate that is built is this one from here on. It stands outside of crates/, and over libraries of
# the copy alone, which the line in its crates.in names. Its files have names with .in at their ends, as rt ci would
# refuse them there.
outside() {
    crate=${1##*/}
    made=$scratch/$crate/out
    cp -R "$1" "$scratch/" && mkdir -p "$made" && mv "$scratch/$crate/crates.in" "$scratch/program.txt" || return 1
    find "$scratch/$crate" -name '*.in' -exec sh -c 'for part; do mv "$part" "${part%.in}" || exit 1; done' sh {} +
}

# Sets $kit, the kit's folder.
find_kit() { kit=$(rt doc) && kit=${kit%/*}; }

# with_words TOOLCHAIN WORDS: runs these words in the copy of the crate, and after them those of a build of it over the
# libraries of the copy with this toolchain. What it prints stands in $scratch/log.
with_words() {
    toolchain=$1
    shift
    set -- "$@" --crate-name "$crate" "$root" -L "dependency=$kit/rlibs"
    for name in $(sed -n "s/^$crate[^:]*://p" "$scratch/program.txt") std; do
        folder=$kit/rlibs
        grep -qxF "$name" "$scratch/names" && folder=$scratch/below/crates/$name/out/rlib
        set -- "$@" --extern "$name=$folder/$name.rlib"
    done
    while read -r name; do
        set -- "$@" -L "dependency=$scratch/below/crates/$name/out/rlib"
    done < "$scratch/names"
    set -- "$@" --antt-project "$kit/rattle/logic/antt-project.json" --logic-built "$kit/logic_built"
    set -- "$@" --toolchain "$toolchain" --backend llvm
    defer
    apart "$scratch/$crate" "$scratch/log" "$@"
}
