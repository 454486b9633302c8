# What both wrappers, `lritstation` of a checkout and packaging/lritstation, do with the words of a call: the help of a
# command, and a line on what is wrong after the program's own. They read it, so it is no script of its own. They have a
# function `help_lines` for the help, and $commands is a file with the tables of the commands and of their words, as
# docs/FORMATS.md has them. What is wrong is found by these tables alone.
# shellcheck shell=sh

# The names of the commands: the words at the start of their lines in the help.
names() {
    help_lines | awk '/^  [a-z]/ {
        for (place = 1; place <= NF; place++) {
            more = sub(/,$/, "", $place)
            print $place
            if (!more) next
        }
    }'
}

# Whether a command may write its shelf.
writes() {
    case $1 in
    init | receive | downlinks | discard | repack | trial) return 0 ;;
    esac
    return 1
}

# is_soon SHELF COMMAND: whether the command ends soon: whatever the shelf has, or as its file is missing
is_soon() {
    case $2 in
    init | list | show | extract | export | discard | repack) return 0 ;;
    decode | frames | packets | make | trial) return 1 ;;
    esac
    [ "$1" != - ] && [ ! -e "$1" ]
}

wrong() { echo "lritstation: $1" >&2; }

# Ends with the program's own line and status where the words name no command, and says what is wrong.
check_words() {
    [ $# -ge 2 ] && names | grep -qxF -e "$2" && return
    echo "station: usage: SHELF COMMAND [WORDS]" >&2
    if [ $# -ge 2 ]; then
        wrong "no command \"$2\"; the shelf comes before the command"
    elif names | grep -qxF -e "${1-}"; then
        wrong "the shelf comes before the command: lritstation SHELF $1"
    else
        wrong "a command is missing after the shelf"
    fi
    exit 2
}

# is_missing SHELF COMMAND: whether the program would make the file of the shelf for a command that doesn't write it.
# (It makes none in a folder that isn't there.)
is_missing() {
    if writes "$2" || [ -z "$1" ] || [ "$1" = - ] || [ -e "$1" ]; then
        return 1
    fi
    folder=$(dirname -- "$1")
    [ -d "$folder" ] && [ -x "$folder" ]
}

# ---- the tables

# usages COMMAND: a line for each form of it, with the values of an option that another row has, and then after a tab
# what it does
usages() {
    # shellcheck disable=SC2154
    awk -v name="$1" '
        function with_values(words,    rest, option, key, done) {
            rest = words
            while (match(rest, /\[--[a-z0-9]+ [^]]*\]/)) {
                done = done substr(rest, 1, RSTART - 1)
                option = substr(rest, RSTART, RLENGTH)
                rest = substr(rest, RSTART + RLENGTH)
                key = option
                sub(/ .*/, "", key)
                if (option !~ / \.\.\]$/) full[key] = option
                done = done full[key]
            }
            return done rest
        }
        $0 == "| command | what it does |" { on = 1; next }
        !/^\|/ { on = 0 }
        on {
            gsub(/\\\|/, "\001")
            split($0, cells, "|")
            gsub(/\001/, "|", cells[2])
            gsub(/\001/, "|", cells[3])
            gsub(/`/, "", cells[3])
            many = split(cells[2], parts, "`")
            for (place = 2; place <= many; place += 2) {
                usage = with_values(parts[place])
                split(usage, words, " ")
                if (words[1] == name) print usage "\t" substr(cells[3], 2)
            }
        }' "$commands"
}

# range WORD COMMAND: least, greatest and default of a word of this command, a tab between two; or its choices and the
# default. Nothing where the table doesn't have it.
range() {
    awk -v word="$1" -v name="$2" -F ' *\\| *' '
        $0 ~ /^\| word \| from \|/ { on = 1; next }
        !/^\|/ { on = 0 }
        on {
            given = $2
            gsub(/`/, "", given)
            if (match(given, / of [a-z]+$/)) {
                if (substr(given, RSTART + 4) != name) next
                given = substr(given, 1, RSTART - 1)
            }
            many = split(given, words, ", ")
            for (place = 1; place <= many; place++) if (words[place] == word) {
                for (cell = 3; cell <= 5; cell++) {
                    gsub(/`/, "", $cell)
                    if (cell < 5 && $cell ~ /^[0-9,]+$/) gsub(/,/, "", $cell)
                    if ($cell == "2^64 - 1") $cell = "18446744073709551615"
                }
                print $3 "\t" $4 "\t" $5
                exit
            }
        }' "$commands"
}

# with_commas NUMBER: the number as people read it
with_commas() { echo "$1" | sed -e ':a' -e 's/^\([0-9]\{1,\}\)\([0-9]\{3\}\)/\1,\2/' -e 'ta'; }

# ---- what is wrong

# is_within NUMBER LEAST MOST: whether these digits are a number from the one to the other. (They may be more than the
# shell can hold.)
is_within() {
    case $1 in
    '' | *[!0-9]*) return 1 ;;
    esac
    [ ${#1} -le 20 ] && awk -v it="$1" -v least="$2" -v most="$3" 'function less(one, other) {
            sub(/^0+/, "", one); sub(/^0+/, "", other)
            return length(one) != length(other) ? length(one) < length(other) : (one "") < (other "")
        }
        BEGIN { exit less(it, least) || less(most, it) }'
}

# check_value WORD VALUE CALLED COMMAND: says what is wrong with the value of a word, and then is false
check_value() {
    found=$(range "$1" "$4")
    least=$(echo "$found" | cut -f 1)
    most=$(echo "$found" | cut -f 2)
    [ -n "$least" ] || return 0
    case $least in
    *[!0-9]*)
        for choice in $(echo "$least" | tr -d ',' | sed 's/ or / /g'); do
            [ "$2" != "$choice" ] || return 0
        done
        wrong "$4: $3 must be $least, not \"$2\""
        return 1
        ;;
    esac
    is_within "$2" "$least" "$most" && return
    wrong "$4: $3 must be a number from $(with_commas "$least") to $(with_commas "$most"), not \"$2\""
    return 1
}

# check_option WORD VALUE USAGE: the same of an option of a command with this usage
check_option() {
    values=$(echo "$3" | sed -n "s/.*\\[$1 \\([^]]*\\)\\].*/\\1/p")
    case $values in
    *'|'*)
        case "|$values|" in
        *"|$2|"*) return 0 ;;
        esac
        wrong "${3%% *}: $1 must be $(echo "$values" | sed 's/|/, /g; s/, \([^,]*\)$/ or \1/'), not \"$2\""
        return 1
        ;;
    esac
    check_value "$1" "$2" "$1" "${3%% *}"
}

# check_form COMMAND [WORDS]: says what is wrong with the words of a command, and then is false
check_form() {
    command=$1
    shift
    usage=$(usages "$command" | head -n 1 | cut -f 1)
    places=$(echo "$usage" | sed 's/\[[^]]*\]//g; s/^[a-z]* *//; s/  */ /g; s/ $//')
    left=$places seen=' ' value_of=''
    for word; do
        if [ -n "$value_of" ]; then
            check_option "$value_of" "$word" "$usage" || return
            value_of=''
            continue
        fi
        case $word in
        --*)
            check_name "$command" "${word%%=*}" "$usage" || return
            seen="$seen${word%%=*} "
            case $word in
            *=*) check_option "${word%%=*}" "${word#*=}" "$usage" || return ;;
            *) value_of=$word ;;
            esac
            ;;
        *)
            if [ -z "$left" ]; then
                wrong "$command: unexpected \"$word\""
                return 1
            fi
            check_value "${left%% *}" "$word" "${left%% *}" "$command" || return
            left=$(echo "$left" | cut -s -d ' ' -f 2-)
            ;;
        esac
    done
    [ -z "$value_of" ] || wrong "$command: $value_of needs a value"
    [ -z "$left" ] || wrong "$command needs $places"
    [ -z "$value_of$left" ]
}

# check_name COMMAND OPTION USAGE: the same of the name of an option
check_name() {
    case $3 in
    *"[$2 "*) ;;
    *)
        wrong "$1: unknown option $2"
        return 1
        ;;
    esac
    case $seen in
    *" $2 "*)
        wrong "$1: $2 is given twice"
        return 1
        ;;
    esac
}

# explain STATUS SAID SHELF COMMAND [WORDS]: a line on what is wrong, after that of the program
explain() {
    case "$1 $2" in
    "2 "*) (shift 3 && check_form "$@") || : ;;
    "1 ") wrong "$3 can't be opened, or another process writes to it" ;;
    "6 station: not a shelf at 0")
        if [ "$3" = - ] || [ -s "$3" ]; then
            wrong "$3 is not a shelf"
        elif writes "$4"; then
            wrong "$3 is not a shelf yet: create it with init CAPACITY"
        else
            wrong "$3: no such file"
        fi
        ;;
    "6 station: not a shelf at "*)
        wrong "$3 is corrupt at byte ${2##* }: \`gomtasil salvage\` copies the files before and after it"
        ;;
    "7 station: no such file, count 0") wrong "$3 has no files" ;;
    "7 station: no such file, count "*) wrong "no file ${5-}: the shelf has files 0 to $((${2##* } - 1))" ;;
    "11 "*) wrong "$3 exists already" ;;
    esac
}

# start SHELF PROGRAM WORDS..: starts the program. Where the words are wrong, or the command ends soon, a line on what
# is wrong with them or with SHELF follows the program's own.
start() {
    called_shelf=$1 program=$2
    shift 2
    if ! is_soon "$called_shelf" "$2" && (shift && check_form "$@") 2> /dev/null; then
        exec "$program" "$@"
    fi
    { said=$("$program" "$@" 2>&1 >&3 3>&-); } 3>&1
    ended=$?
    [ -z "$said" ] || printf '%s\n' "$said" >&2
    shift
    explain "$ended" "$said" "$called_shelf" "$@"
    exit "$ended"
}

# ---- help

# example COMMAND: a call of it
example() {
    case $1 in
    init) echo "my.shelf init 40000000000" ;;
    receive) echo "my.shelf receive --line nrz-m --g2 plain < recording.soft" ;;
    downlinks) echo "my.shelf downlinks < bundle" ;;
    show | extract) echo "my.shelf $1 5" ;;
    export) echo "my.shelf export 5 > image.pgm" ;;
    render) echo "my.shelf render --workers 4 > images.pgm" ;;
    assemble) echo "my.shelf assemble 0 6 313 1 > earth.pgm" ;;
    discard) echo "my.shelf discard 5" ;;
    repack) echo "my.shelf repack 5 16" ;;
    transmit) echo "my.shelf transmit 0 6 8 --line nrz-m --g2 plain > recording.soft" ;;
    decode) echo "- decode --line nrz-m --g2 plain < recording.soft" ;;
    frames | packets) echo "- $1 < frames" ;;
    make) echo "- make 1 64 0 --output frames > frames" ;;
    trial) echo "- trial 1 64 0" ;;
    *) echo "my.shelf $1" ;;
    esac
}

# meaning OPTION: what it is, from the line after those of the option in the help
meaning() {
    help_lines | awk -v option="$1" '
        /^  --/ { on = $1 == option; next }
        on && /^      / { sub(/^ */, ""); print; exit }'
}

# words_of USAGE: a line for each word and option: what it may be, its default, and what an option means
words_of() {
    command=${1%% *}
    echo "$1" | grep -o '\[--[^]]*\]\|[A-Z][A-Z]*' | while read -r word; do
        case $word in
        \[*)
            word=${word#\[}
            name=${word%% *} values=${word#* }
            values=${values%\]}
            ;;
        *) name=$word values=$word ;;
        esac
        case "$1" in
        *"[$name "*) : ;;
        *"[--"*" $name]"*) continue ;;
        esac
        found=$(range "$name" "$command")
        least=$(echo "$found" | cut -f 1) most=$(echo "$found" | cut -f 2) default=$(echo "$found" | cut -f 3)
        case $values in
        *'|'*) said=$(echo "$values" | sed 's/|/, /g; s/, \([^,]*\)$/ or \1/') ;;
        *)
            said=$least
            [ -z "$most" ] || said="$(with_commas "$least") to $(with_commas "$most")"
            ;;
        esac
        does=$(meaning "$name")
        printf '  %-11s %s%s%s\n' "$name" "$said" "${default:+ (default $default)}" "${does:+: $does}"
    done
}

# help_of COMMAND: its form, what it does, its words and options with their defaults, and an example
help_of() {
    check_words - "$1"
    usages "$1" | while IFS='	' read -r usage does; do
        printf 'usage: lritstation SHELF %s\n\n%s\n\n' "$usage" "$does" | fold -s -w 100 | sed 's/ *$//'
        words=$(words_of "$usage")
        [ -z "$words" ] || printf '%s\n\n' "$words"
    done
    echo "example:"
    echo "  lritstation $(example "$1")"
    echo
    echo "A word that isn't of this form, or a number out of its range, ends with status 2."
}
