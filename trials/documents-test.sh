#!/bin/sh
# Whether `documents.sh` finds what it looks for: a copy of all files is right, and the same copy with one planted fault
# is not, for each of some faults. It says what wasn't found, and ends with 1 then. Usage: trials/documents-test.sh.
# Needs python3; without it nothing is tried.
. "$(dirname "$0")/lib.sh"
needs python3
scratch_folder
(cd "$top" && tar --exclude=./.git --exclude=out -cf - .) | (cd "$scratch" && tar -xf -) || exit 1
sh "$scratch/trials/documents.sh" > "$scratch/said" || { cat "$scratch/said"; exit 1; }
faults=0

# planted FILE TEXT SAID: with this text at the end of the file, documents.sh fails and says this
planted() {
    cp "$scratch/$1" "$scratch/kept" || exit 1
    printf '%s\n' "$2" >> "$scratch/$1"
    if sh "$scratch/trials/documents.sh" > "$scratch/said" || ! grep -qF "$3" "$scratch/said"; then
        echo "trials/documents-test.sh: '$2' in $1 wasn't found"
        exit 1
    fi
    cp "$scratch/kept" "$scratch/$1"
    faults=$((faults + 1))
}

# (no word of these is called so in any file: each is put together here)
planted docs/CLAIMS.md "\`nobody_""calls_it\`" "nothing is called nobody_""calls_it"
planted docs/CLAIMS.md "\`Receive.Never""Defined\`" "is defined in no specs/Receive"
planted README.md "\`docs/no_""such_page.md\`" "is no file here"
planted README.md "[a page](docs/no_""such_page.md)" "leads nowhere"
planted README.md "[a part](docs/CI.md#no-""such-part)" "has no heading for the link"
planted README.md "The first run proves 1 crates." "the crates of the program are"
planted docs/ARCHITECTURE.md "| | \`lr_bits\` | bits |" "lritdemod lr_bits"
planted crates.txt "lr_""nowhere: lr_bits" "lr_""nowhere, not"
planted crates/lr_bits/src/lib.rt "pub fn bare() {}" "a public function without a doc comment"
planted crates/lr_lock/specs/Thresholds.antt "six""teen : ℕ; six""teen = 163""96" "163""96: write WINDOW_END"
planted crates/lr_shelf/src/gate.rt "fn planted(n: usize) -> bool { n < 1""3 }" "1""3: write GATE_BYTES"
planted crates/lr_lock/src/sizes.rt "fn planted(n: usize) requires { n + 7""7 ≤ LOCK_SYMBOLS } {}" "7""7: write a constant from which"
planted trials/bare_numbers_kept.txt "lr_gf/src/lib.rt | 9""9 | -" "has no bare 9""9 any more"
planted README.md "$(printf '%0121d' 0)" "more than 120 columns"

# changed FILE SCRIPT SAID: with this change by sed, documents.sh fails and says this
changed() {
    cp "$scratch/$1" "$scratch/kept" && sed -i "$2" "$scratch/$1" || exit 1
    if sh "$scratch/trials/documents.sh" > "$scratch/said" || ! grep -qF "$3" "$scratch/said"; then
        echo "trials/documents-test.sh: '$2' in $1 wasn't found"
        exit 1
    fi
    cp "$scratch/kept" "$scratch/$1"
    faults=$((faults + 1))
}
changed lritstation 's/^  --workers W  /  --workers X  /' "lritstation: the help gives decode"
changed lritstation 's/^  repack N BLOCK  /  recode N BLOCK  /' "lritstation: the help has the commands"
changed packaging/words.sh 's/ | trial)/)/' "packaging/words.sh: the commands that may write are"
changed tools/gomtasil/embedded.py 's/, "trial"}/}/' "tools/gomtasil/embedded.py: the commands that may write are"
changed pyproject.toml 's/^version = .*/version = "0"/' "pyproject.toml: the version is"

# blessed NAME LABELS SCRIPT: where `sources.py` is changed by this script of sed, it makes a page with other labels of
# this call, and the second count says which are right: these, which were read in the sources
blessed() {
    cp "$scratch/trials/sources.py" "$scratch/kept" && sed -i "$3" "$scratch/trials/sources.py" || exit 1
    if sh "$scratch/trials/documents.sh" > "$scratch/said" ||
        ! grep -qF "\`$1\` has the clauses $2, not" "$scratch/said"; then
        echo "trials/documents-test.sh: a page with other clauses of $1 was blessed: $(cat "$scratch/said")"
        exit 1
    fi
    cp "$scratch/kept" "$scratch/trials/sources.py" || exit 1
    faults=$((faults + 1))
}

# (a method of a trait that ends at no semicolon, and a law whose body `{}` is looked for further on)
blessed Disk::length "cause only_read tell size contents crash time" 's/line.endswith(";")/line.endswith(";;")/'
blessed one_nearest_path "there only" 's/line == indent + "{}"/line == indent + "{ }"/; s/line.endswith("{}")/line.endswith("{ }")/'

# a commit whose message has no place
if command -v git > /dev/null; then
    (cd "$scratch" && git init -q && git add README.md &&
        for message in "docs: the first one" "README.md, docs: a good one" "wip"; do
            git -c user.name=trial -c user.email=trial@example.org commit -q --allow-empty -m "$message" || exit 1
        done) || exit 1
    MESSAGES_SINCE=HEAD~2 sh "$scratch/trials/documents.sh" > "$scratch/said" && fail "the message 'wip' wasn't found"
    is "the number of bad messages" "$(grep -c ": commit .*isn't of the form" "$scratch/said")" 1
    faults=$((faults + 1))
fi
echo "trials/documents-test.sh: $faults planted faults, each found"
