#!/bin/sh
# The documents against the sources: each file, script, definition and call that they name is there, the layers of the
# crates are those of crates.txt, the numbers that they repeat are right, every public function has a doc comment, no
# line is too long, and the messages of commits have their form. Then the numbers in the sources: one that has a name is
# written by its name. The list of definitions and the index are written as `out/DEFINITIONS.md` and `out/INDEX.md`, and
# a second count finds the same clauses. Exits with 1 where something isn't so. Usage: trials/documents.sh. Needs
# python3; without it nothing is checked.
top=$(cd "$(dirname "$0")/.." && pwd)
command -v python3 > /dev/null || { echo "trials/documents.sh: python3 is missing, so nothing was looked at"; exit 77; }
cd "$top" && python3 trials/documents.py && python3 trials/bare_numbers.py &&
    python3 trials/definitions.py out/DEFINITIONS.md &&
    python3 trials/index.py out/INDEX.md && exec python3 trials/index_test.py out/INDEX.md
