#!/bin/sh
# The tool of tools/: its tests and its style; and the types of all Python here.
# Usage: trials/tools.sh [TEST..], with names as unittest has them (tests.test_page), all by default. Needs python3, and
# rt where $LRITSTATION and $LRITDEMOD name no built programs; Pillow, Jinja2, mypy, flake8, chromium, gdal, gmt and
# promtool for some cases each. Of several Pythons the first one that has Pillow is taken. KILLS in the environment says
# how many kills at drawn moments there are.
. "$(dirname "$0")/lib.sh"
needs python3
python_with PIL || echo "Pillow is missing: what needs it wasn't tried"
"$python" -c "import jinja2" 2> /dev/null || echo "Jinja2 is missing: what needs it wasn't tried"
scratch_folder
find_program
find_demodulator

# typed FILE..: these have types, by the settings in pyproject.toml
typed() { mypy --cache-dir "$scratch/mypy" "$@" > "$scratch/said" || fail "$(cat "$scratch/said")"; }
cd "$top" || exit 1
if ! command -v mypy > /dev/null; then
    echo "mypy is missing: no types were tried"
else
    # (two folders have modules of one name, so each is looked at by itself)
    typed tools/gomtasil tools/tests packaging/*.py packaging/web/*.py packaging/web/live/*.py
    typed reference
    if python_with numpy; then
        typed trials/*.py trials/web/*.py
        typed bench/*.py bench/demod/*.py
    else
        echo "numpy is missing: the types of trials and bench weren't tried"
    fi
    python_with PIL
fi
cd tools || exit 1
if ! command -v flake8 > /dev/null; then
    echo "flake8 is missing: its part wasn't tried"
else
    flake8 gomtasil bin/gomtasil tests > "$scratch/said" || fail "$(cat "$scratch/said")"
fi
if [ $# -gt 0 ]; then
    exec "$python" -m unittest "$@"
fi
exec "$python" -m unittest discover -s tests -t .
