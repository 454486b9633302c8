#!/bin/sh
# The program with standard input, output and error closed, over a real file: a stream that was closed fails, and the
# shelf stays as it was. Usage: trials/streams.sh. Needs rt.
set -e
. "$(dirname "$0")/lib.sh"
scratch_folder
cd "$scratch"
find_program
program=$LRITSTATION
failed=0

# what came of the last command: the status that was wanted, and the shelf's bytes
ends() {
    if [ "$2" = "$1" ] && cmp -s shelf before; then echo "$3: passed"; else echo "$3: FAILED, status $2"; failed=1; fi
}

"$program" shelf init 100000 > out
cp shelf before
status=0; "$program" shelf receive --input frames <&- > out 2> err || status=$?
ends 3 $status "no input"
status=0; "$program" shelf verify >&- 2> err || status=$?
ends 0 $status "no output, and none is needed"
status=0; "$program" shelf receive --input frames < /dev/null >&- 2> err || status=$?
ends 5 $status "no output"
status=0; "$program" shelf extract 0 > out 2>&- || status=$?
ends 7 $status "no error output"
status=0; "$program" shelf receive --input frames <&- >&- 2>&- || status=$?
ends 5 $status "none of them"
exit $failed
