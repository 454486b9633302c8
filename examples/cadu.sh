#!/bin/sh
# The transfer frames of SatDump's .cadu files, for `receive --input frames`: of each 1,024 bytes the 892 after the
# marker of four.
# Usage: cadu.sh < FRAMES.cadu > FRAMES. Needs perl. It ends with 1 where a marker isn't there, and leaves out a rest.
exec perl -e '
    binmode STDIN;
    binmode STDOUT;
    $/ = \1024;
    while (my $cadu = <STDIN>) {
        last if length $cadu < 1024;
        if (substr($cadu, 0, 4) ne "\x1A\xCF\xFC\x1D") {
            print STDERR "cadu.sh: no marker at ", 1024 * ($. - 1), "\n";
            exit 1;
        }
        print substr($cadu, 4, 892) or exit 1;
    }
    close STDOUT or exit 1'
