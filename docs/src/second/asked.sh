#!/bin/sh
# The stored scripts through the proved machine: `bench`, given sections.txt, answers sections-expected.txt to the byte, and `draw`, given
# woven.txt, writes woven-expected.ppm. Those answers are the second program's (check.sh holds them to it).
set -eu
source=$(cd "$(dirname "$0")" && pwd -P)
failed=0

# asked PROGRAM SCRIPT ANSWERS: the program, given the script, writes the stored answers to the byte.
asked() {
    program=$("$source/../../../run" --command "$1")
    if eval "$program" <"$source/$2" 2>/dev/null | cmp - "$source/$3"; then
        echo "$1 answers docs/src/second/$2 as the second program does"
    else
        echo "$1 does not answer docs/src/second/$2 as the second program does" >&2
        failed=1
    fi
}

asked bench sections.txt sections-expected.txt
asked draw woven.txt woven-expected.ppm
exit "$failed"
