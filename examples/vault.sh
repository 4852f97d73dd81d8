#!/bin/sh
# The vault, end to end, for today's room and for an interlaced one: draws the test picture (normal.txt) through the machine, takes its nine
# checksum bytes, interlaced of each field, and has the host's release program compare them with the stored references (test.nine and
# test-interlaced.nine, as the second program gives them). Another patient's must not pass, nor a picture of which one field alone is wrong.
set -eu
here=$(cd "$(dirname "$0")/.." && pwd -P)
cd "$here"
. .ci/kit.sh
. .ci/made.sh
release=target/host/release
if [ ! -x "$release" ] || ! current target/host/made station_c host include; then host/run.sh >/dev/null; fi

script() { # PATIENT [WORD]: the script of its chart
    ./run chart ${2:+"$2"} <"examples/$1.txt"
}

red() { # PLACE: the script on standard input, with one white pixel made red, in the byte of picture memory at PLACE
    awk -v poke="poke $1 #01" '/^write #000060 / { print poke } { print }'
}

nine() { # the nine bytes each time that the script on standard input asks for them, a line each, as hexadecimal digits
    ./run bench | grep '^#' | tr -d '# '
}

# compared WHAT SEEN STORED ANSWER: the release program, given a line each field of the bytes seen and of their references, must answer so.
compared() {
    what=$1 seen=$2 answer=$4
    set -- $2 $3
    [ $# -eq 2 ] || set -- "$1" "$3" "$2" "$4"
    said=$("$release" key "$@" </dev/null) || :
    printf '%-32s%s: %s\n' "$what" "$(echo $seen)" "$said"
    [ "$said" = "$answer" ]
}

stored=$(tr -d '# ' <examples/test.nine)
compared 'test picture' "$(script normal | nine)" "$stored" 'key released'
compared 'another chart' "$(script noise | nine)" "$stored" 'key kept: the checksums differ'

stored=$(tr -d '# ' <examples/test-interlaced.nine)
compared 'interlaced: test picture' "$(script normal interlaced | nine)" "$stored" 'key released'
compared 'interlaced: another chart' "$(script noise interlaced | nine)" "$stored" 'key kept: the checksums of the first field differ'
# Rows of 1,024 bytes are the first field's and the second's in turn: #9000 is in one of the first's, #9400 in one of the second's.
first=$(script normal interlaced | red '#009000' | nine)
second=$(script normal interlaced | red '#009400' | nine)
compared 'interlaced: first field wrong' "$first" "$stored" 'key kept: the checksums of the first field differ'
compared 'interlaced: second field wrong' "$second" "$stored" 'key kept: the checksums of the second field differ'
# where only the first field is wrong, the second's nine bytes alone would have released the key
[ "$(echo "$first" | tail -n 1)" = "$(echo "$stored" | tail -n 1)" ]
