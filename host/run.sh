#!/bin/sh
# Builds libstation.a, its test and the release program with the kit's own compiler, linker and C library, and runs them. Where there is an
# ordinary x86-64 gcc, it links both once more with that, and runs them again. Ends with a nonzero status if an answer is wrong.
set -eu
here=$(cd "$(dirname "$0")/.." && pwd -P)
cd "$here"
. .ci/kit.sh
. .ci/made.sh
out=target/host
mkdir -p "$out"
made station_c >"$out/begun"

# quiet NAME COMMAND: what it says goes to a file, and is shown if it fails
quiet() {
    said=$out/$1
    shift
    "$@" >"$said" 2>&1 || { cat "$said" >&2; exit 1; }
}

quiet lib.log sh -c 'cd crates/station_c && exec rt lib'
cp crates/station_c/out/libstation_c.a "$out/libstation.a"

build() { # NAME
    "$tools/bin/clang" --target=x86_64-unknown-linux-gnu -std=c11 -O2 -fPIE -ffreestanding -nostdinc -Wall -Wextra -Werror \
        -isystem host/libc -I include -c "host/$1.c" -o "$out/$1.o"
    quiet link.log "$kit/bin/rattle-link" --target x86_64-unknown-linux-gnu --toolchain "$tools" -o "$out/$1" "$out/$1.o" "$out/libstation.a"
}

# What the release program writes and how it ends, held to what is right; `release` runs it.
is() { # STATUS LINE WORDS..   (a sheet on standard input)
    status=$1 line=$2
    shift 2
    ended=0
    got=$(release "$@" 2>&1) || ended=$?
    if [ "$ended" -ne "$status" ] || [ "$got" != "$line" ]; then
        echo "release $*: '$got' with status $ended, and '$line' with status $status is right"
        exit 1
    fi
}

other() { # NINE: the nine bytes with the one at `place` changed
    printf '%s\n' "$1" | awk -v d=$((2 * place + 2)) '{ print substr($0, 1, d - 1) (substr($0, d, 1) == "0" ? "1" : "0") substr($0, d + 1) }'
}

released() {
    is 0 'key released' key 000000010203000000 000000010203000000 </dev/null
    is 0 'key released' key 00000001020300000a 00000001020300000A </dev/null
    is 1 'key kept: the checksums differ' key 000000010203000000 000000010203000001 </dev/null
    is 1 'key kept: refused 24' key 0000000102030000 000000010203000000 </dev/null
    is 1 'key kept: refused 24' key '' '' </dev/null
    is 2 'release: not hexadecimal: 00zz' key 00zz 00 </dev/null
    is 0 'field 0x21 is 289' field 0x21 <"$out/sheet"
    is 0 'field 0x2e is 302' field 46 <"$out/sheet"
    is 1 'refused 31' field 0x2f <"$out/sheet"
    is 1 'refused 33' field 0x21 <"$out/long"
    is 1 'refused 30' field 0x21 </dev/null
    is 2 'release: not a tag: 4294967296' field 4294967296 <"$out/sheet"
    is 2 'release: not a tag: -1' field -1 <"$out/sheet"
    # two fields: what was seen of each must match its own reference
    a=000000010203000000 b=00000001020300000A
    is 0 'key released' key "$a" "$a" "$b" 00000001020300000a </dev/null
    is 1 'key kept: the checksums of the first field differ' key "$b" "$a" "$b" "$b" </dev/null
    is 1 'key kept: the checksums of the second field differ' key "$a" "$a" "$a" "$b" </dev/null
    is 1 'key kept: the checksums of the first field differ' key "$b" "$a" "$a" "$b" </dev/null
    is 1 'key kept: refused 24 for the first field' key "$a" "${a}00" "$b" "$a" </dev/null
    is 1 'key kept: refused 24 for the second field' key "$a" "$a" '' "$b" </dev/null
    is 1 'key kept: the checksums of the first field differ' key "$b" "$a" '' "$b" </dev/null
    is 2 'release: not hexadecimal: 00zz' key "$b" "$a" "$b" 00zz </dev/null
    usage='usage: release key CHECKSUM CHECKSUM [CHECKSUM CHECKSUM], or release field TAG with the sheet on standard input'
    is 2 "$usage" key </dev/null
    is 2 "$usage" key "$a" </dev/null
    is 2 "$usage" key "$a" "$a" "$b" </dev/null
    is 2 "$usage" key "$a" "$a" "$b" "$b" "$a" </dev/null
    is 2 "$usage" key "$a" "$a" "$b" "$b" "$a" "$a" </dev/null
    is 2 "$usage" field "$a" "$a" "$b" "$b" </dev/null
    # the test picture's nine bytes, as examples/test.nine has them, and each field's of the interlaced one; the same with any one of them changed
    nine=$(tr -d '# ' <examples/test.nine)
    set -- $(tr -d '# ' <examples/test-interlaced.nine)
    is 0 'key released' key "$nine" "$nine" </dev/null
    is 0 'key released' key "$1" "$1" "$2" "$2" </dev/null
    is 1 'key kept: the checksums of the first field differ' key "$2" "$1" "$1" "$2" </dev/null
    for place in 0 1 2 3 4 5 6 7 8; do
        is 1 'key kept: the checksums differ' key "$(other "$nine")" "$nine" </dev/null
        is 1 'key kept: the checksums of the first field differ' key "$(other "$1")" "$1" "$2" "$2" </dev/null
        is 1 'key kept: the checksums of the second field differ' key "$1" "$1" "$(other "$2")" "$2" </dev/null
    done
    echo 'release: every line and status as it should be'
}

for tag in 41 42 43 44 45 46 47 50 51 52 53 54 55 56; do printf "\\$tag\\000\\002\\001\\$tag"; done >"$out/sheet"
{ cat "$out/sheet"; printf '\000'; } >"$out/long"

build test
build release
"$out/test"
release() { "$out/release" "$@"; }
released
# a later user sees by this mark whether they are still of what stands here
cp -p "$out/begun" "$out/made"

# an x86-64 gcc that has its headers and can link
ordinary() {
    case $(gcc -dumpmachine 2>/dev/null) in x86_64-*linux*) ;; *) return 1 ;; esac
    printf '#include <stdio.h>\nint main(void) { return puts("") < 0; }\n' | gcc -x c - -o "$out/ordinary" 2>/dev/null && "$out/ordinary" >/dev/null
}
if ordinary; then
    for name in test release; do
        set -- gcc -std=c11 -O2 -Wall -Wextra -I include "host/$name.c" "$out/libstation.a" -o "$out/$name-gcc"
        echo "$*"
        "$@"
    done
    "$out/test-gcc"
    release() { "$out/release-gcc" "$@"; }
    released
else
    echo "host: no x86-64 gcc here, so libstation.a is linked by the kit's own tools alone"
fi
