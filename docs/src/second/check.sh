#!/bin/sh
# The check before the gate: builds the second program and holds every stored answer against what it writes. Needs rustc and writes only
# under target/second. Each stored answer has one row `held` below; a program whose answers the second one learns to write gets another.
set -eu
here=$(cd "$(dirname "$0")/../../.." && pwd -P)
source=$here/docs/src/second
work=$here/target/second
command -v rustc >/dev/null 2>&1 || { echo "check: rustc is not on the PATH, so the second program cannot be built" >&2; exit 2; }
mkdir -p "$work"
for part in second vcd ppm; do
    rustc --edition 2021 -O -o "$work/$part" "$source/$part.rs" || { echo "check: $part.rs does not build" >&2; exit 1; }
done
failed=0

# same ANSWERS FOUND: the stored answers are what was found, to the byte.
same() {
    if cmp -s "$here/$1" "$2"; then
        echo "check: $1 is what the second program writes"
    else
        echo "check: $1 is not what the second program writes; its answers are ${2#"$here"/}:" >&2
        cmp "$here/$1" "$2" >&2 || :
        failed=1
    fi
}

# held WHAT SCRIPT ANSWERS [ARGUMENT]: the second program, given SCRIPT, writes ANSWERS to the byte.
held() {
    "$work/second" ${4:+"$4"} <"$here/$2" >"$work/$1.out" || { echo "check: the second program fails on $2" >&2; failed=1; return 0; }
    same "$3" "$work/$1.out"
}

held bench-screen docs/src/second/bench-screen.txt docs/src/second/bench-screen-expected.txt
held bench crates/bench/stdin crates/bench/stdout
held sections docs/src/second/sections.txt docs/src/second/sections-expected.txt
held totals crates/totals/stdin crates/totals/stdout sheet
# A waveform and a picture, made of its answers.
"$work/vcd" ticked "$here/crates/trace/stdin" | "$work/second" | "$work/vcd" "$here/crates/trace/stdin" >"$work/trace.out" || :
same crates/trace/stdout "$work/trace.out"
"$work/second" <"$here/crates/draw/stdin" | "$work/ppm" "$here/crates/draw/stdin" >"$work/draw.out" || :
same crates/draw/stdout "$work/draw.out"
# An interlaced picture, woven of its two fields.
"$work/second" <"$source/woven.txt" | "$work/ppm" "$source/woven.txt" >"$work/woven.out" || :
same docs/src/second/woven-expected.ppm "$work/woven.out"
# The bench screen's rows, reasoned by hand, are the stored script.
if ! cmp -s "$here/crates/bench/stdin" "$source/bench-screen.txt"; then
    echo "check: crates/bench/stdin is not docs/src/second/bench-screen.txt" >&2
    failed=1
fi
exit "$failed"
