#!/bin/sh
# Measures the proved picture call against plain.rs and the proved tick loop against ticks.rs on this machine:
# docs/src/plain/run.sh [REPETITIONS]. See docs/SPEED.md.
set -eu
here=$(cd "$(dirname "$0")/../../.." && pwd -P)
cd "$here"
repetitions=${1:-200}
case $repetitions in *[!0-9]* | 0) echo "usage: docs/src/plain/run.sh [REPETITIONS]" >&2; exit 2 ;; esac
. .ci/kit.sh
command -v rustc >/dev/null 2>&1 || { echo "run.sh: rustc is not on the PATH, so plain.rs and ticks.rs cannot be built" >&2; exit 2; }
out=$here/target/speed
rm -rf "$out"
mkdir -p "$out"

(cd crates/speed && rt lib) >"$out/lib" 2>&1 || { tail "$out/lib" >&2; exit 1; }
cp crates/speed/out/libspeed.a "$out/"
rustc --version
for program in plain ticks; do
    rustc --edition 2021 -O --cfg ours -L "$out" -l static=speed "docs/src/plain/$program.rs" -o "$out/$program"
    "$out/$program" "$repetitions"
done
