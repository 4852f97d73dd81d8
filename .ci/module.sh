# Sourced after .ci/kit.sh and .ci/made.sh, in the repository's folder, with `out` a folder of its own: compiles a library with the kit's own
# compiler, and keeps the module that the kit hands it, before any optimiser.
mkdir -p "$out/toolchain/bin"
ln -s "$tools/lib" "$out/toolchain/lib"
for tool in "$tools"/bin/*; do
    [ "${tool##*/}" = clang ] || ln -s "$tool" "$out/toolchain/bin/"
done
# rattle hands its clang no environment
printf '#!/bin/sh\nfor w in "$@"; do case $w in *.bc) cp "$w" "%s/module.bc" ;; esac; done\nexec "%s/bin/clang" "$@"\n' "$out" "$tools" >"$out/toolchain/bin/clang"
chmod +x "$out/toolchain/bin/clang"

# archive NAME ROOT CRATE: the library whose root file is ROOT, over CRATE, into libNAME.a and module.bc of `out`.
archive() {
    libraries "$3" "$out/log" || return 1
    name=$1 root=$2 over=$3
    set --
    for crate in $(reach "$over" | sed 's/:.*//'); do set -- "$@" -L "dependency=crates/$crate/out/rlib"; done
    "$kit/bin/rattle" build --crate-name "$name" "$root" --crate-type staticlib --toolchain "$out/toolchain" -o "$out/lib$name.a" \
        --extern "std=$kit/rlibs/std.rlib" --extern "$over=crates/$over/out/rlib/$over.rlib" "$@" -L "dependency=$kit/rlibs" \
        --antt-project "$kit/rattle/logic/antt-project.json" --logic-built "$kit/logic_built" >"$out/log" 2>&1 || { tail "$out/log" >&2; return 1; }
}
