# Sourced, with `here` the repository's folder: what a crate is made of, and whether what was made of it is still up to date.

# reach [NAME]: NAME and the crates that it stands on, however far below, or all crates; each with what it lists, in the order of crates.txt.
reach() {
    awk -v name="${1:-}" '
        function take(c,    on, k, n) {
            if (!(c in lists) || c in taken) return
            taken[c] = 1
            n = split(lists[c], on, " ")
            for (k = 1; k <= n; k++) take(on[k])
        }
        { sub(/#.*/, ""); at = index($0, ":") }
        # what else stands before the colon says what kind of crate it is
        at && split(substr($0, 1, at - 1), words, " ") { c = words[1]; lists[c] = substr($0, at + 1); crates[++count] = c }
        END {
            take(name)
            for (k = 1; k <= count; k++) if (name == "" || crates[k] in taken) print crates[k] ":" lists[crates[k]]
        }' "$here/crates.txt"
}

# made NAME: the mark of what is made of NAME now: by which kit, and of which crates. Needs `kit`.
made() {
    cat "$kit/KIT-ID"
    reach "$1"
}

# current MARK NAME [FILES]: MARK says what `made NAME` says, and nothing that NAME is made of, nor FILES, is newer.
current() {
    mark=$1 of=$2
    shift 2
    [ "$(cat "$mark" 2>/dev/null)" = "$(made "$of")" ] || return 1
    for crate in $(reach "$of" | sed 's/:.*//'); do
        for part in src specs proofs; do
            [ ! -d "$here/crates/$crate/$part" ] || set -- "$@" "$here/crates/$crate/$part"
        done
    done
    [ -z "$(find "$@" -newer "$mark" | head -n 1)" ]
}

# left NAME: the gate's `rt ci` has left NAME and what it stands on as libraries, and they are of what stands here. Of all commands it alone
# leaves no stamp beside them.
left() {
    for c in $(reach "$1" | sed 's/:.*//'); do
        folder=$here/crates/$c/out
        [ -d "$folder/rlib/$c.rlib" ] && [ ! -e "$folder/rlib/stamp" ] && current "$folder/made" "$c" || return 1
    done
}

# libraries NAME LOG: has NAME and what it stands on as libraries under crates/*/out/rlib, of what stands here. What is said goes to LOG.
libraries() {
    left "$1" || (cd "$here/crates/$1" && rt lib) >"$2" 2>&1 || { tail "$2" >&2; return 1; }
}
