# Sourced by the gate and by `run`: `temp`, a temporary folder, and `long` and `told`, which run what takes long. The folder goes, and what was
# started ends, when the shell that sources this ends, by an interrupt too.
temp='' job=''
ended() {
    trap '' HUP INT TERM PIPE
    if [ -n "$job" ]; then
        kill -- "-$job" 2>/dev/null || kill "$job" 2>/dev/null || :
        wait "$job" 2>/dev/null || :
    fi
    # what was killed may still have been writing
    [ -z "$temp" ] || rm -rf "$temp" 2>/dev/null || { sleep 1; rm -rf "$temp" || :; }
    job='' temp=''
}
trap ended EXIT
trap 'exit 1' HUP INT TERM PIPE
temp=$(mktemp -d)

# long COMMAND: runs it in a process group of its own, which an interrupt ends at once and whole; nothing on standard input.
long() {
    setsid "$@" </dev/null &
    job=$!
    status=0
    wait "$job" || status=$?
    job=''
    return "$status"
}

# told COMMAND: the same, with all that it says handed to the function `show`.
told() {
    rm -f "$temp/said"
    mkfifo "$temp/said"
    show <"$temp/said" &
    shown=$!
    long "$@" >"$temp/said" 2>&1 || :
    wait "$shown" || status=1
    return "$status"
}
