# Sourced by whoever needs more of the Rattle kit than `rt`: finds it by its `rt`.
# kit: its folder; tools: its C compiler and C library.
command -v rt >/dev/null 2>&1 || { echo "${0##*/}: the Rattle kit's rt is not on the PATH" >&2; exit 2; }
kit=$(rt doc </dev/null) || exit 2
kit=$(cd "$(dirname "$kit")" && pwd -P)
tools=$kit/toolchain
