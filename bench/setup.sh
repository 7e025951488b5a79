# What the scripts of this folder begin with. Each reads it; alone it does nothing.
set -u
here=$(cd "$(dirname "$0")/.." && pwd) || exit 2

# Ends the script with a word where a peer is missing.
need() {
    for peer in "$@"; do
        if ! command -v "$peer" >/dev/null 2>&1; then
            echo "skipped: $peer is missing"
            exit 0
        fi
    done
}

# Sets program: the one that is given, else that of a crate, as rt ci leaves it.
built() {
    program=${2:-$here/crates/$1/out/$1}
    if [ ! -x "$program" ]; then
        echo "there is no program at $program: rt ci $1 makes it" >&2
        exit 2
    fi
    program=$(cd "$(dirname "$program")" && pwd)/$(basename "$program")
}

# Makes a folder that goes when the script ends.
scratch() {
    folder=$(mktemp -d) || exit 2
    trap 'rm -rf "$folder"' EXIT
    trap 'exit 2' HUP INT TERM
}
