# Shared by the scripts of this folder, which run at the repository's root: a temporary folder, the library, the compiler.
set -eu -o pipefail
cd "$(dirname "${BASH_SOURCE[0]}")/.."
work=$(mktemp -d)
trap 'rm -rf "$work"' EXIT

fail() {
    echo "${0##*/}: $*" >&2
    exit 1
}

# Runs a command whose output matters only where it fails.
quietly() {
    "$@" > "$work/log" 2>&1 || { cat "$work/log" >&2; fail "failed: $*"; }
}

# Finds liblahzavar.a in LAHZAVAR_LIB_DIR, else in target/staticlib, where make writes it anew if a source is newer.
find_library() {
    if [ -z "${LAHZAVAR_LIB_DIR:-}" ]; then
        quietly make
        LAHZAVAR_LIB_DIR=target/staticlib
    fi
    LAHZAVAR_LIB_DIR=$(cd "$LAHZAVAR_LIB_DIR" && pwd)
    export LAHZAVAR_LIB_DIR
    [ -f "$LAHZAVAR_LIB_DIR/liblahzavar.a" ] || fail "no $LAHZAVAR_LIB_DIR/liblahzavar.a"
}

# compile NAME SOURCE [FLAG..]: a C program of the library, in the temporary folder.
compile() {
    local name=$1 source=$2
    shift 2
    quietly "${CC:-cc}" -std=c99 -O2 -Wall -Wextra -Wpedantic -Werror -I include -I examples/c "$@" "$source" \
        "$LAHZAVAR_LIB_DIR/liblahzavar.a" -o "$work/$name"
}

# in_cargo FOLDER ARGUMENT..: cargo without a network, which leaves nothing behind; a warning is an error.
in_cargo() {
    local folder=$1
    shift
    (cd "$folder" && CARGO_TARGET_DIR="$work/cargo" RUSTFLAGS="-D warnings" cargo "$@" --offline --locked --quiet)
}

# finds_link COMMAND..: runs an example, which says on standard output that it has a link, and nothing else.
finds_link() {
    [ "$("$@" 2> "$work/log")" = "link established" ] || { cat "$work/log" >&2; fail "no link: $*"; }
}
