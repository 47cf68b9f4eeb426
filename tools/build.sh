# Shared by the programs of this folder: builds the library, where a source is newer, and the pages' programs. What is said while
# building matters only where it fails.

# build_pages ROOT: from the archive in LAHZAVAR_LIB_DIR, else from the one that make writes.
build_pages() {
    local root=$1 said
    said=$(mktemp)
    if [ -z "${LAHZAVAR_LIB_DIR:-}" ] && [ ! -f "$root/target/staticlib/liblahzavar.a" ]; then
        echo "proving and building the library first, which takes some minutes" >&2
    fi
    if { [ -n "${LAHZAVAR_LIB_DIR:-}" ] || make -C "$root"; } > "$said" 2>&1 &&
        cargo build --release --offline --locked --quiet --manifest-path "$root/tools/pages/Cargo.toml" \
            --target-dir "$root/target/pages" > "$said" 2>&1; then
        rm -f "$said"
    else
        cat "$said" >&2
        rm -f "$said"
        exit 1
    fi
}
