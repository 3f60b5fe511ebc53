# Copies of the crates. ./mqtt5 and ./strength read this file.
# shellcheck shell=bash

# Takes the tests out of a crate's copy, and leaves no blank lines behind one another or at the end.
drop_tests() {
    local root
    for root in "$1/src/lib.rt" "$1/src/main.rt"; do
        [ -f "$root" ] || continue
        sed -i '/^#\[cfg(test)\]$/{N;/\nmod tests;$/d}' "$root"
        sed -i '/^$/{N;/^\n$/D}' "$root"
        sed -i '${/^$/d}' "$root"
    done
    rm -rf "$1/src/tests" "$1/src/tests.rt"
}
