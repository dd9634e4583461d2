#!/usr/bin/env bash
# Proves the C library and builds its archive, target/staticlib/libcrudvim.a. Records beside it what it was built from.
#
#     tools/archive.sh                 build
#     tools/archive.sh --if-changed    build only if there is no archive, or if the record does not fit
#
# The record has a checksum of the sources (crates.txt, every file in src, specs and proofs of each crate, and the line
# of `rt version`), and a checksum of the archive. Times of files do not count.
set -euo pipefail
cd "$(dirname "$0")/.."
built=crates/crudvim/out/libcrudvim.a
archive=target/staticlib/libcrudvim.a
record=target/staticlib/libcrudvim.record

fail() {
    echo "tools/archive.sh: $*" >&2
    exit 1
}

checksum() {
    sha256sum | cut -d ' ' -f 1
}

# The names of all source files, each ended by a zero octet, in an order that no locale changes.
source_files() {
    find crates -mindepth 3 -type f -regex 'crates/[^/]*/\(src\|specs\|proofs\)/.*' -print0 | LC_ALL=C sort -z
}

sources() {
    { echo "$kit"; sha256sum crates.txt; source_files | xargs -0 sha256sum; } | checksum
}

# What the record has to say for given sources and the archive as it is.
fitting() {
    printf 'sources %s\narchive %s\n' "$1" "$(checksum < "$archive")"
}

is_current() {
    [ -f "$archive" ] && [ -f "$record" ] && [ "$(cat "$record")" = "$(fitting "$(sources)")" ]
}

# Removes the old archive first: a build that fails leaves none. If the sources change meanwhile, there is no record.
build() {
    local before
    before=$(sources)
    rm -f "$archive" "$record"
    rm -f "$built"
    (cd crates/crudvim && rt lib) || fail "rt lib failed in crates/crudvim"
    [ -f "$built" ] || fail "rt lib wrote no $built"
    mkdir -p "$(dirname "$archive")"
    cp "$built" "$archive"
    [ "$(sources)" = "$before" ] || fail "the sources changed during the build: start it again"
    fitting "$before" > "$record.new"
    mv "$record.new" "$record"
}

case "${1:-}" in
'' | --if-changed) ;;
*) fail "usage: tools/archive.sh [--if-changed]" ;;
esac
command -v rt > /dev/null || fail "no rt on PATH: cannot tell what the archive has to be built from"
kit=$(rt version) || fail "rt version failed"
if [ "${1:-}" = --if-changed ] && is_current; then
    exit 0
fi
build
