#!/usr/bin/env bash
# Installs the C library below a prefix (default /usr/local). With DESTDIR set, the files go below $DESTDIR and the
# prefix, but are made for the prefix.
#
#     lib        libcrudvim.a, libcrudvim.so with its links, pkgconfig/crudvim.pc
#     include    crudvim.h
#     share      man/man3/crudvim.3 and a page for each function, doc/crudvim/C-LIBRARY.md
#
# Proves and builds the archive first if its sources changed (tools/archive.sh). Needs gcc and python3. Nothing is
# written below the prefix before everything is ready.
set -euo pipefail
umask 022

fail() {
    echo "tools/install.sh: $*" >&2
    exit 1
}

# A path from the root on. Links are not followed: with DESTDIR they are those of another machine. The root is "".
absolute() {
    realpath -ms -- "$1" | sed 's|^/$||'
}

if [ $# -gt 1 ] || [[ ${1:-} == -* ]]; then
    fail "usage: [DESTDIR=FOLDER] tools/install.sh [PREFIX]"
fi
prefix=$(absolute "${1:-/usr/local}")
destdir=$(absolute "${DESTDIR:-/}")
[[ $prefix != *[\"\\\$\#]* ]] || fail "crudvim.pc cannot name a prefix with one of \" \\ \$ #"
cd "$(dirname "$0")/.."

# Of the version, include/crudvim.h is the only place.
version_part() {
    sed -n "s/^#define CRUDVIM_VERSION_$1 \([0-9][0-9]*\)\$/\1/p" include/crudvim.h
}
major=$(version_part MAJOR)
version=$major.$(version_part MINOR).$(version_part PATCH)
[[ $version =~ ^[0-9]+\.[0-9]+\.[0-9]+$ ]] || fail "include/crudvim.h has no version"

stage=$(mktemp -d)
trap 'rm -rf "$stage"' EXIT

# All of the archive, and only the functions of the header exported. The linker rejects text relocations and names that
# no library defines.
make_shared() {
    gcc -shared -nostartfiles -o "$1" -Wl,-soname,libcrudvim.so."$major" -Wl,--version-script=tools/libcrudvim.map \
        -Wl,-Bsymbolic,-z,text,-z,defs,-z,now,-z,relro,-z,noexecstack \
        -Wl,--whole-archive target/staticlib/libcrudvim.a -Wl,--no-whole-archive || fail "gcc made no shared library"
}

make_pc() {
    cat <<END
prefix=$prefix
includedir=\${prefix}/include
libdir=\${prefix}/lib

Name: crudvim
Description: hproto, TibMsg, TibrvMsg and QForm messages: check, read, shorten, frame, write
Version: $version
Cflags: -I"\${includedir}"
Libs: -L"\${libdir}" -lcrudvim
END
}

make_files() {
    mkdir -p "$stage/lib/pkgconfig" "$stage/include" "$stage/share/man/man3" "$stage/share/doc/crudvim"
    cp target/staticlib/libcrudvim.a "$stage/lib/"
    make_shared "$stage/lib/libcrudvim.so.$version"
    ln -s "libcrudvim.so.$version" "$stage/lib/libcrudvim.so.$major"
    ln -s "libcrudvim.so.$major" "$stage/lib/libcrudvim.so"
    make_pc > "$stage/lib/pkgconfig/crudvim.pc"
    cp include/crudvim.h "$stage/include/"
    python3 tools/man.py include/crudvim.h "$stage/share/man/man3" || fail "no manual page"
    cp docs/C-LIBRARY.md "$stage/share/doc/crudvim/"
}

# Installs one file, or one link, of the stage. A file that a program uses is replaced, not written over.
put() {
    local to=$destdir$prefix/$1 mode=644
    mkdir -p "$(dirname "$to")" || fail "cannot create $(dirname "$to")"
    case "$1" in *.so.*.*) mode=755 ;; esac
    if [ -L "$stage/$1" ]; then
        ln -sfn "$(readlink "$stage/$1")" "$to"
    else
        install -m "$mode" "$stage/$1" "$to"
    fi || fail "cannot write $to"
}

tools/archive.sh --if-changed || fail "no archive"
make_files
mapfile -t files < <(cd "$stage" && find . ! -type d -printf '%P\n' | LC_ALL=C sort)
for file in "${files[@]}"; do
    put "$file"
done
echo "installed Crudvim $version below $destdir${prefix:-/}"
