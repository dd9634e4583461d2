#!/usr/bin/env bash
# Tests what tools/install.sh installs, with DESTDIR and a space in the prefix: the list of files; the version in the
# header, file names, soname, pkg-config file and manual page; the functions that the libraries export and need;
# programs with each library; the manual page against the header, and the header against lib.rt. Then, in a copy of the
# sources and with a stand-in for rt: when the archive is built again, and what happens if something fails. Parts that
# need g++, pkg-config, groff or man are left out if it is not there, and a line says so.
set -euo pipefail
cd "$(dirname "$0")/../.."
here=tests/install
work=$(mktemp -d)
trap 'rm -rf "$work"' EXIT

fail() {
    echo "install: $*" >&2
    exit 1
}

# Fails unless two texts are the same.
same() {
    [ "$2" = "$3" ] || fail "$1: expected, then found"$'\n'"$2"$'\n'"$3"
}

# Whether there is a program; if not, says what is left out.
there_is() {
    command -v "$1" > /dev/null || { echo "install: no $1: $2"; return 1; }
}

header=include/crudvim.h
number() {
    sed -n "s/^#define CRUDVIM_VERSION_$1 //p" $header
}
major=$(number MAJOR)
version=$major.$(number MINOR).$(number PATCH)
version_number=$((major * 10000 + $(number MINOR) * 100 + $(number PATCH)))

# The functions that the library has to export, and those that the header defines itself.
exported=$(sed -n 's/^uint64_t \(crudvim_[a-z_]*\)(.*/\1/p' $header | LC_ALL=C sort)
inline=$(sed -n 's/^static inline .*\(crudvim_[a-z_]*\)(.*/\1/p' $header)

# ---- What is installed

DESTDIR="$work/a stage" tools/install.sh "/usr/some library" > "$work/said" || fail "tools/install.sh failed"
root="$work/a stage/usr/some library"
same "last line" "installed Crudvim $version below $root" "$(tail -n 1 "$work/said")"

expected_files() {
    printf '%s\n' include/crudvim.h lib/libcrudvim.a lib/libcrudvim.so "lib/libcrudvim.so.$major" \
        "lib/libcrudvim.so.$version" lib/pkgconfig/crudvim.pc share/doc/crudvim/C-LIBRARY.md share/man/man3/crudvim.3
    for name in $exported $inline; do
        echo "share/man/man3/$name.3"
    done
}
same "files" "$(expected_files | LC_ALL=C sort)" "$(cd "$root" && find . ! -type d -printf '%P\n' | LC_ALL=C sort)"
same "files beside the prefix" "" "$(cd "$work/a stage" && find . ! -type d ! -path './usr/some library/*')"
same "files that others cannot read" "" "$(find "$root" ! -perm -444)"
cmp $header "$root/include/crudvim.h"
cmp docs/C-LIBRARY.md "$root/share/doc/crudvim/C-LIBRARY.md"
cmp target/staticlib/libcrudvim.a "$root/lib/libcrudvim.a"

pc="$root/lib/pkgconfig/crudvim.pc"
same "version of crudvim.pc" "$version" "$(sed -n 's/^Version: //p' "$pc")"
same "prefix of crudvim.pc" "/usr/some library" "$(sed -n 's/^prefix=//p' "$pc")"
page="$root/share/man/man3/crudvim.3"
same "version of the manual page" "Crudvim $version" "$(sed -n 's/^\.TH .*"\(Crudvim [^"]*\)".*/\1/p' "$page")"

# ---- The libraries

shared="$root/lib/libcrudvim.so"
dynamic=$(readelf -dW "$shared")
tag() {
    sed -n "s/.*($1) .*\[\(.*\)\]/\1/p" <<< "$dynamic"
}
same "soname" "libcrudvim.so.$major" "$(tag SONAME)"
same "needed libraries" "libc.so.6" "$(tag NEEDED)"
grep -q 'Flags: NOW' <<< "$dynamic" || fail "the shared library binds late"
! grep -q TEXTREL <<< "$dynamic" || fail "the shared library has text relocations"
readelf -lW "$shared" | grep -q 'GNU_STACK.* RW ' || fail "the shared library wants an executable stack"
symbols() {
    nm --format=posix "$@" | awk 'NF > 1 && !/:$/ { sub(/@.*/, "", $1); print $1 }' | LC_ALL=C sort
}
same "exports of the shared library" "$exported" "$(symbols -D --defined-only "$shared")"
same "exports of the archive" "$exported" "$(symbols -g --defined-only "$root/lib/libcrudvim.a")"
needs=$(symbols --undefined-only "$root/lib/libcrudvim.a")
same "needs of the shared library" "$needs" "$(symbols -D --undefined-only "$shared")"

# ---- Programs

# Builds a program with both libraries and runs it. The shared one has to be that of the soname.
flags=(-std=c99 -Wall -Wextra -Werror -pedantic -O2)
try_program() {
    gcc "${flags[@]}" -I"$root/include" "$1" "$root/lib/libcrudvim.a" -o "$work/static"
    gcc "${flags[@]}" -I"$root/include" "$1" -L"$root/lib" -lcrudvim -o "$work/dynamic"
    readelf -dW "$work/dynamic" | grep -q "NEEDED.*\[libcrudvim.so.$major\]" || fail "$1 does not need the soname"
    same "$1, static" "$2" "$("$work/static")"
    same "$1, shared" "$2" "$(LD_LIBRARY_PATH="$root/lib" "$work/dynamic")"
}
tiny="$version $version_number 3.25 325"
try_program $here/tiny.c "$tiny"
python3 tests/concentrator/readme.py "$work"
for program in "$work"/readme*.c; do
    try_program "$program" "$(cat "${program%.c}.txt")"
done
if there_is g++ "no program in C++"; then
    g++ -std=c++98 -Wall -Wextra -Werror -pedantic -I"$root/include" -x c++ $here/tiny.c -x none \
        "$root/lib/libcrudvim.a" -o "$work/plus"
    same "tiny.c as C++" "$tiny" "$("$work/plus")"
fi

# The options of pkg-config are quoted for the shell, so that a space in the prefix does not divide them.
if there_is pkg-config "crudvim.pc is not tried"; then
    tools/install.sh "$work/a prefix" > /dev/null
    export PKG_CONFIG_PATH="$work/a prefix/lib/pkgconfig"
    same "pkg-config --modversion" "$version" "$(pkg-config --modversion crudvim)"
    eval "gcc -std=c99 $here/tiny.c $(pkg-config --cflags --libs crudvim) -o '$work/configured'"
    same "tiny.c by pkg-config" "$tiny" "$(LD_LIBRARY_PATH="$work/a prefix/lib" "$work/configured")"
fi

# ---- The manual page, and the header

python3 $here/page.py $header "$page"
for name in $exported $inline; do
    same "page of $name" ".so man3/crudvim.3" "$(cat "$(dirname "$page")/$name.3")"
done
if there_is groff "the manual page is not laid out"; then
    same "warnings of groff" "" "$(groff -t -man -Tutf8 -ww -z "$page" 2>&1)"
fi
if there_is man "no page is shown"; then
    man -M "$root/share/man" crudvim_check > "$work/said" 2>&1 || fail "man does not find crudvim_check"
    grep -q 'crudvim_check()' "$work/said" || fail "man shows another page for crudvim_check"
fi
python3 $here/prototypes.py > "$work/said" || { cat "$work/said"; fail "the header is not that of lib.rt"; }

# ---- When the archive is built again

copy="$work/a copy"
mkdir -p "$copy/docs" "$work/bin"
tar -c --exclude=out crates | tar -x -C "$copy"
cp -r crates.txt tools include "$copy/"
cp docs/C-LIBRARY.md "$copy/docs/"
cat > "$work/bin/rt" <<'END'
#!/bin/sh
# A stand-in for rt: writes a line for each build, and copies an archive.
case "$1" in
version) echo "${KIT:-the kit}" ;;
lib)
    echo build >> "$BUILDS"
    ${BUILD_FAILS:+exit 1}
    mkdir -p out
    cp "$ARCHIVE" out/libcrudvim.a
    ${SOURCE_CHANGES:+touch src/meanwhile.rt}
    ;;
*) exit 2 ;;
esac
END
chmod +x "$work/bin/rt"
export BUILDS="$work/builds" ARCHIVE="$PWD/target/staticlib/libcrudvim.a"
: > "$BUILDS"

# Runs install.sh of the copy, or the script that it uses for the archive, with the stand-in.
install_copy() {
    PATH="$work/bin:$PATH" "$copy/tools/install.sh" "$work/copied" > "$work/said" 2>&1
}
archive_copy() {
    PATH="$work/bin:$PATH" "$copy/tools/archive.sh" --if-changed > "$work/said" 2>&1
}

# Runs one of these, and compares how often the archive is built in all.
total=0
builds() {
    "${3:-archive_copy}" || { cat "$work/said"; fail "$2: ${3:-archive_copy} failed"; }
    total=$((total + $1))
    same "builds after: $2" "$total" "$(wc -l < "$BUILDS")"
}
builds 1 "no archive" install_copy
builds 0 "nothing changed" install_copy
touch -d 2030-01-01 "$copy/crates/crudvim/src/lib.rt"
builds 0 "a newer time of a source"
echo '// more' >> "$copy/crates/crudvim/src/lib.rt"
touch -d 2001-01-01 "$copy/crates/crudvim/src/lib.rt"
builds 1 "a changed source with an old time" install_copy
builds 0 "nothing changed since" install_copy
echo '-- more' >> "$copy/crates/message/specs/Lib.antt"
builds 1 "a changed definition"
echo '-- more' >> "$copy/crates/message/proofs/Lib.antt"
builds 1 "a changed proof"
echo '# more' >> "$copy/crates.txt"
builds 1 "a changed list of crates"
echo > "$copy/crates/numbers/src/more.rt"
builds 1 "a new source"
mv "$copy/crates/numbers/src/more.rt" "$copy/crates/numbers/src/more of it.rt"
builds 1 "a renamed source"
rm "$copy/crates/numbers/src/more of it.rt"
builds 1 "a source less"
export KIT="another kit"
builds 1 "another kit"
echo >> "$copy/target/staticlib/libcrudvim.a"
builds 1 "a changed archive"
rm "$copy/target/staticlib/libcrudvim.record"
builds 1 "no record"
rm "$copy/target/staticlib/libcrudvim.a"
builds 1 "no archive, but a record"
echo '# more' > "$copy/crates/numbers/must-fail/more.edit"
echo '#define CRUDVIM_MORE' >> "$copy/include/crudvim.h"
builds 0 "a change that is not in the archive" install_copy
always_copy() {
    PATH="$work/bin:$PATH" "$copy/tools/archive.sh" > "$work/said" 2>&1
}
builds 1 "a build for the gate" always_copy
grep -q CRUDVIM_MORE "$work/copied/include/crudvim.h" || fail "the changed header is not installed"

# A relative prefix, and a relative DESTDIR, start where the caller is.
(cd "$work" && PATH="$work/bin:$PATH" DESTDIR="here too" "$copy/tools/install.sh" "or here" > /dev/null)
same "relative paths" "prefix=$work/or here" "$(head -n 1 "$work/here too$work/or here/lib/pkgconfig/crudvim.pc")"

# ---- What fails

# Installs, and expects that it fails with a text.
refuses() {
    ! install_copy || fail "$1: tools/install.sh did not fail"
    grep -q "$2" "$work/said" || fail "$1: $(cat "$work/said")"
}
rm -r "$work/copied"
echo '// yet more' >> "$copy/crates/crudvim/src/lib.rt"
BUILD_FAILS=yes refuses "a build that fails" "rt lib failed in crates/crudvim"
[ ! -e "$copy/target/staticlib/libcrudvim.a" ] || fail "a build that fails leaves the old archive"
SOURCE_CHANGES=yes refuses "a source that changes during the build" "changed during the build"
[ ! -e "$copy/target/staticlib/libcrudvim.record" ] || fail "a source changed during the build, but there is a record"
[ ! -e "$work/copied" ] || fail "something is installed without an archive"
total=$(wc -l < "$BUILDS")
builds 1 "a build that failed" install_copy
rm -r "$work/copied"
echo > "$work/copied"
refuses "a prefix that is a file" "cannot create $work/copied/include"
rm "$work/copied"
if [ "$(id -u)" != 0 ]; then
    mkdir "$work/copied"
    chmod a-w "$work/copied"
    refuses "a prefix that cannot be written" "cannot create $work/copied/include"
fi
sed -i '/^#define CRUDVIM_VERSION_MINOR /d' "$copy/include/crudvim.h"
refuses "a header without a version" "has no version"
! tools/install.sh --help > /dev/null 2>&1 || fail "an option is taken for a prefix"
! tools/install.sh one two > /dev/null 2>&1 || fail "two prefixes are accepted"
echo "install: files, libraries, programs, manual page and builds are as expected"
