#!/bin/sh
# Installs the headers, the proved archive, a heap over malloc, the files that survive a power cut, the programs if they
# are built, the man pages, and what CMake and pkg-config ask for. Takes cc and ar, or what CC and AR name.
#
# usage: [ARIES_LIB=FOLDER] [DESTDIR=FOLDER] ./install.sh PREFIX
#
# PREFIX is a whole path, as /usr/local. ARIES_LIB is the folder of libaries_c.a, else where `rt lib` in crates/aries_c
# puts it. Under DESTDIR everything is put, and nothing that is written tells of it.
set -eu

[ $# -eq 1 ] || { echo "usage: [ARIES_LIB=FOLDER] [DESTDIR=FOLDER] $0 PREFIX" >&2; exit 2; }
case $1 in /*) ;; *) echo "$1: not a whole path" >&2; exit 2 ;; esac

top=$(cd "$(dirname "$0")" && pwd)
prefix=$1
to=${DESTDIR:-}$prefix
archive=${ARIES_LIB:-$top/crates/aries_c/out}/libaries_c.a
version=0.1.0

[ -f "$archive" ] || { echo "$archive is missing: \`rt lib\` in crates/aries_c builds it" >&2; exit 1; }
work=$(mktemp -d)
trap 'rm -rf "$work"' EXIT

"${CC:-cc}" -std=c11 -O2 -fPIC -c "$top/bindings/c/heap.c" -o "$work/heap.o"
"${AR:-ar}" rcs "$work/libaries_heap.a" "$work/heap.o"
"${CC:-cc}" -std=c99 -O2 -fPIC -I "$top/include" -c "$top/bindings/c/aries_files.c" -o "$work/aries_files.o"
"${AR:-ar}" rcs "$work/libaries_files.a" "$work/aries_files.o"
for file in cmake/aries.pc cmake/aries_files.pc cmake/ariesConfigVersion.cmake bin/aries; do
    sed -e "s|@prefix@|$prefix|" -e "s|@version@|$version|" "$top/$file.in" > "$work/$(basename "$file")"
done

# put MODE FILE FOLDER [NAME]
put() {
    mkdir -p "$to/$3"
    cp "$2" "$to/$3/${4:-$(basename "$2")}"
    chmod "$1" "$to/$3/${4:-$(basename "$2")}"
}

put 644 "$top/include/aries.h" include
put 644 "$top/bindings/c/aries_files.h" include
put 644 "$archive" lib
put 644 "$work/libaries_heap.a" lib
put 644 "$work/libaries_files.a" lib
put 644 "$work/aries.pc" lib/pkgconfig
put 644 "$work/aries_files.pc" lib/pkgconfig
put 644 "$top/cmake/ariesConfig.cmake" lib/cmake/aries
put 644 "$work/ariesConfigVersion.cmake" lib/cmake/aries
for page in aries.1 aries_dump.1 aries-formats.5; do
    put 644 "$top/man/$page" "share/man/man${page##*.}"
done

# is_built NAME: whether a program is; else it is not installed
is_built() {
    [ -f "$top/crates/$1/out/$1" ] || { echo "$1 is not built, so it is not installed: \`rt ci\` builds it" >&2; return 1; }
}

if is_built aries_cli; then
    put 755 "$top/crates/aries_cli/out/aries_cli" libexec/aries aries
    put 755 "$work/aries" bin
fi
if is_built aries_dump; then
    put 755 "$top/crates/aries_dump/out/aries_dump" bin
fi
