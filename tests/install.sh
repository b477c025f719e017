#!/bin/sh
# Installs into a temporary folder. Builds and runs the README's C program there with what pkg-config says and nothing else, static and shared.
# Holds every place that has the version to the file VERSION.
#
# usage: install.sh   after `make lib`
set -eu
here=$(cd "$(dirname "$0")" && pwd)
readme=$here/../README.md
work=$(mktemp -d)
trap 'rm -rf "$work"' EXIT
unset MAKELEVEL MAKEFLAGS MFLAGS PREFIX DESTDIR INCLUDEDIR LIBDIR PKGCONFIGDIR || true
CC=${CC:-cc}
for tool in pkg-config "$CC" cargo readelf nm; do
    command -v "$tool" >/dev/null || { echo "missing: $tool" >&2; exit 1; }
done

# Says what differs.
same() { # WHAT WANTED GOT
    [ "$2" = "$3" ] || { printf 'FAILED: %s\n  wanted %s\n  got %s\n' "$1" "$2" "$3"; exit 1; }
}

sh "$here/blocks.sh" "$readme" "$work/blocks"
program=$(ls "$work/blocks"/*.c)
printed=$(cat "$(ls "$work/blocks" | sed -n "/\.c$/,\$ s|.*\.text$|$work/blocks/&|p" | head -n 1)")

cd "$here/.."
version=$(cat VERSION)
prefix=$work/prefix
make install PREFIX="$prefix"
export PKG_CONFIG_PATH="$prefix/lib/pkgconfig"

cat > "$work/version.c" <<'END'
#include <stdio.h>
#include <zamgyorud.h>
int main(void) {
    printf("%s %d.%d.%d\n", ZAMGYORUD_VERSION, ZAMGYORUD_VERSION_MAJOR, ZAMGYORUD_VERSION_MINOR, ZAMGYORUD_VERSION_PATCH);
    return 0;
}
END
$CC "$work/version.c" $(pkg-config --cflags --libs zamgyorud) -static -o "$work/version"
same 'the version in the header' "$version $version" "$("$work/version")"
same 'the version that pkg-config gives' "$version" "$(pkg-config --modversion zamgyorud)"
same 'the version of the Rust crate' "$version" "$(cargo metadata --no-deps --offline --format-version 1 --manifest-path rust/zamgyorud/Cargo.toml | grep -o '"name":"zamgyorud","version":"[^"]*"' | cut -d '"' -f 8)"
soname=libzamgyorud.so.${version%%.*}
same 'the shared library' "$prefix/lib/libzamgyorud.so.$version" "$(readlink -f "$prefix/lib/libzamgyorud.so")"
same 'the link by its soname' "$prefix/lib/libzamgyorud.so.$version" "$(readlink -f "$prefix/lib/$soname")"
functions=$(sed -n '/^static/d; s/^[a-z].* \(zamgyorud_[a-z]*\)(.*/\1/p' include/zamgyorud.h | sort)
same 'what the shared library exports' "$functions" "$(nm -D --defined-only "$prefix/lib/libzamgyorud.so" | awk '{ print $3 }' | sort)"
same 'the global names of the archive' "$functions" "$(nm -g --defined-only "$prefix/lib/libzamgyorud.a" | awk 'NF == 3 { print $3 }' | sort)"

# Whether a program asks the loader for the library.
needed() {
    readelf -d "$1" | sed -n 's/.*(NEEDED).*\[\(libzamgyorud.*\)\]/\1/p'
}
$CC -static "$program" $(pkg-config --cflags --libs zamgyorud) -o "$work/static"
same 'what the static program prints' "$printed" "$("$work/static")"
same 'the library that the static program needs' '' "$(needed "$work/static")"
$CC "$program" $(pkg-config --cflags --libs zamgyorud) -o "$work/shared"
same 'what the shared program prints' "$printed" "$(LD_LIBRARY_PATH=$prefix/lib "$work/shared")"
same 'the library that the shared program needs' "$soname" "$(needed "$work/shared")"

# What is left after `make uninstall`.
left() {
    find "$work/prefix" "$work/stage" ! -type d
}
make uninstall PREFIX="$prefix"
# A staged installation: the paths in the pkg-config file are those without DESTDIR. A relative PREFIX starts in the repository.
mkdir "$work/stage"
same 'files that make uninstall leaves' '' "$(left)"
for prefix in /usr relative; do
    make install DESTDIR="$work/stage" PREFIX=$prefix
    case $prefix in /*) whole=$prefix ;; *) whole=$PWD/$prefix ;; esac
    same 'how many files are staged' 6 "$(find "$work/stage$whole" ! -type d | wc -l)"
    same 'the prefix in the pkg-config file' "prefix=$whole" "$(head -n 1 "$work/stage$whole/lib/pkgconfig/zamgyorud.pc")"
    make uninstall DESTDIR="$work/stage" PREFIX=$prefix
    same 'files that make uninstall leaves' '' "$(left)"
done
echo 'install: static and shared as told'
