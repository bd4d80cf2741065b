#!/bin/sh
# install.sh PREFIX: the archive to PREFIX/lib, the headers to PREFIX/include and skiff.pc to
# PREFIX/lib/pkgconfig. It proves the library first, or takes the archive that SKIFF_ARCHIVE names as it is.
set -eu

root=$(cd "$(dirname "$0")" && pwd)

stop() {
    echo "install.sh: STOPPED: $*" >&2
    exit 1
}

[ $# -eq 1 ] && [ -n "$1" ] || stop "usage: install.sh PREFIX"
archive=$("$root/rust/build-archive") || stop "there is no archive to install"
mkdir -p "$1/lib/pkgconfig" "$1/include" || stop "'$1' can't be written"
prefix=$(cd "$1" && pwd)
version=$(sed -n 's/^#define SKIFF_VERSION "\(.*\)"$/\1/p' "$root/include/skiff.h")
[ -n "$version" ] || stop "include/skiff.h has no version"
install -m 644 "$archive" "$prefix/lib/libskiff.a"
install -m 644 "$root/include/skiff.h" "$root/include/skiff_calls.h" "$root/include/skiff_words.h" "$prefix/include/"
sed -e "s,@PREFIX@,$prefix," -e "s,@VERSION@,$version," "$root/include/skiff.pc.in" >"$prefix/lib/pkgconfig/skiff.pc"
echo "install.sh: skiff $version is in $prefix"
