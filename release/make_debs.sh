#!/bin/sh
# Makes the Debian packages of one architecture.
#
#     release/make_debs.sh ARCH TRIPLET LIBRARY PROGRAMS OUTPUT
#
# ARCH is amd64 or arm64, TRIPLET its folder of libraries, as x86_64-linux-gnu. LIBRARY and PROGRAMS
# are those of release/install_files.sh. SOURCE_DATE_EPOCH is the time of all files, MAINTAINER who
# is named.
set -eu

top=$(CDPATH='' cd -- "$(dirname -- "$0")/.." && pwd)
arch=$1
triplet=$2
library=$3
programs=$4
output=$5
version=$(cat "$top/VERSION")
abi=$("$top/release/abi.sh")
work=$(mktemp -d)
trap 'rm -rf "$work"' EXIT
trap 'exit 1' HUP INT TERM
chmod 755 "$work"
umask 022

# Moves files of the whole installation into a package, with their folders.
take() {
    package=$1
    shift
    for file do
        mkdir -p "$work/$package/$(dirname "$file")"
        mv "$work/all/$file" "$work/$package/$file"
    done
}

# Writes the changelog of a package, and its licence.
document() {
    folder="$work/$1/usr/share/doc/$1"
    mkdir -p "$folder"
    cp "$top/release/debian/copyright" "$folder"
    {
        echo "starlark-lex ($version-1) unstable; urgency=medium"
        echo
        echo "  * Release $version."
        echo
        echo " -- $MAINTAINER  $(LC_ALL=C date -u -R -d "@$SOURCE_DATE_EPOCH")"
    } | gzip -9n >"$folder/changelog.Debian.gz"
    gzip -9n <"$top/CHANGELOG.md" >"$folder/changelog.gz"
}

# Writes what a package with programs needs: what they are linked with, and its version.
add_dependencies() {
    needed=$("$top/release/needed_glibc.sh" 99 "$1"/usr/bin/*)
    sed -i "s|^Section:|Depends: libc6 (>= $needed)\\nSection:|" "$1/DEBIAN/control"
    # The kit links programs for x86-64-v2, which end at once where the processor has less.
    [ "$arch" != amd64 ] || sed -i 's|^Depends: .*|&, sse4.2-support|' "$1/DEBIAN/control"
    ! readelf -d "$1"/usr/bin/* | grep -q 'NEEDED.*libgcc_s' ||
        sed -i 's|^Depends: .*|&, libgcc-s1|' "$1/DEBIAN/control"
}

# Packs a package.
pack() {
    root="$work/$1"
    mkdir "$root/DEBIAN"
    size=$(du -k -s --apparent-size "$root" | cut -f 1)
    sed -e "s|@VERSION@|$version|g" -e "s|@ARCH@|$arch|g" -e "s|@SIZE@|$size|g" \
        -e "s|@MAINTAINER@|$MAINTAINER|g" -e "s|@ABI@|$abi|g" \
        "$top/release/debian/${1%"$abi"}.control" >"$root/DEBIAN/control"
    (cd "$root" && find usr -type f -print0 | LC_ALL=C sort -z | xargs -0 md5sum) \
        >"$root/DEBIAN/md5sums"
    case $1 in
    libstarlark-lex"$abi")
        echo "libstarlark_lex $abi libstarlark-lex$abi (>= $version)" >"$root/DEBIAN/shlibs"
        echo 'activate-noawait ldconfig' >"$root/DEBIAN/triggers"
        ;;
    starlark-tokens) add_dependencies "$root" ;;
    esac
    find "$root" -exec touch -h -d "@$SOURCE_DATE_EPOCH" {} +
    dpkg-deb --root-owner-group -Zxz --build "$root" "$output" >/dev/null
}

"$top/release/install_files.sh" "$library" "$programs" "$work/all/usr" "lib/$triplet" \
    share/doc/libstarlark-lex-dev
find "$work/all/usr" -name '*.1' -exec gzip -9n {} +
chmod -R go=rX "$work/all"
find "$work/all/usr/lib" -type f -exec chmod 644 {} +
libdir=usr/lib/$triplet
take "libstarlark-lex$abi" "$libdir/libstarlark_lex.so.$abi" "$libdir/libstarlark_lex.so.$version"
take libstarlark-lex-dev usr/include/starlark_lex.h "$libdir/libstarlark_lex.so" \
    "$libdir/libstarlark_lex.a" "$libdir/pkgconfig" "$libdir/cmake" \
    usr/share/doc/libstarlark-lex-dev/GRAMMAR.md usr/share/doc/libstarlark-lex-dev/use \
    usr/share/doc/libstarlark-lex-dev/examples
for package in "libstarlark-lex$abi" libstarlark-lex-dev; do
    document "$package"
    pack "$package"
done
if [ "$programs" != none ]; then
    take starlark-tokens usr/bin usr/share/man usr/share/bash-completion usr/share/zsh \
        usr/share/fish
    document starlark-tokens
    pack starlark-tokens
fi
