#!/bin/sh
# Makes all files of a release in out/release, from a clone on which the gate passed.
#
#     scripts/releasing/release.sh [--macos]
#
# .ci/run leaves what the gate said in out/gate.log, after a line with the commit. Without that,
# with other sources than the commit's, or with a program that isn't proved, nothing is made. Then
# there are
#
#     starlark-lex-VERSION-TARGET-linux.tar.gz        for C, with the programs
#     starlark-lex-VERSION-x86_64-windows.zip         for C: static library, DLL and import library
#     libstarlark-lexABI_.. libstarlark-lex-dev_.. starlark-tokens_...deb
#     starlark_lexer-VERSION.crate                    for Rust, with the libraries of all targets
#     starlarklexer-go-VERSION.zip                    for Go, with the libraries of all targets
#     starlark_lexer-VERSION-...whl, starlark_lexer-VERSION.tar.gz  for Python
#     starlark-conformance-VERSION.tar.gz             the conformance suite, for any lexer
#     PROVED.txt                                      what was proved, and by what
#     SHA256SUMS
#
# The targets are x86_64 and aarch64 Linux, and x86_64 Windows; the kit links programs for the first
# alone. What tools are missing for is named and left out. The same commit and tools make the same
# bytes: all times are SOURCE_DATE_EPOCH, or the commit's.
#
# With --macos only out/macos is made, with an archive for arm64 and one for x86_64, which are compiled
# and not run. No release has them.
set -eu

top=$(CDPATH='' cd -- "$(dirname -- "$0")/../.." && pwd)
output="$top/out/release"
gate="$top/out/gate.log"
work=$(mktemp -d)
trap 'rm -rf "$work"' EXIT
trap 'exit 1' HUP INT TERM
umask 022
cd "$top"
version=$(cat VERSION)
SOURCE_DATE_EPOCH=${SOURCE_DATE_EPOCH:-$(git log -1 --format=%ct)}
MAINTAINER=${MAINTAINER:-$(git log -1 --format='%an <%ae>')}
export SOURCE_DATE_EPOCH MAINTAINER
module=crates/starlark_c/out/starlark_c.bc

fail() {
    echo "release.sh: $1" >&2
    exit 1
}

leave_out() {
    echo "release.sh: left out: $1" >&2
}

has() {
    command -v "$1" >/dev/null
}

# Refuses sources that the gate didn't pass.
require_gate() {
    [ -z "$(git status --porcelain)" ] || fail 'there are changes that no commit has'
    [ -f "$gate" ] || fail 'there is no out/gate.log: let .ci/run pass first'
    [ "$(head -n 1 "$gate")" = "commit $(git rev-parse HEAD)" ] ||
        fail 'the gate passed another commit'
    tail -n 1 "$gate" | grep -q '^[0-9]* passed, 0 failed' || fail "the gate didn't pass"
}

# Refuses a program that isn't there, is older than a source, has another version, or says that it
# isn't proved.
require_program() {
    [ -x "$1" ] || fail "$1 isn't there: \`rt ci\` proves and builds it"
    newer=$(find crates crates.txt HANDLES -name out -prune -o -type f -newer "$1" -print)
    [ -z "$newer" ] || fail "$1 is older than a source"
    said=$("$1" --version)
    case $said in
    *unproved*) fail "$1 is not proved" ;;
    *" $version"*) ;;
    *) fail "$1 is $said, and not $version" ;;
    esac
}

# Copies the proved programs, and makes their man pages and completions.
gather_programs() {
    programs="$work/programs"
    mkdir -p "$programs/bin"
    for name in starlark_lex starlark_tokens; do
        require_program "crates/$name/out/$name"
        strip -o "$programs/bin/$name" "crates/$name/out/$name"
    done
    date=$(date -u -d "@$SOURCE_DATE_EPOCH" +%Y-%m-%d)
    "$programs/bin/starlark_tokens" --help >"$work/help"
    python3 release/program_files.py "$work/help" "$version" "$date" "$programs"
    sed -e "s|@DATE@|$date|" -e "s|@VERSION@|$version|" release/starlark_lex.1 \
        >"$programs/starlark_lex.1"
}

# Makes the library of a target in a folder of its own, where the target's tools are there.
make_library() {
    if scripts/bindings/link_library.sh --tools "$1" 2>"$work/said"; then
        scripts/bindings/link_library.sh "$1" $module "$work/$2" >&2
        libraries="$libraries $2"
    else
        leave_out "all for $1: $(sed 's/.*: //' "$work/said")"
    fi
}

# Makes the libraries for C: of this machine, and of the others whose tools are there.
make_libraries() {
    scripts/bindings.sh library >&2
    mkdir -p "$work/x86_64"
    cp -P out/bindings/libstarlark_lex.* out/bindings/starlark_lex.h "$work/x86_64"
    libraries=x86_64
    make_library aarch64-linux aarch64
    targets=$libraries
    make_library x86_64-windows windows_x86_64
}

# Makes the archives that nothing here runs.
make_macos() {
    scripts/bindings/build_archive.py >&2
    for processor in aarch64 x86_64; do
        scripts/bindings/link_library.sh $processor-macos $module "out/macos/$processor"
    done
    echo 'out/macos has the archives for macOS, compiled and not run'
}

# Packs a folder, all with one time and one owner.
pack() {
    find "$1/$2" -exec touch -h -d "@$SOURCE_DATE_EPOCH" {} +
    tar -C "$1" --sort=name --owner=0 --group=0 --numeric-owner --format=gnu -cf - "$2" |
        gzip -9n >"$output/$2.tar.gz"
}

# Makes the archive of a target for C.
make_archive() {
    name="starlark-lex-$version-$1-linux"
    release/install_files.sh "$work/$1" "$2" "$work/archives/$name" lib share/doc/starlark-lex
    cp "$output/PROVED.txt" "$work/archives/$name/share/doc/starlark-lex"
    pack "$work/archives" "$name"
}

# Makes the zip for C on Windows.
make_zip() {
    name="starlark-lex-$version-x86_64-windows"
    release/install_files.sh "$work/windows_x86_64" none "$work/archives/$name" lib \
        share/doc/starlark-lex
    cp "$output/PROVED.txt" "$work/archives/$name/share/doc/starlark-lex"
    release/zip_folder.py "$work/archives/$name" "$output/$name.zip"
}

# Makes the Debian packages of a target.
make_debs() {
    case $1 in
    x86_64) arch=amd64 ;;
    aarch64) arch=arm64 ;;
    esac
    release/make_debs.sh "$arch" "$1-linux-gnu" "$work/$1" "$2" "$output"
}

# Makes the crate: the folder of the repository with the libraries in it.
make_crate() {
    has cargo || {
        leave_out 'the crate: there is no cargo'
        return 0
    }
    cp -R bindings/rust "$work/crate"
    rm -rf "$work/crate/target" "$work/crate/Cargo.lock"
    cp LICENSE CHANGELOG.md "$work/crate"
    for library in $libraries; do
        folder="$work/crate/lib/$library-unknown-linux-gnu"
        [ "$library" != windows_x86_64 ] || folder="$work/crate/lib/x86_64-pc-windows-gnu"
        mkdir -p "$folder"
        cp "$work/$library/libstarlark_lex.a" "$folder"
    done
    find "$work/crate" -exec touch -h -d "@$SOURCE_DATE_EPOCH" {} +
    (cd "$work/crate" && CARGO_TARGET_DIR="$work/cargo" \
        cargo package --offline --no-verify --quiet)
    cp "$work/cargo/package/starlark_lexer-$version.crate" "$output"
}

# Makes the wheels and the sdist, where some python3 has what makes them.
make_wheels() {
    status=0
    release/make_wheels.sh "$work" "$targets" "$output" || status=$?
    case $status in
    0) ;;
    2) leave_out 'the wheels' ;;
    *) fail 'the wheels are not made' ;;
    esac
}

# Says what was proved, and by what.
write_proof() {
    {
        echo "starlark_lex $version"
        head -n 1 "$gate"
        echo "kit: $(rt version)"
        echo
        echo 'The last lines of the gate, rt ci:'
        tail -n 3 "$gate" | sed 's/^/    /'
        echo
        echo 'The kit compiled the proved calls and programs. Not proved are bindings/c/allocator.ll,'
        echo 'which it compiled, too, and bindings/c/calls.c, which was compiled by:'
        for tool in "${CC:-cc}" aarch64-linux-gnu-gcc x86_64-w64-mingw32-gcc; do
            if has "$tool"; then echo "    $("$tool" --version | head -n 1)"; fi
        done
    } >"$output/PROVED.txt"
}

if [ "${1:-}" = --macos ]; then
    make_macos
    exit 0
fi
rm -rf "$output"
if ! has "${CC:-cc}" || ! has objcopy; then
    leave_out 'the release: there is no C compiler with its binary tools'
    exit 0
fi
require_gate
mkdir -p "$output"
write_proof
gather_programs
make_libraries
for target in $targets; do
    of_target=none
    release/needed_glibc.sh 2.17 "$work/$target/libstarlark_lex.so" >&2
    [ "$target" != x86_64 ] || of_target=$programs
    make_archive "$target" "$of_target"
    if has dpkg-deb; then make_debs "$target" "$of_target"; fi
done
case $libraries in *windows*) make_zip ;; esac
has dpkg-deb || leave_out 'the Debian packages: there is no dpkg-deb'
make_crate
bindings/go/scripts/release.sh "$work" "$libraries" "$output"
make_wheels
conformance/making/install.sh "$work/archives/starlark-conformance-$version"
pack "$work/archives" "starlark-conformance-$version"
if [ -x bindings/web/release.sh ]; then bindings/web/release.sh "$output"; fi
(cd "$output" && LC_ALL=C sha256sum -- * >"$work/sums" && mv "$work/sums" SHA256SUMS)
echo "release $version: $(wc -l <"$output/SHA256SUMS") files in out/release"
