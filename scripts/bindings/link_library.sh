#!/bin/sh
# Makes the library for C of a target: static, and shared where the target has tools here.
#
#     scripts/bindings/link_library.sh TARGET MODULE OUTPUT
#     scripts/bindings/link_library.sh --tools TARGET
#
# MODULE is the LLVM module of the proved calls, which scripts/bindings/build_archive.py keeps. The
# kit's clang compiles it, and bindings/c/allocator.ll, for the target, and for each of its
# processors: code for x86-64-v2 would need 1 % fewer instructions at most. Then OUTPUT has
#
#     starlark_lex.h
#     libstarlark_lex.a
#     libstarlark_lex.so -> libstarlark_lex.so.ABI -> libstarlark_lex.so.VERSION     for Linux
#     starlark_lex-ABI.dll, libstarlark_lex.dll.a                                     for Windows
#
# ABI is the major version, and while that is 0 the minor one, too. Static and shared libraries have
# one object. Nothing but the calls of the header is visible in it, so that two archives of proved
# crates can be linked into one program. A call and what it uses have sections of their own, for
# --gc-sections. For macOS there are only archives, of three objects, which nothing here runs. The
# same inputs make the same bytes. Where all in OUTPUT is newer than its inputs, nothing is made.
# With --tools the exit status is 2 where a tool of the target is missing, which is named.
set -eu

top=$(CDPATH='' cd -- "$(dirname -- "$0")/../.." && pwd)
sources="$top/bindings/c"

fail() {
    echo "link_library.sh: $1" >&2
    exit "${2:-1}"
}

# Looks a target up: LLVM's name of it, the start of its tools' names, and flags of LLVM's.
look_up() {
    flags='-fPIC'
    case $1 in
    x86_64-linux) triple=x86_64-unknown-linux-gnu tools='' ;;
    aarch64-linux) triple=aarch64-unknown-linux-gnu tools=aarch64-linux-gnu- ;;
    riscv64-linux) triple=riscv64-unknown-linux-gnu tools=riscv64-linux-gnu- flags='-fPIC -march=rv64gc' ;;
    x86_64-windows) triple=x86_64-w64-windows-gnu tools=x86_64-w64-mingw32- flags='' ;;
    aarch64-macos) triple=arm64-apple-macos11 tools=none ;;
    x86_64-macos) triple=x86_64-apple-macos10.13 tools=none ;;
    *) fail "there is no target $1" 2 ;;
    esac
    compiler=${tools}gcc
    [ -n "$tools" ] || compiler=${CC:-cc}
}

# Fails with 2 where a tool of the target is missing.
require_tools() {
    [ "$tools" != none ] || return 0
    for tool in "$compiler" "${tools}ld" "${tools}objcopy" "${tools}ar" "${tools}nm"; do
        command -v "$tool" >/dev/null || fail "there is no $tool" 2
    done
}

# Whether the archive is newer than all that it is made of.
is_current() {
    [ -e "$output/libstarlark_lex.a" ] || return 1
    newer=$(find "$module" "$sources/starlark_lex.h" "$sources/calls.c" "$sources/allocator.ll" \
        "$top/VERSION" "$0" -newer "$output/libstarlark_lex.a")
    [ -z "$newer" ]
}

# Prints the names of the header's calls.
calls() {
    sed -n 's/^[a-z].*[ *]\(starlark_[a-z_0-9]*\)(.*/\1/p' "$sources/starlark_lex.h"
}

# Prints the module without a processor or a target, with other names for its calls, and for those of
# the allocator.
text_of_module() {
    sed -e '/^target triple = /d' -e 's/ "t[a-z]*-\(cpu\|features\)"="[^"]*"//g' \
        -e '/^define [^@]*@starlark_/s/^define \(dso_local \)\{0,1\}/define \1hidden /' \
        -e 's/@starlark_/@proved_starlark_/g' -e 's/@rattle_\(re\|de\)\{0,1\}alloc\>/@starlark_lex_\1alloc/g' \
        "$work/module.ll"
}

# Compiles LLVM's text into an object.
compile_text() {
    # shellcheck disable=SC2086
    "$clang" --target="$triple" -Wno-override-module -O3 $flags -ffunction-sections \
        -fdata-sections -fno-addrsig -c -x ir "$1" -o "$2"
}

# Compiles the proved calls, and the allocator.
compile_module() {
    "$clang" -x ir -S -emit-llvm -Xclang -disable-llvm-passes "$module" -o "$work/module.ll"
    text_of_module >"$work/proved.ll"
    compile_text "$work/proved.ll" "$work/proved.o"
    compile_text "$sources/allocator.ll" "$work/allocator.o"
}

# Compiles the calls of the header.
compile_calls() {
    if [ "$tools" = none ]; then
        # A freestanding compiler needs no more of C than what any compiler brings.
        headers=$(${CC:-cc} -print-file-name=include)
        set -- "$clang" --target="$triple" -ffreestanding -nostdinc -isystem "$headers"
    else
        set -- "$compiler"
    fi
    # shellcheck disable=SC2086
    "$@" $flags -std=gnu11 -O2 -ffunction-sections -fdata-sections -Wall -Wextra -Werror \
        -I "$sources" -c "$sources/calls.c" -o "$work/calls.o"
}

# Makes one object of all, in which only the header's calls are visible.
join_objects() {
    # shellcheck disable=SC2086
    "${tools}ld" -r $objects -o "$work/starlark_lex.o"
    "${tools}objcopy" --keep-global-symbols="$work/calls" --strip-unneeded \
        --remove-section=.comment "$work/starlark_lex.o"
    objects=$work/starlark_lex.o
}

# Makes the shared library, whose symbols have a version.
link_so() {
    {
        echo "STARLARK_LEX_$abi { global:"
        sed 's/$/;/' "$work/calls"
        echo 'local: *; };'
    } >"$work/exports"
    "$compiler" -shared -nostartfiles -Wl,-soname,"libstarlark_lex.so.$abi" \
        -Wl,--version-script,"$work/exports" -Wl,--gc-sections \
        -Wl,-z,noexecstack,-z,relro,-z,now -Wl,--build-id=sha1 -Wl,-s \
        "$work/starlark_lex.o" -o "$output/libstarlark_lex.so.$version"
    ln -sf "libstarlark_lex.so.$version" "$output/libstarlark_lex.so.$abi"
    ln -sf "libstarlark_lex.so.$abi" "$output/libstarlark_lex.so"
}

link_dll() {
    {
        echo "LIBRARY \"starlark_lex-$abi.dll\""
        echo EXPORTS
        sed 's/^/    /' "$work/calls"
    } >"$work/starlark_lex.def"
    # Else its base address depends on the name of the output.
    set -- -Wl,--no-insert-timestamp,--disable-auto-image-base
    "$compiler" -shared "$@" "$work/starlark_lex.o" "$work/starlark_lex.def" \
        -Wl,--out-implib,"$output/libstarlark_lex.dll.a" -Wl,-s -o "$output/starlark_lex-$abi.dll"
    "${tools}objcopy" --enable-deterministic-archives "$output/libstarlark_lex.dll.a"
}

# Prints what a library defines for others, as nm shows it.
visible() {
    "${tools}nm" --defined-only -P "$@" | sed 's/[@ ].*//' |
        grep -v -e ':$' -e '^STARLARK_LEX_' | sort
}

# Prints what the shared library defines for others.
exported() {
    case $target in
    *-linux) visible -D "$output/libstarlark_lex.so.$version" ;;
    *-windows)
        "${tools}objdump" -p "$output/starlark_lex-$abi.dll" |
            sed -n '/^\[Ordinal\/Name Pointer\]/,/^$/s/.*\(starlark_[a-z_0-9]*\)$/\1/p' | sort
        ;;
    esac
}

# Compares what both libraries define for others with the header's calls.
compare_symbols() {
    sort "$work/calls" >"$work/wanted"
    visible -g "$output/libstarlark_lex.a" >"$work/static"
    exported >"$work/shared"
    for found in static shared; do
        diff "$work/wanted" "$work/$found" >&2 ||
            fail "the $found library shows other symbols than the header's"
    done
}

# Makes the libraries of the target.
make_libraries() {
    mkdir -p "$output"
    rm -f "$output"/libstarlark_lex.* "$output"/starlark_lex-*.dll
    calls >"$work/calls"
    compile_module
    compile_calls
    objects="$work/proved.o $work/allocator.o $work/calls.o"
    case $target in
    *-macos) archiver="$kit/toolchain/bin/llvm-ar" ;;
    *)
        archiver=${tools}ar
        join_objects
        ;;
    esac
    # shellcheck disable=SC2086
    "$archiver" rcsD "$work/libstarlark_lex.a" $objects
    cp "$work/libstarlark_lex.a" "$sources/starlark_lex.h" "$output"
    case $target in
    *-linux) link_so ;;
    *-windows) link_dll ;;
    *-macos) return 0 ;;
    esac
    compare_symbols
}

# Ends with a status. After a failure no archive may look current.
finish() {
    rm -rf "$work"
    [ "$1" = 0 ] || rm -f "$output/libstarlark_lex.a"
    exit "$1"
}

if [ "${1:-}" = --tools ]; then
    look_up "$2"
    require_tools
    exit 0
fi
target=$1
module=$2
output=$3
version=$(cat "$top/VERSION")
abi=$("$top/release/abi.sh")
look_up "$target"
require_tools
! is_current || exit 0
kit=$(dirname "$(rt doc)")
clang="$kit/toolchain/bin/clang"
work=$(mktemp -d)
trap 'finish $?' EXIT
trap 'exit 1' HUP INT TERM
make_libraries
