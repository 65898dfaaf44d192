#!/bin/sh
# Tries each file of out/release as one who has nothing but it: neither the kit nor this repository.
#
#     scripts/releasing/try_release.sh
#
# Each way prints the tokens of one text, which are compared with what the released starlark_lex
# prints of it. A line of the table says what was tried, how that ended, and how many seconds it
# took. Where a tool is missing, the line names it. The exit status is 1 where something failed.

# The trials are called by their names:
# shellcheck disable=SC2317
set -u

top=$(CDPATH='' cd -- "$(dirname -- "$0")/../.." && pwd)
release="$top/out/release"
version=$(cat "$top/VERSION")
work=$(mktemp -d)
trap 'rm -rf "$work"' EXIT
trap 'exit 1' HUP INT TERM
sample="$work/sample.star"
failed=0

# Runs a command with a path that has neither the kit nor the repository.
clean() {
    env -i PATH="$path" HOME="$work" LC_ALL=C.UTF-8 TMPDIR="$work" "$@"
}

# The bytes and the kind of each token in small letters, of lines with a place between or without.
spans_and_kinds() {
    LC_ALL=C sed -n -E 's/^([0-9]+-[0-9]+) ([0-9]+:[-0-9:]+ )?([A-Za-z_]+).*/\1 \3/p' |
        tr -d _ | tr '[:upper:]' '[:lower:]'
}

# Runs a trial in a folder of its own, and compares what it prints with the right tokens.
try() {
    name=$1
    shift
    begun=$(date +%s)
    folder="$work/$(echo "$name" | tr -c 'a-zA-Z0-9\n' _)"
    mkdir -p "$folder"
    (cd "$folder" && "$@") >"$work/printed" 2>"$work/said"
    status=$?
    seconds=$(($(date +%s) - begun))
    if [ $status = 3 ]; then
        printf '%-44s left out: %s\n' "$name" "$(cat "$work/said")"
    elif [ $status = 0 ] && spans_and_kinds <"$work/printed" | cmp -s - "$work/right"; then
        printf '%-44s %s tokens, %s s\n' "$name" "$(wc -l <"$work/right")" $seconds
    else
        printf '%-44s failed\n' "$name"
        cat "$work/said" "$work/printed" | head -n 20 >&2
        failed=1
    fi
}

# Ends a trial where a program is missing.
needs() {
    for tool do
        clean sh -c "command -v $tool" >/dev/null || {
            echo "there is no $tool" >&2
            exit 3
        }
    done
}

# Unpacks the archive of a target into the folder of the trial, whose name is then in `archive`.
unpack() {
    archive="$PWD/starlark-lex-$version-$1-linux"
    [ -f "$release/starlark-lex-$version-$1-linux.tar.gz" ] || {
        echo "there is no archive for $1" >&2
        exit 3
    }
    tar -xzf "$release/starlark-lex-$version-$1-linux.tar.gz"
}

try_program() {
    unpack x86_64
    clean "$archive/bin/starlark_lex" <"$sample"
}

# Its lines have kinds, and lines and columns in place of bytes.
try_program_over_files() {
    unpack x86_64
    clean "$archive/bin/starlark_tokens" "$sample" >lines || return 1
    cut -d ' ' -f 1 "$work/right" >spans
    cut -d ' ' -f 2 lines | paste -d ' ' spans -
}

try_pkg_config() {
    needs cc pkg-config
    unpack x86_64
    flags=$(PKG_CONFIG_PATH="$archive/lib/pkgconfig" pkg-config --cflags --libs starlark_lex)
    # shellcheck disable=SC2086
    clean cc "$archive/share/doc/starlark-lex/examples/print_tokens.c" $flags -o print_tokens
    clean env LD_LIBRARY_PATH="$archive/lib" ./print_tokens <"$sample"
}

# Builds by CMake: a program in C++ over the shared library, and one in C over the static one.
build_by_cmake() {
    needs cmake make cc c++
    unpack x86_64
    mkdir source
    sed "s/@VERSION@/$version/" "$top/release/try/CMakeLists.txt" >source/CMakeLists.txt
    cp "$archive/share/doc/starlark-lex/examples/"* source
    clean cmake -S source -B build -DCMAKE_PREFIX_PATH="$archive" >&2
    clean cmake --build build >&2
}

try_cmake_shared() {
    build_by_cmake
    clean build/shared <"$sample"
}

try_cmake_static() {
    build_by_cmake
    clean build/static <"$sample"
}

# Makes a crate of its own over the released one, with features of it, and goes to its folder.
make_tool() {
    crate="$release/starlark_lexer-$version.crate"
    [ -f "$crate" ] || { echo 'there is no crate' >&2 && exit 3; }
    tar -xzf "$crate"
    mkdir -p tool/src
    cp "$top/release/try/main.rs" tool/src
    cat >tool/Cargo.toml <<END
[package]
name = "tool"
version = "0.1.0"
edition = "2021"

[dependencies]
starlark_lexer = { path = "../starlark_lexer-$version", features = [${1:-}] }
END
    cd tool || exit 1
}

# Runs a crate over the released one, by a cargo and a rustc.
try_crate() {
    needs cargo cc
    make_tool
    clean cargo run --offline --quiet <"$sample"
}

# The same over the shared library of the archive.
try_crate_over_system() {
    needs cargo cc pkg-config readelf
    unpack x86_64
    make_tool '"system"'
    clean env PKG_CONFIG_PATH="$archive/lib/pkgconfig" LD_LIBRARY_PATH="$archive/lib" \
        cargo run --offline --quiet <"$sample" || return 1
    readelf -d target/debug/tool | grep -q 'NEEDED.*libstarlark_lex\.so'
}

# Installs the wheel into a new virtual environment, in which nothing else is.
install_wheel() {
    needs python3
    ls "$release"/starlark_lexer-"$version"-*x86_64.whl >/dev/null 2>&1 ||
        { echo 'there is no wheel' >&2 && exit 3; }
    clean python3 -m venv venv || { echo 'python3 makes no virtual environment' >&2 && exit 3; }
    clean venv/bin/pip install --quiet --no-index --find-links "$release" starlark_lexer >&2
}

# Prints the tokens by the package of a virtual environment, which is also run as a program.
print_by_python() {
    clean venv/bin/python -m starlark_lexer "$sample" >&2 || return 1
    clean venv/bin/python "$top/release/try/tokens.py" <"$sample"
}

try_wheel() {
    install_wheel
    clean venv/bin/starlark-lsp --version >&2 || return 1
    print_by_python
}

# Builds the sdist over the released archive for C, without the network.
try_sdist() {
    needs cc
    for name in "${PYTHON:-python3}" /usr/bin/python3; do
        "$name" -c 'import setuptools, wheel' 2>/dev/null && python=$name && break
    done
    [ -n "${python:-}" ] || { echo 'no python3 has setuptools and wheel' >&2 && exit 3; }
    unpack x86_64
    clean "$python" -m venv --system-site-packages venv ||
        { echo 'python3 makes no virtual environment' >&2 && exit 3; }
    clean env STARLARK_LEX_DIR="$archive" venv/bin/pip install --quiet --no-index \
        --no-build-isolation --no-deps "$release/starlark_lexer-$version.tar.gz" >&2
    print_by_python
}

# Takes the module for Go from a proxy of files.
try_go() {
    clean "$top/bindings/go/scripts/try_release.sh" "$release" <"$sample"
}

try_go_windows() {
    needs x86_64-w64-mingw32-gcc wine
    clean env GOOS=windows GOARCH=amd64 CGO_ENABLED=1 CC=x86_64-w64-mingw32-gcc RUN_BY=wine \
        WINEPREFIX="$work/wine" WINEDEBUG=-all \
        "$top/bindings/go/scripts/try_release.sh" "$release" <"$sample"
}

# Installs the Debian packages into a root of their own.
install_debs() {
    needs dpkg
    ls "$release"/*_amd64.deb >/dev/null 2>&1 || { echo 'there are no packages' >&2 && exit 3; }
    mkdir -p root/var/lib/dpkg/updates root/var/lib/dpkg/info
    : >root/var/lib/dpkg/status
    dpkg --root="$PWD/root" --log=/dev/null --force-depends --force-not-root \
        --force-script-chrootless --install "$release"/*_amd64.deb >&2
}

try_deb_program() {
    install_debs
    clean root/usr/bin/starlark_lex <"$sample"
}

try_deb_library() {
    needs cc pkg-config
    install_debs
    lib="$PWD/root/usr/lib/x86_64-linux-gnu"
    flags=$(PKG_CONFIG_PATH="$lib/pkgconfig" pkg-config --cflags --libs starlark_lex)
    example=root/usr/share/doc/libstarlark-lex-dev/examples/print_tokens.c
    # shellcheck disable=SC2086
    clean cc $example $flags -o print_tokens
    clean env LD_LIBRARY_PATH="$lib" ./print_tokens <"$sample"
}

try_arm() {
    needs aarch64-linux-gnu-gcc
    emulator=qemu-aarch64
    clean sh -c 'command -v qemu-aarch64' >/dev/null || emulator=qemu-aarch64-static
    needs "$emulator"
    unpack aarch64
    example="$archive/share/doc/starlark-lex/examples/print_tokens.c"
    clean aarch64-linux-gnu-gcc -I "$archive/include" "$example" \
        "$archive/lib/libstarlark_lex$1" -o print_tokens
    clean env QEMU_LD_PREFIX=/usr/aarch64-linux-gnu LD_LIBRARY_PATH="$archive/lib" \
        "$emulator" -E LD_LIBRARY_PATH="$archive/lib" ./print_tokens <"$sample"
}

# Runs a program on a processor that has no more than the first x86-64.
try_baseline() {
    needs cc qemu-x86_64
    unpack x86_64
    clean cc -I "$archive/include" "$archive/share/doc/starlark-lex/examples/print_tokens.c" \
        "$archive/lib/libstarlark_lex.a" -o print_tokens
    clean qemu-x86_64 -cpu qemu64 ./print_tokens <"$sample"
}

# Unpacks the archive for Windows.
unpack_windows() {
    needs x86_64-w64-mingw32-gcc wine unzip
    archive="$PWD/starlark-lex-$version-x86_64-windows"
    [ -f "$release/starlark-lex-$version-x86_64-windows.zip" ] || {
        echo 'there is no archive for Windows' >&2
        exit 3
    }
    unzip -q "$release/starlark-lex-$version-x86_64-windows.zip"
}

# Runs a program for Windows. Its lines end with CR and LF.
run_windows() {
    clean env WINEPREFIX="$work/wine" WINEDEBUG=-all timeout 120 wine "$@" >windows_lines || return 1
    tr -d '\r' <windows_lines
}

# Prints the tokens over the static library, and runs the tests of C.
try_windows_static() {
    unpack_windows
    for program in print_tokens small_calls edited_documents stored_texts; do
        clean x86_64-w64-mingw32-gcc -std=c11 -O2 -I "$archive/include" \
            "$top/bindings/c/$program.c" "$archive/lib/libstarlark_lex.a" -o "$program.exe" || return 1
    done
    stored="Z:$top/crates/starlark_rows"
    run_windows ./stored_texts.exe "$stored/stdin" "$stored/stdout" >&2 || return 1
    run_windows ./small_calls.exe >&2 || return 1
    run_windows ./edited_documents.exe 2000 >&2 || return 1
    run_windows ./print_tokens.exe <"$sample"
}

# Prints the tokens over the DLL, which CMake finds.
try_windows_dll() {
    needs cmake make
    unpack_windows
    mkdir source
    cat >source/CMakeLists.txt <<END
cmake_minimum_required(VERSION 3.13)
project(try_starlark_lex C)
find_package(starlark_lex $version REQUIRED)
add_executable(shared print_tokens.c)
target_link_libraries(shared starlark_lex::starlark_lex)
END
    cp "$archive/share/doc/starlark-lex/examples/print_tokens.c" source
    clean cmake -S source -B build -DCMAKE_SYSTEM_NAME=Windows -DCMAKE_PREFIX_PATH="$archive" \
        -DCMAKE_C_COMPILER=x86_64-w64-mingw32-gcc >&2
    clean cmake --build build >&2
    cp "$archive"/bin/*.dll build
    run_windows build/shared.exe <"$sample"
}

# Prints a path whose first rustc can build the crate for a target: ours, or the system's.
path_for() {
    least=$(sed -n 's/^rust-version = "\(.*\)"/\1/p' "$top/bindings/rust/Cargo.toml")
    for folders in "$path" /usr/bin:/bin; do
        folder=$(PATH=$folders rustc --print target-libdir --target "$1" 2>/dev/null) || continue
        found=$(PATH=$folders rustc --version | cut -d ' ' -f 2)
        if [ -d "$folder" ] && printf '%s\n%s\n' "$least" "$found" | sort -CV; then
            echo "$folders"
            return 0
        fi
    done
    echo "no rustc from $least on has the library of $1" >&2
    return 1
}

# Builds the crate's program for Windows.
try_windows_crate() {
    needs cargo x86_64-w64-mingw32-gcc wine
    triple=x86_64-pc-windows-gnu
    folders=$(path_for "$triple") || exit 3
    make_tool
    clean env PATH="$folders" cargo build --offline --quiet --target "$triple" || return 1
    run_windows "target/$triple/debug/tool.exe" <"$sample"
}

# Lexes the text by the package for npm, by `import` and by `require`.
try_npm() {
    needs node
    [ -f "$release/starlark-lexer-$version.tgz" ] || { echo 'there is no package' >&2 && exit 3; }
    mkdir -p node_modules
    tar -xzf "$release/starlark-lexer-$version.tgz" && mv package node_modules/starlark-lexer
    cp "$top/release/try/tokens.mjs" "$top/release/try/tokens.cjs" .
    clean node tokens.cjs <"$sample" >required
    clean node tokens.mjs <"$sample" | tee imported
    cmp imported required
}

# Says what lintian finds in the packages; errors fail.
lint_debs() {
    clean sh -c 'command -v lintian' >/dev/null || {
        printf '%-44s left out: there is no lintian\n' 'the Debian packages, by lintian'
        return 0
    }
    if clean lintian --fail-on error --allow-root "$release"/*.deb >"$work/said" 2>&1; then
        printf '%-44s no errors, %s warnings\n' 'the Debian packages, by lintian' \
            "$(grep -c '^W:' "$work/said")"
    else
        printf '%-44s failed\n' 'the Debian packages, by lintian'
        cat "$work/said" >&2
        failed=1
    fi
}

# A compiler for Rust and a python3 may be in folders of their own.
path=/usr/bin:/bin
sysroot=$(rustc --print sysroot 2>/dev/null) && path="$sysroot/bin:$path"
home=$(python3 -c 'import sys; print(sys.exec_prefix)' 2>/dev/null) && path="$home/bin:$path"
if clean sh -c 'command -v rt' >/dev/null; then
    echo "try_release.sh: the kit's rt is on the path" >&2
    exit 1
fi
[ -f "$release/SHA256SUMS" ] || { echo 'left out: there is no release' && exit 0; }
(cd "$release" && sha256sum --check --quiet SHA256SUMS) || exit 1
cp "$top/release/try/sample.star" "$sample"
mkdir "$work/first"
(cd "$work/first" && try_program) | spans_and_kinds >"$work/right"
[ -s "$work/right" ] || { echo 'try_release.sh: starlark_lex prints nothing' >&2 && exit 1; }
try 'starlark_lex of the archive' try_program
try 'starlark_tokens of the archive' try_program_over_files
try 'C by pkg-config, shared' try_pkg_config
try 'C by CMake, static' try_cmake_static
try 'C++ by CMake, shared' try_cmake_shared
try 'Rust, a crate of its own, offline' try_crate
try 'Rust over the shared library, by pkg-config' try_crate_over_system
try 'Python, the wheel in a virtual environment' try_wheel
try 'Python, the sdist over the archive' try_sdist
try 'Go, the module from a proxy of files' try_go
try 'Debian, starlark_lex in a root of its own' try_deb_program
try 'Debian, C by pkg-config in that root' try_deb_library
try 'ARM, C, static, under qemu' try_arm .a
try 'ARM, C, shared, under qemu' try_arm .so
try 'x86-64 without v2, C, under qemu' try_baseline
try 'Windows, C, static and its tests, under wine' try_windows_static
try 'Windows, C by CMake, the DLL, under wine' try_windows_dll
try 'Windows, Rust, under wine' try_windows_crate
try 'Windows, Go from a proxy of files, under wine' try_go_windows
try 'Node, the package for npm' try_npm
lint_debs
exit $failed
