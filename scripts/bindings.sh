#!/bin/sh
# Makes the lexer's library for C, Rust, Python and browsers, and tests it from each.
#
#     scripts/bindings.sh [c | rust | python | go | web | library]
#
# It lets scripts/bindings/build_archive.py prove and build the archive of crates/starlark_c, where that is
# missing or older than a source. Then out/bindings has
#
#     libstarlark_lex.a, libstarlark_lex.so, starlark_lex.h       for C
#     python/                                                     for Python: the package
#     web/                                                        for browsers and Node
#
# and the tests of the part that is named, or of all, were run; of `library` none. The crate for
# Rust is built where it is, in bindings/rust, with the archive, the package for Go in
# out/bindings/go. Where there is no C compiler with its binary tools, no cargo, no python3 or no go,
# it says what was left out.
set -eu

top=$(CDPATH='' cd -- "$(dirname -- "$0")/.." && pwd)
crate="$top/crates/starlark_c"
module="$crate/out/starlark_c.bc"
made="$top/out/bindings"
stored="$top/crates/starlark_rows"

fail() {
    echo "bindings.sh: $1" >&2
    exit 1
}

# Makes the static and the shared library, where they aren't current. So parts may run side by side.
link_libraries() {
    CC=$cc "$top/scripts/bindings/link_library.sh" x86_64-linux "$module" "$made"
}

# Compares the numbers that cross to the header, the crate and the package, where there is a
# python3.
compare_numbers() {
    if command -v python3 >/dev/null; then
        python3 "$top/scripts/checks/binding_numbers.py"
    fi
}

# Prints the C compiler that is there.
compiler() {
    for name in ${CC:-} cc gcc clang; do
        if command -v "$name" >/dev/null; then
            echo "$name"
            return 0
        fi
    done
    return 1
}

# Compiles a test in C, with further flags; with sanitizers where the compiler has them.
compile() {
    flags="-std=c11 -O1 -g -Wall -Wextra -Werror $2"
    inputs="$top/bindings/c/$1.c $made/libstarlark_lex.a"
    # shellcheck disable=SC2086
    "$cc" $flags -fsanitize=address,undefined -fno-sanitize-recover -I "$made" $inputs \
        -o "$made/$1" 2>/dev/null ||
        "$cc" $flags -I "$made" $inputs -o "$made/$1"
}

# Prints a program in C++17 that compiles where no call of the header may throw.
program_of_calls() {
    echo '#include "starlark_lex.h"'
    echo 'template <class R, class... A> constexpr bool no_throw(R (*)(A...) noexcept) { return true; }'
    sed -n 's/^[a-z].*[ *]\(starlark_[a-z_0-9]*\)(.*/static_assert(no_throw(\1));/p' "$1"
}

# Compiles the header by itself as C of three standards, and as C++ where the compiler takes it.
compile_header() {
    header="$made/starlark_lex.h"
    flags='-Wall -Wextra -Wpedantic -Wconversion -Wsign-conversion -Werror -fsyntax-only'
    for standard in c99 c11 c17; do
        # shellcheck disable=SC2086
        "$cc" -std=$standard $flags -x c "$header"
    done
    echo 'int main() {}' | "$cc" -x c++ -fsyntax-only - 2>/dev/null || return 0
    for standard in c++98 c++11 c++14 c++17 c++20; do
        # shellcheck disable=SC2086
        "$cc" -std=$standard $flags -Wold-style-cast -x c++ "$header"
    done
    # shellcheck disable=SC2086
    "$cc" -std=c++11 $flags -Wold-style-cast -I "$made" "$top/release/try/tokens.cpp"
    program_of_calls "$header" | "$cc" -std=c++17 -fsyntax-only -I "$made" -x c++ -
}

test_c() {
    compile_header
    for test in stored_texts small_calls print_tokens edited_documents; do
        compile $test ''
    done
    compile refused_memory '-Wl,--wrap=malloc,--wrap=realloc'
    compile refused_documents '-Wl,--wrap=malloc,--wrap=realloc,--wrap=free'
    printf 'C: '
    "$made/stored_texts" "$stored/stdin" "$stored/stdout"
    printf 'C: '
    "$made/small_calls"
    printf 'C: '
    "$made/refused_memory"
    printf 'C: '
    "$made/edited_documents"
    printf 'C: '
    "$made/refused_documents"
}

# Lints the crate for Rust and its documentation, where clippy and rustfmt are there.
lint_rust() {
    if cargo clippy --version >/dev/null 2>&1; then
        cargo clippy --offline --quiet --all-targets -- -D warnings
        RUSTDOCFLAGS='-D warnings' cargo doc --offline --quiet --no-deps
    fi
    if cargo fmt --version >/dev/null 2>&1; then
        cargo fmt --check
    fi
}

# Calls Debian's cargo.
debians_cargo() {
    env PATH="/usr/bin:$PATH" CARGO_TARGET_DIR="$made/cargo_debian" cargo "$@"
}

# Tests the crate by the oldest Rust that it takes, where Debian's is that one, and checks it for other
# targets, of which the crate has no library. That Rust lays out a lexeme with a word more.
test_oldest_rust() {
    oldest=$(sed -n 's/^rust-version = "\(.*\)"/\1/p' Cargo.toml)
    case $(/usr/bin/rustc --version 2>/dev/null) in
    "rustc $oldest".*) ;;
    *)
        echo "Rust $oldest was left out: Debian's is not there, or another one"
        return 0
        ;;
    esac
    debians_cargo test --offline --quiet --lib -- --skip a_lexeme_has_five_words
    for target in x86_64-pc-windows-gnu wasm32-unknown-unknown; do
        [ ! -d "/usr/lib/rustlib/$target" ] ||
            (unset STARLARK_LEX_DIR && debians_cargo check --offline --quiet --target "$target")
    done
}

test_rust() {
    cargo --version >/dev/null 2>&1 || {
        echo 'Rust was left out: there is no cargo'
        return 0
    }
    command -v cc >/dev/null || {
        echo 'Rust was left out: there is no cc, with which rustc links'
        return 0
    }
    export STARLARK_LEX_DIR="$made" CARGO_TARGET_DIR="$made/cargo"
    cd "$top/bindings/rust"
    cargo test --offline --quiet
    lint_rust
    test_oldest_rust
    cd "$top"
    echo 'Rust: the tests of the crate passed'
}

# Whether python3 can build an extension module.
can_build_python() {
    python3 -c 'import os, setuptools, sysconfig
assert os.path.exists(sysconfig.get_path("include") + "/Python.h")' 2>/dev/null
}

test_python() {
    command -v python3 >/dev/null || {
        echo 'Python was left out: there is no python3'
        return 0
    }
    can_build_python || {
        echo 'Python was left out: python3 has no setuptools, or not its headers'
        return 0
    }
    rm -rf "$made/python" "$made/python_sources"
    cp -R "$top/bindings/python" "$made/python_sources"
    (cd "$made/python_sources" && STARLARK_LEX_DIR="$made" python3 -W ignore setup.py --quiet build \
        --build-lib "$made/python")
    if command -v mypy >/dev/null; then
        (cd "$top/bindings/python" && mypy --no-error-summary --cache-dir "$made/mypy" starlark_lexer)
    fi
    (cd "$top" && PYTHONPATH="$made/python" PYTHONDONTWRITEBYTECODE=1 \
        python3 -W error -m unittest discover -s bindings/python/tests)
}

part=${1:-all}
case $part in
c | rust | python | go | library | all) ;;
web) exec "$top/scripts/web.sh" ;;
*)
    echo 'usage: scripts/bindings.sh [c | rust | python | go | web | library]' >&2
    exit 2
    ;;
esac
command -v rt >/dev/null || fail "the Rattle kit's rt is not on the path"
if ! cc=$(compiler) || ! command -v objcopy >/dev/null; then
    echo 'C, Rust, Python and Go were left out: there is no C compiler with its binary tools'
    case $part in all) exec "$top/scripts/web.sh" ;; esac
    exit 0
fi
"$top/scripts/bindings/build_archive.py" || fail 'the archive of starlark_c is not proved'
link_libraries
case $part in c | all) test_c ;; esac
case $part in rust | all) test_rust ;; esac
case $part in python | all) test_python ;; esac
case $part in go | all) "$top/bindings/go/scripts/check.sh" ;; esac
case $part in rust | python | go | all) compare_numbers ;; esac
case $part in all) "$top/scripts/web.sh" ;; esac
