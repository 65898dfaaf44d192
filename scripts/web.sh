#!/bin/sh
# Makes the lexer's package for browsers and Node, and its page, and tests both.
#
#     scripts/web.sh [build | speed TEXT..]
#
# Then out/bindings/web has the package for npm, and out/web/index.html is the page. With `build`
# nothing is tested. With `speed` the module, the library for C and a plain lexer in JavaScript are
# timed on texts without faults. The tests run in Node 18 or later (NODE names another one than that
# on the path), and those of browsers in headless Chromium and Firefox (CHROMIUM and FIREFOX name
# others). Where one is missing, or binaryen's wasm-opt, the script says what was left out. PICTURES
# names a folder for pictures of the page.
set -eu

top=$(CDPATH='' cd -- "$(dirname -- "$0")/.." && pwd)
package="$top/out/bindings/web"
module="$package/starlark_lex.wasm"
page="$top/out/web/index.html"
tests="$top/bindings/web/tests"
node=${NODE:-node}

# Whether the module is newer than each source of its crate, of those below it, and of its own.
is_current() {
    [ -e "$module" ] || return 1
    newer=$(find "$top/crates" "$top/crates.txt" "$top/HANDLES" "$top/bindings/web/heap.c" \
        "$top/bindings/c/starlark_lex.h" "$top/scripts/bindings/web_module.py" \
        -name out -prune -o -type f -newer "$module" -print)
    [ -z "$newer" ]
}

# Prints lexer.js as CommonJS has it.
as_common_js() {
    sed 's/^export \(class\|function\|const\) /\1 /' "$top/bindings/web/lexer.js"
    names=$(sed -n 's/^export [a-z]* \([A-Za-z]*\).*/\1/p' "$top/bindings/web/lexer.js" | paste -s -d , -)
    echo "module.exports = { $names };"
}

build() {
    if ! is_current; then
        command -v wasm-opt >/dev/null || {
            echo 'the module and the page were left out: there is no wasm-opt, which binaryen has'
            exit 0
        }
        echo 'proving and building the module of starlark_c' >&2
        "$top/scripts/bindings/web_module.py" "$module"
    fi
    cp "$top/LICENSE" "$top/bindings/web"/*.js "$top/bindings/web"/*.cjs "$top/bindings/web"/*.d.ts \
        "$top/bindings/web/package.json" "$top/bindings/web/README.md" "$package"
    as_common_js >"$package/lexer.cjs"
    for types in lexer starlark_lexer; do
        sed 's|/lexer\.js|/lexer.cjs|' "$package/$types.d.ts" >"$package/$types.d.cts"
    done
    "$top/scripts/bindings/web_page.py" "$module" "$page"
}

# Prints random texts with what the plain lexer finds: those of the file STARLARK_RANDOM_TEXTS, or new ones.
random_texts() {
    if [ -n "${STARLARK_RANDOM_TEXTS:-}" ]; then
        cat "$STARLARK_RANDOM_TEXTS"
    else
        python3 "$tests/random_texts.py" 20000 1
    fi
}

run_tests() {
    command -v "$node" >/dev/null || {
        echo 'the tests of the module and of the page were left out: there is no Node'
        return 0
    }
    export STARLARK_WEB="$package" STARLARK_PAGE="$page"
    "$node" --test-reporter=tap "$tests/lexer_test.mjs" >"$top/out/web/lexer.tap" || {
        cat "$top/out/web/lexer.tap"
        return 1
    }
    echo 'Node: the tests of the module passed'
    random_texts | "$node" "$tests/compare_lines.mjs"
    "$node" "$tests/page_test.mjs"
    "$node" "$tests/firefox_test.mjs"
}

# Times the module beside the library for C.
compare_speed() {
    "$top/scripts/bindings.sh" library
    cc -std=c11 -O2 -I "$top/bindings/c" "$tests/speed.c" "$top/out/bindings/libstarlark_lex.a" \
        -o "$top/out/web/speed"
    STARLARK_WEB="$package" "$node" "$tests/speed.mjs" "$top/out/web/speed" "$@"
}

part=${1:-all}
[ $# = 0 ] || shift
case $part in
build) build ;;
all)
    build
    run_tests
    ;;
speed)
    build
    compare_speed "$@"
    ;;
*)
    echo 'usage: scripts/web.sh [build | speed TEXT..]' >&2
    exit 2
    ;;
esac
