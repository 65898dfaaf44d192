#!/bin/sh
# Tests the package for Go, where there is a go and a C compiler.
#
#     bindings/go/scripts/check.sh [test | compare | scanner | all]
#     bindings/go/scripts/check.sh fuzz [SECONDS] | speed | windows FOLDER
#
# STARLARK_LEX_DIR names the folder with libstarlark_lex.a and starlark_lex.h; without it, it is
# out/bindings, which `scripts/bindings.sh library` makes. The parts are
#
#     test       the package's tests: stored texts, 20000 random texts from 8 goroutines under -race,
#                refused allocations, the address sanitizer, a build that has to fail
#     compare    tokens, values and positions beside those of starlark-go's scanner
#     scanner    the tests of starlark-go over this lexer in its scanner's place: they have to fail as
#                starlarkgo/failing.txt says, and no other way
#     fuzz       each fuzz target for some seconds (60)
#     speed      both scanners on one text of 1 MB, or on that of the file SPEED_TEXT
#     windows    the package's tests under wine, over the libstarlark_lex.a of a folder, by mingw's gcc
#
# Without an argument it is all of the first three. starlark-go is that of Debian's
# golang-starlark-dev, or of the folder STARLARK_GO. What a missing tool leaves out is named.
set -eu

package=$(CDPATH='' cd -- "$(dirname -- "$0")/.." && pwd)
top=$(CDPATH='' cd -- "$package/../.." && pwd)
library=${STARLARK_LEX_DIR:-$top/out/bindings}
starlark_go=${STARLARK_GO:-/usr/share/gocode/src/go.starlark.net}
made="$top/out/bindings/go"
module="$made/starlarklexer"
export GOFLAGS='' GOWORK=off GOPROXY=off GOSUMDB=off CGO_ENABLED=1

fail() {
    echo "check.sh: $1" >&2
    exit 1
}

# Copies the package, with the library for this machine in it.
gather() {
    [ -f "$library/libstarlark_lex.a" ] || fail "there is no $library/libstarlark_lex.a"
    rm -rf "$made"
    mkdir -p "$made"
    cp -R "$package" "$module"
    cp "$library/libstarlark_lex.a" "$module/lib/$(go env GOOS)_$(go env GOARCH)"
    cp "$library/starlark_lex.h" "$module/lib/include"
}

# Writes random texts, with what the plain lexer finds in them, where STARLARK_RANDOM_TEXTS names none.
write_random_texts() {
    if [ -z "${STARLARK_RANDOM_TEXTS:-}" ]; then
        STARLARK_RANDOM_TEXTS="$made/random_texts"
        python3 "$top/bindings/web/tests/random_texts.py" 20000 1 "$STARLARK_RANDOM_TEXTS"
    fi
    STARLARK_STORED_TEXTS="$top/crates/starlark_rows"
    export STARLARK_RANDOM_TEXTS STARLARK_STORED_TEXTS
}

# Runs the tests of a folder, and prints what they log of their counts.
run_tests() {
    folder=$1
    shift
    (cd "$folder" && go test -count=1 -v "$@" .) >"$made/tests" 2>&1 || {
        grep -v -e '^=== ' -e '^--- PASS' "$made/tests" >&2
        return 1
    }
    sed -n 's/^ *[a-z_]*_test.go:[0-9]*: /Go: /p' "$made/tests"
}

lint() {
    unformatted=$(gofmt -l "$package")
    [ -z "$unformatted" ] || fail "gofmt lays out otherwise: $unformatted"
    (cd "$module" && go vet ./...)
    for name in staticcheck go-staticcheck; do
        if command -v $name >/dev/null; then
            (cd "$module" && $name ./...)
            return 0
        fi
    done
    echo 'Go: staticcheck was left out: it is not there'
}

# A build without cgo has to fail with one error, which names what is missing; so has one for a platform
# whose library the module lacks.
refuse_builds() {
    if (cd "$module" && CGO_ENABLED=0 go build . 2>"$made/refused"); then
        fail 'a build without cgo passes'
    fi
    if [ "$(grep -c '^\./' "$made/refused")" != 1 ] ||
        ! grep -q 'undefined: starlarklexer_needs_CGO_ENABLED_1' "$made/refused"; then
        cat "$made/refused" >&2
        fail 'a build without cgo has other errors'
    fi
    for platform in linux/386 darwin/arm64; do
        (cd "$module" && GOOS=${platform%/*} GOARCH=${platform#*/} go list -f '{{.GoFiles}}' .) |
            grep -q 'unsupported\.go' || fail "a build for $platform names no error"
    done
}

# Builds over the shared library that pkg-config finds.
test_system() {
    if ! command -v pkg-config >/dev/null || ! [ -e "$library/libstarlark_lex.so" ]; then
        echo 'Go: the tag starlark_system was left out: there is no pkg-config or no shared library'
        return 0
    fi
    mkdir -p "$made/pkgconfig"
    printf 'Name: starlark_lex\nDescription: a lexer\nVersion: 0\nCflags: -I%s\nLibs: -L%s -lstarlark_lex\n' \
        "$library" "$library" >"$made/pkgconfig/starlark_lex.pc"
    PKG_CONFIG_PATH="$made/pkgconfig" LD_LIBRARY_PATH="$library" \
        run_tests "$module" -tags starlark_system -run Version
    echo 'Go: built by pkg-config over the shared library'
}

# Whether the C compiler links with the address sanitizer.
has_sanitizer() {
    echo 'int main(void) { return 0; }' >"$made/empty.c"
    ${CC:-cc} -fsanitize=address "$made/empty.c" -o "$made/empty" 2>/dev/null
}

test_package() {
    lint
    write_random_texts
    run_tests "$module" -race
    CGO_LDFLAGS_ALLOW='-Wl,--wrap=.*' run_tests "$module" -tags refused_memory -run 'RefusedMemory|TooLong'
    if has_sanitizer; then
        run_tests "$module" -asan -run 'Pieces|WithFaults|Document|Fuzz' >/dev/null
        echo 'Go: the tests passed with the address sanitizer'
    fi
    refuse_builds
    test_system
}

has_starlark_go() {
    [ -f "$starlark_go/syntax/scan.go" ] || {
        echo "Go: starlark-go was left out: it is not in $starlark_go"
        return 1
    }
}

# Copies the package syntax of starlark-go, with a function that calls its scanner.
gather_comparison() {
    comparison="$module/starlarkgo"
    cp -R "$starlark_go/syntax" "$comparison"
    rm -rf "$comparison"/syntax/*_test.go "$comparison/syntax/testdata"
    cp "$comparison/scan_all.go.txt" "$comparison/syntax/scan_all.go"
}

compare() {
    has_starlark_go || return 0
    gather_comparison
    write_random_texts
    (cd "$comparison" && go vet .)
    run_tests "$comparison" -run Texts
}

speed() {
    has_starlark_go || return 0
    gather_comparison
    run_tests "$comparison" -run Speed
    (cd "$comparison" && go test -run '^$' -bench 'Line|Edits' -benchmem .)
}

# The tests of starlark-go that fail over this lexer, and what they say.
failures() {
    grep -aE '^ *scan_test.go|/testdata/|^ *Error: |new interpreter' "$1" |
        sed -e 's/^ *//' -e 's|.*/testdata/|testdata/|' -e 's/\r/<CR>/g' -e 's/^[a-z]*_test.go:[0-9]*: //' |
        LC_ALL=C sort
}

# Runs starlark-go's tests in a GOPATH of their own: they look for their files there.
replace_scanner() {
    has_starlark_go || return 0
    command -v patch >/dev/null || {
        echo 'Go: the tests of starlark-go were left out: there is no patch'
        return 0
    }
    sources="$made/gopath/src"
    mkdir -p "$sources/example.org"
    cp -R "$module" "$sources/example.org/starlarklexer"
    cp -R "$starlark_go" "$sources/go.starlark.net"
    cp -R "$(dirname "$starlark_go")/golang.org" "$sources"
    (cd "$sources/go.starlark.net" && patch -s -p1) <"$package/starlarkgo/scanner.patch"
    (cd "$sources/go.starlark.net" && GO111MODULE=off GOPATH="$made/gopath" \
        go test -count=1 -v ./syntax ./resolve ./starlark ./starlarkstruct) >"$made/replaced" 2>&1 || true
    failures "$made/replaced" >"$made/failures"
    grep -v '^\(#.*\)*$' "$package/starlarkgo/failing.txt" | LC_ALL=C sort |
        diff - "$made/failures" >&2 || fail 'other tests of starlark-go fail than failing.txt says'
    echo "Go: starlark-go over this lexer: $(grep -ac '^--- PASS' "$made/replaced") tests pass, $(
        grep -ac '^--- FAIL' "$made/replaced") fail as failing.txt says: $(
        sed -n 's/^--- FAIL: \([A-Za-z]*\).*/\1/p' "$made/replaced" | tr '\n' ' ')"
}

fuzz() {
    for target in FuzzRecover FuzzValues FuzzDocument; do
        (cd "$module" && go test -run '^$' -fuzz "^$target\$" -fuzztime "${1:-60}s" -fuzzminimizetime 10x .)
    done
}

# Runs the tests as a program for Windows, which wine runs.
test_windows() {
    for tool in x86_64-w64-mingw32-gcc wine winepath; do
        command -v $tool >/dev/null || {
            echo "Go: Windows was left out: there is no $tool"
            return 0
        }
    done
    cp "$1/libstarlark_lex.a" "$module/lib/windows_amd64"
    (cd "$module" && GOOS=windows GOARCH=amd64 CC=x86_64-w64-mingw32-gcc go test -c -o "$made/tests.exe" .)
    write_random_texts
    (cd "$made" && STARLARK_STORED_TEXTS=$(winepath -w "$STARLARK_STORED_TEXTS") \
        STARLARK_RANDOM_TEXTS=$(winepath -w "$STARLARK_RANDOM_TEXTS") \
        wine ./tests.exe -test.v) >"$made/tests" 2>/dev/null || {
        grep -v -e '^=== ' -e '^--- PASS' "$made/tests" >&2
        return 1
    }
    sed -n 's/^ *[a-z_]*_test.go:[0-9]*: /Go, Windows: /p' "$made/tests"
}

part=${1:-all}
case $part in
test | compare | scanner | fuzz | speed | all) ;;
windows) [ $# = 2 ] || fail 'windows wants the folder of the library' ;;
*)
    echo 'usage: check.sh [test | compare | scanner | all | fuzz [SECONDS] | speed | windows FOLDER]' >&2
    exit 2
    ;;
esac
if command -v python3 >/dev/null; then python3 "$package/scripts/kinds.py"; fi
if ! command -v go >/dev/null || ! command -v "${CC:-cc}" >/dev/null; then
    echo 'Go was left out: there is no go, or no C compiler'
    exit 0
fi
gather
case $part in test | all) test_package ;; esac
case $part in compare | all) compare ;; esac
case $part in scanner | all) replace_scanner ;; esac
case $part in
fuzz) fuzz "${2:-60}" ;;
speed) speed ;;
windows) test_windows "$2" ;;
esac
