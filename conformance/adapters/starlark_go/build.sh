#!/bin/sh
# Builds the adapter for starlark-go, whose scanner is a private part of its package syntax.
#
#     build.sh OUTPUT [SYNTAX]
#
# SYNTAX is the folder of that package (Debian's package golang-starlark-dev has it, the default).
# The exit status is 2 where Go or the package is missing.
set -eu

output=$1
syntax=${2:-/usr/share/gocode/src/go.starlark.net/syntax}
here=$(CDPATH='' cd -- "$(dirname -- "$0")" && pwd)
if ! command -v go >/dev/null || [ ! -f "$syntax/scan.go" ]; then
    echo 'build.sh: Go or the package syntax of starlark-go is missing' >&2
    exit 2
fi
work=$(mktemp -d)
trap 'rm -rf "$work"' EXIT
trap 'exit 1' HUP INT TERM
cp "$here/main.go" "$work"
for file in scan.go quote.go; do
    sed 's/^package syntax$/package main/' "$syntax/$file" >"$work/$file"
done
folder=$(CDPATH='' cd -- "$(dirname -- "$output")" && pwd)
(cd "$work" && GO111MODULE=off GOFLAGS='' go build -o "$folder/${output##*/}" .)
