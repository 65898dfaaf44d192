#!/bin/sh
# Adds the package for npm and the page to the files of a release.
#
#     bindings/web/release.sh OUTPUT
#
# scripts/releasing/release.sh calls it, and gives it the time of all files as SOURCE_DATE_EPOCH.
set -eu

output=$1
top=$(CDPATH='' cd -- "$(dirname -- "$0")/../.." && pwd)
work=$(mktemp -d)
trap 'rm -rf "$work"' EXIT
trap 'exit 1' HUP INT TERM
umask 022
name="starlark-lexer-$(cat "$top/VERSION")"

"$top/scripts/web.sh" build
[ -f "$top/out/bindings/web/starlark_lex.wasm" ] || {
    echo 'release.sh: left out: the package for npm, and the page' >&2
    exit 0
}
cp -R "$top/out/bindings/web" "$work/package"
chmod -R u=rwX,go=rX "$work/package"
find "$work/package" -exec touch -d "@$SOURCE_DATE_EPOCH" {} +
tar -C "$work" --sort=name --owner=0 --group=0 --numeric-owner --format=gnu -cf - package |
    gzip -9n >"$output/$name.tgz"
cp "$top/out/web/index.html" "$output/$name.html"
