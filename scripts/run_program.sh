#!/bin/sh
# Runs a program of this repository, and hands on its arguments and exit status.
#
#     scripts/run_program.sh CRATE [ARGUMENT]..
#
# The proved program runs where `rt ci` has left it and no source is newer. Otherwise a program
# that is built without proof from the same sources runs. The first such call builds it, in about
# half a minute; later calls run what that kept. Standard error says so where it is a terminal.
set -eu

crate=$1
shift
top=$(dirname -- "$(dirname -- "$(readlink -f -- "$0")")")
proved="$top/crates/$crate/out/$crate"
unproved="$top/out/unproved/$crate"

# Whether a program stands there that is newer than each source.
is_current() {
    [ -x "$1" ] || return 1
    newer=$(find "$top/crates" "$top/crates.txt" "$top/HANDLES" \
        -name out -prune -o -type f -newer "$1" -print)
    [ -z "$newer" ]
}

# Prints a line to standard error where that is a terminal.
tell() {
    [ ! -t 2 ] || printf '%s: %s\n' "$crate" "$1" >&2
}

if is_current "$proved"; then
    exec "$proved" "$@"
fi
if ! is_current "$unproved"; then
    tell 'building it without proof, once, in about half a minute'
    "$top/scripts/build_unproved.sh" "$crate" "$unproved" </dev/null || exit 2
fi
# shellcheck disable=SC2016
tell 'not proved yet; `rt ci` proves it'
exec "$unproved" "$@"
