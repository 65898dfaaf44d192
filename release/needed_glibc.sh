#!/bin/sh
# Prints the least version of the GNU C library that some programs or shared objects need.
#
#     release/needed_glibc.sh MOST FILE..
#
# It fails where that is later than MOST.
set -eu

most=$1
shift
needed=$(for file do readelf --dyn-syms --wide "$file"; done |
    sed -n 's/.*@*GLIBC_\([0-9.]*\).*/\1/p' | sort -Vu | tail -n 1)
[ "$(printf '%s\n%s\n' "$needed" "$most" | sort -V | tail -n 1)" = "$most" ] || {
    echo "needed_glibc.sh: $* needs glibc $needed" >&2
    exit 1
}
echo "$needed"
