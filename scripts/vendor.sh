#!/bin/sh
# Copies the library's crates and their lines of crates.txt into another repository, or brings the
# copies there up to date.
#
#     scripts/vendor.sh DIR
#
# The crates are `starlark_document` and those below it. Edits, tests and what checks left are no part
# of a copy.
# Crates and lines of DIR/crates.txt that this script didn't write stay as they are.
set -eu

top=$(CDPATH='' cd -- "$(dirname -- "$0")/.." && pwd)
begin='# Copies, by vendor.sh: the lines up to the next comment.'
end='# End of the copies.'

usage() {
    echo 'usage: scripts/vendor.sh DIR' >&2
    exit 2
}

# Names crates and those that they stand on, as crates.txt has them.
crates_and_below() {
    awk -F: -v roots="$*" '
        { uses[$1] = $2 }
        END {
            count = split(roots, queue, " ")
            for (at = 1; at <= count; at++)
                seen[queue[at]] = 1
            for (at = 1; at <= count; at++) {
                print queue[at]
                last = split(uses[queue[at]], below, " ")
                for (k = 1; k <= last; k++)
                    if ((below[k] in uses) && !(below[k] in seen)) {
                        seen[below[k]] = 1
                        queue[++count] = below[k]
                    }
            }
        }' "$top/crates.txt" | sort
}

# Names the crates that an earlier call copied.
crates_copied() {
    [ ! -e "$target/crates.txt" ] ||
        awk -F: -v begin="$begin" -v end="$end" '
            $0 == end { inside = 0 }
            inside { print $1 }
            $0 == begin { inside = 1 }' "$target/crates.txt"
}

# Prints the lines of the other repository that are no copies.
other_lines() {
    [ ! -e "$target/crates.txt" ] ||
        awk -F: -v begin="$begin" -v end="$end" -v names="$names" '
            BEGIN {
                count = split(names, list, "[ \n]+")
                for (at = 1; at <= count; at++)
                    copied[list[at]] = 1
            }
            $0 == begin { inside = 1 }
            !inside && !($1 in copied) { print }
            $0 == end { inside = 0 }' "$target/crates.txt"
}

# Copies the sources of a crate in place of those that are there.
copy_crate() {
    mkdir -p "$target/crates/$1"
    for part in src specs proofs; do
        rm -rf "$target/crates/$1/$part"
        [ ! -e "$top/crates/$1/$part" ] || cp -R "$top/crates/$1/$part" "$target/crates/$1"
    done
}

if [ $# != 1 ] || [ ! -d "$1" ]; then
    usage
fi
target=$(CDPATH='' cd -- "$1" && pwd)
[ "$target" != "$top" ] || usage

copied=$(crates_copied)
names=$(crates_and_below starlark_document)

for crate in $copied; do
    rm -rf "$target/crates/$crate/src" "$target/crates/$crate/specs" "$target/crates/$crate/proofs"
done
for crate in $names; do
    copy_crate "$crate"
done
for crate in $copied; do
    [ -e "$target/crates/$crate/src" ] || rm -rf "$target/crates/$crate"
done

lines=$(mktemp)
trap 'rm -f "$lines"' EXIT
{
    other_lines
    echo "$begin"
    for crate in $names; do
        grep "^$crate:" "$top/crates.txt"
    done
    echo "$end"
} >"$lines"
cat "$lines" >"$target/crates.txt"
