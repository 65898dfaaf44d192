#!/bin/sh
# Adds the module for Go to the files of a release.
#
#     bindings/go/scripts/release.sh WORK TARGETS OUTPUT
#
# WORK has a folder for each of the TARGETS, as `x86_64 aarch64`, with libstarlark_lex.a and
# starlark_lex.h. The release script calls it, and gives it the time of all files as
# SOURCE_DATE_EPOCH.
set -eu

work=$1
targets=$2
output=$3
package=$(CDPATH='' cd -- "$(dirname -- "$0")/.." && pwd)
version=$(cat "$package/../../VERSION")

# The module's name of a target's folder.
folder_of() {
    case $1 in
    x86_64) echo linux_amd64 ;;
    aarch64) echo linux_arm64 ;;
    windows_x86_64) echo windows_amd64 ;;
    *)
        echo "release.sh: the module for Go has no folder for $1" >&2
        exit 1
        ;;
    esac
}

set --
for target in $targets; do
    set -- "$@" "$(folder_of "$target")=$work/$target/libstarlark_lex.a"
done
"$package/scripts/module_zip.py" "$output/starlarklexer-go-$version.zip" \
    "$work/${targets%% *}/starlark_lex.h" "$@"
