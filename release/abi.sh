#!/bin/sh
# Prints the version of what programs are linked with: the major one, and while that is 0 the minor
# one, too. The soname, the DLL, the Debian package and CMake's file say it.
set -eu

version=$(cat "$(dirname -- "$0")/../VERSION")
case $version in
0.*) echo "${version%.*}" ;;
*) echo "${version%%.*}" ;;
esac
