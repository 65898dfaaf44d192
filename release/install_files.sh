#!/bin/sh
# Lays out the files of a release below a prefix, as a system or an archive has them.
#
#     release/install_files.sh LIBRARY PROGRAMS PREFIX LIBDIR DOCDIR
#
# LIBRARY is a folder that scripts/bindings/link_library.sh has made. PROGRAMS is
# one with both programs and with what release/program_files.py makes, or `none`. LIBDIR and DOCDIR
# are below PREFIX, as lib and share/doc/starlark-lex.
set -eu

top=$(CDPATH='' cd -- "$(dirname -- "$0")/.." && pwd)
library=$1
programs=$2
prefix=$3
libdir=$4
docdir=$5
version=$(cat "$top/VERSION")

# Prints a template of this folder for the release.
filled() {
    # From a folder of LIBDIR back to the prefix, for each part of LIBDIR.
    up=$(echo "$libdir" | sed 's|[^/]*|..|g')
    sed -e "s|@VERSION@|$version|g" -e "s|@ABI@|$("$top/release/abi.sh")|g" -e "s|@UP@|$up|g" \
        "$top/release/$1"
}

install_library() {
    mkdir -p "$prefix/include" "$prefix/$libdir/pkgconfig" "$prefix/$libdir/cmake/starlark_lex"
    cp "$library/starlark_lex.h" "$prefix/include"
    cp -P "$library"/libstarlark_lex.* "$prefix/$libdir"
    for dll in "$library"/*.dll; do
        [ ! -e "$dll" ] || { mkdir -p "$prefix/bin" && cp "$dll" "$prefix/bin"; }
    done
    filled starlark_lex.pc >"$prefix/$libdir/pkgconfig/starlark_lex.pc"
    for file in starlark_lexConfig.cmake starlark_lexConfigVersion.cmake; do
        filled $file >"$prefix/$libdir/cmake/starlark_lex/$file"
    done
}

install_programs() {
    share=$prefix/share
    mkdir -p "$prefix/bin" "$share/man/man1" "$share/bash-completion/completions" \
        "$share/zsh/vendor-completions" "$share/fish/vendor_completions.d"
    cp "$programs/bin/starlark_lex" "$programs/bin/starlark_tokens" "$prefix/bin"
    cp "$programs/starlark_lex.1" "$programs/starlark_tokens.1" "$share/man/man1"
    cp "$programs/starlark_tokens" "$share/bash-completion/completions"
    cp "$programs/_starlark_tokens" "$share/zsh/vendor-completions"
    cp "$programs/starlark_tokens.fish" "$share/fish/vendor_completions.d"
}

install_documents() {
    mkdir -p "$prefix/$docdir/examples" "$prefix/$docdir/use"
    cp "$top/LICENSE" "$top/CHANGELOG.md" "$top/docs/GRAMMAR.md" "$prefix/$docdir"
    cp "$top"/docs/use/*.md "$prefix/$docdir/use"
    cp "$top/bindings/c/print_tokens.c" "$top/release/try/tokens.cpp" "$prefix/$docdir/examples"
}

install_library
[ "$programs" = none ] || install_programs
install_documents
