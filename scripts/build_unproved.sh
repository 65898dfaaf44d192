#!/bin/sh
# Builds a program of this repository without proving it, in about half a minute.
#
#     scripts/build_unproved.sh CRATE OUTPUT
#
# `rt try` compiles a program, runs it, and keeps nothing. Here it runs as part of a copy of the
# kit, made of links, whose clang compiles at -O2 and whose linker keeps the program, both without
# the address sanitizer, so that valgrind and another allocator can run it. What `rt try` checks
# while a program runs is checked by it too.
# The sources are a copy, in which src/build.rt of the program says that it isn't proved.
# Where the build fails, what `rt try` said is on standard error, and OUTPUT isn't touched.
set -eu

crate=$1
output=$2
top=$(CDPATH='' cd -- "$(dirname -- "$0")/.." && pwd)
if ! command -v rt >/dev/null; then
    echo "build_unproved.sh: the Rattle kit's rt is not on the path" >&2
    exit 1
fi
kit=$(dirname "$(rt doc)")
work=$(mktemp -d)
trap 'rm -rf "$work"' EXIT
trap 'exit 1' HUP INT TERM

# Links to all files of a folder of the kit, but for those that stand in the copy already.
link_all() {
    for file in "$kit/$1"/*; do
        [ -e "$work/kit/$1/${file##*/}" ] || ln -s "$file" "$work/kit/$1"
    done
}

mkdir -p "$work/kit/bin" "$work/kit/toolchain/bin"
# rt finds its kit by where these two files lie.
cp "$kit/bin/rt" "$kit/bin/rtlib.py" "$work/kit/bin"
cat >"$work/kit/toolchain/bin/clang" <<END
#!/bin/sh
for word do
    shift
    case \$word in
        -O0) set -- "\$@" -O2 ;;
        -fsanitize=address) ;;
        *) set -- "\$@" "\$word" ;;
    esac
done
exec "$kit/toolchain/bin/clang" "\$@"
END
cat >"$work/kit/toolchain/bin/ld.lld" <<END
#!/bin/sh
sanitizer=
for word do
    shift
    case \$word in
        --whole-archive) sanitizer=1 ;;
        --no-whole-archive) sanitizer= ;;
        *) [ -n "\$sanitizer" ] || set -- "\$@" "\$word" ;;
    esac
done
"$kit/toolchain/bin/ld.lld" "\$@" && cp program "$work/program"
END
# Beside the build `rt try` calls the prover, only to name words that a check will refuse: half of the time.
echo '#!/bin/sh' >"$work/kit/bin/rattle"
chmod +x "$work/kit/toolchain/bin/clang" "$work/kit/toolchain/bin/ld.lld" "$work/kit/bin/rattle"
for folder in toolchain/bin toolchain bin .; do
    link_all "$folder"
done

# A source that is changed while this runs is newer than the program.
touch "$work/begun"
mkdir "$work/sources"
(cd "$top" && tar cf - --exclude='crates/*/out' crates crates.txt HANDLES) | tar xf - -C "$work/sources"
build=$work/sources/crates/$crate/src/build.rt
if [ -e "$build" ]; then
    sed -i 's/"proved"/"unproved build"/; s/"true"/"false"/' "$build"
fi
if ! (cd "$work/sources/crates/$crate" && "$work/kit/bin/rt" try </dev/null >"$work/said" 2>&1) ||
    [ ! -e "$work/program" ]; then
    cat "$work/said" >&2
    exit 1
fi
touch -r "$work/begun" "$work/program"
mkdir -p "$(dirname "$output")"
mv "$work/program" "$output.new.$$"
mv "$output.new.$$" "$output"
