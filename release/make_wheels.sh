#!/bin/sh
# Makes the wheels for Python of each target, and the sdist.
#
#     release/make_wheels.sh LIBRARIES TARGETS OUTPUT
#
# LIBRARIES has a folder for each target, made by scripts/bindings/link_library.sh. TARGETS is a list of
# x86_64 and aarch64. SOURCE_DATE_EPOCH is the time of all files. Where no python3 has setuptools
# and wheel the exit status is 2, and nothing is made.
set -eu

top=$(CDPATH='' cd -- "$(dirname -- "$0")/.." && pwd)
libraries=$1
targets=$2
output=$3
work=$(mktemp -d)
trap 'rm -rf "$work"' EXIT
trap 'exit 1' HUP INT TERM

# Prints the first Python that has what makes wheels.
builder() {
    for name in ${PYTHON:-} python3 /usr/bin/python3; do
        if "$name" -c 'import setuptools, wheel' 2>/dev/null; then
            echo "$name"
            return 0
        fi
    done
    return 1
}

python=$(builder) || {
    echo 'make_wheels.sh: no python3 has setuptools and wheel' >&2
    exit 2
}

# A copy of the package's sources, all with one time.
copy_sources() {
    rm -rf "$work/python"
    cp -R "$top/bindings/python" "$work/python"
    cp "$top/LICENSE" "$work/python"
    rm -rf "$work/python/build" "$work/python"/*.egg-info
    find "$work/python" -name __pycache__ -prune -exec rm -rf {} +
    find "$work/python" -exec touch -h -d "@$SOURCE_DATE_EPOCH" {} +
}

# Makes the wheel of a target.
make_wheel() {
    copy_sources
    if [ "$1" = aarch64 ]; then
        # Debian's pyconfig.h looks for that of the target. What the limited interface takes of it is
        # the same for both targets: the sizes of numbers.
        mkdir -p "$work/include"
        ln -sfn /usr/include/x86_64-linux-gnu "$work/include/aarch64-linux-gnu"
        CC=aarch64-linux-gnu-gcc
        CFLAGS="-I$work/include"
        LDSHARED="$CC -shared"
        export CC CFLAGS LDSHARED
    fi
    (cd "$work/python" && STARLARK_LEX_DIR="$libraries/$1" "$python" setup.py --quiet bdist_wheel \
        --plat-name "manylinux_2_17_$1" --dist-dir "$work/wheels" >"$work/said" 2>&1) || {
        cat "$work/said" >&2
        return 1
    }
    find "$work/python/build" -name '*.so' -exec "$top/release/needed_glibc.sh" 2.17 {} + >&2
}

# Makes the sdist, packed anew with one time and one owner.
make_sdist() {
    copy_sources
    (cd "$work/python" && "$python" setup.py --quiet sdist --dist-dir "$work/sdist" \
        >"$work/said" 2>&1) || {
        cat "$work/said" >&2
        return 1
    }
    (cd "$work/sdist" && tar -xzf ./*.tar.gz && rm ./*.tar.gz)
    name=$(cd "$work/sdist" && echo ./*)
    find "$work/sdist" -exec touch -h -d "@$SOURCE_DATE_EPOCH" {} +
    tar -C "$work/sdist" --sort=name --owner=0 --group=0 --numeric-owner --format=gnu -cf - \
        "${name#./}" | gzip -9n >"$output/${name#./}.tar.gz"
}

for target in $targets; do
    (make_wheel "$target")
done
make_sdist
cp "$work"/wheels/*.whl "$output"
