#!/bin/sh
# install.sh ARCHIVE PLANLOOK: what `make install` puts in place is enough to build and run examples/pool.c, alone.
set -u
passed=0
failed=0
stage=$(pwd)/build/stage
rm -rf "$stage"

check() {
    name=$1
    shift
    if "$@"; then
        echo "ok $name"
        passed=$((passed + 1))
    else
        echo "FAILED $name"
        failed=$((failed + 1))
    fi
}

installs() {
    "${MAKE:-make}" -s install DESTDIR="$stage" PREFIX=/opt/pool ARCHIVE="$1" PLANLOOK="$2"
}

flags() {
    if command -v pkg-config >/dev/null 2>&1; then
        PKG_CONFIG_SYSROOT_DIR=$stage PKG_CONFIG_LIBDIR=$stage/opt/pool/lib/pkgconfig pkg-config "$1" gindrazoma
    elif [ "$1" = --cflags ]; then
        echo "-I$stage/opt/pool/include"
    else
        echo "-L$stage/opt/pool/lib -lgindrazoma"
    fi
}

builds() {
    # the flags are words
    # shellcheck disable=SC2046
    ${CC:-cc} -std=c11 -Wall -Wextra -Werror $(flags --cflags) -o "$stage/pool" examples/pool.c $(flags --libs)
}

runs() {
    "$stage/pool" | cmp - examples/pool.out
}

looks() {
    "$stage/opt/pool/bin/planlook" <examples/planlook/table-t.in | cmp - examples/planlook/table-t.out
}

has_pages() {
    [ -s "$stage/opt/pool/share/man/man1/planlook.1" ] && [ -s "$stage/opt/pool/share/man/man3/gindrazoma.3" ]
}

check "make install" installs "$1" "$2"
check "the example builds with the installed header and archive" builds
check "the example runs" runs
check "the installed planlook runs" looks
check "the manual pages are there" has_pages
echo "$passed passed, $failed failed"
[ "$failed" -eq 0 ]
