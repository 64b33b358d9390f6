#!/bin/sh
# symbols.sh ARCHIVE: the archive defines the calls that the header declares and no other name, and asks for no function
# but memcpy, memmove, memset and memcmp.
set -u
passed=0
failed=0
work=$(mktemp -d) || exit 1
trap 'rm -rf "$work"' EXIT

check() {
    name=$1
    shift
    if "$@"; then
        echo "ok $name"
        passed=$((passed + 1))
    else
        echo "FAILED $name"
        failed=$((failed + 1))
    fi
}

sed -n 's/^int32_t \(gindrazoma_[a-z_]*\)(.*/\1/p' include/gindrazoma.h | sort >"$work/declared"
nm -g --defined-only "$1" | awk 'NF == 3 { print $3 }' | sort >"$work/defined"
nm -u "$1" | awk '$1 == "U" { print $2 }' | sort -u | grep -vxE 'memcpy|memmove|memset|memcmp|bcmp' >"$work/asked"

check "the archive defines what the header declares" diff "$work/declared" "$work/defined"
check "the archive asks for nothing else" test ! -s "$work/asked"
echo "$passed passed, $failed failed"
[ "$failed" -eq 0 ]
