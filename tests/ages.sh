#!/bin/sh
# ages.sh OLD NEW: an archive of AGE 1, 2 or 3, from before version 2.0.0, 3.0.0 or 3.1.0, and one of now answer alike about COUNT
# images from before version 2.0.0, from SEED, once repeated moves of the old one are left out and any shortest run of it passes for
# the first; and one of age 1 refuses larger moves by 5.
set -u
work=$(mktemp -d) || exit 1
trap 'rm -rf "$work"' EXIT

# answers NAME ARCHIVE AGE: the program over an archive, and what it prints
answers() {
    mkdir "$work/$1" && cp "$2" "$work/$1/libgindrazoma.a" &&
        GINDRAZOMA_LIB=$work/$1 cargo build -q --release -p outside --bin ages &&
        build/cargo/release/ages "$3" "${SEED:-1}" "${COUNT:-2000}" >"$work/$1.txt"
}

if ! answers old "$1" "${AGE:-1}" || ! answers new "$2" 4; then
    echo "FAILED the answers of $1 and $2 could not be had"
    exit 1
fi
if ! cmp "$work/old.txt" "$work/new.txt"; then
    diff "$work/old.txt" "$work/new.txt" | cut -c 1-200 | head -n 20
    echo "FAILED $1 and $2 answer differently"
    exit 1
fi
tail -n 1 "$work/old.txt"
echo "ok $1 and $2 answer alike"
