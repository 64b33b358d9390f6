#!/bin/sh
# callgrind.sh PROGRAM..: instructions a call, as callgrind counts them: the difference between one call on each pair and none.
# Each program says itself which tables it has, how many pairs, and whose calls; and writes the input of a table.
set -u
command -v valgrind >/dev/null 2>&1 || { echo "valgrind is not on this machine" >&2; exit 1; }
input=$(mktemp) || exit 1
trap 'rm -f "$input"' EXIT

# The instructions of a run of a program on the input.
instructions() {
    valgrind --tool=callgrind --callgrind-out-file=/dev/null "$@" <"$input" 2>&1 | sed -n 's/.*Collected : \([0-9]*\).*/\1/p'
}

for program do
    list=$("$program") || exit 1
    last=$(printf '%s\n' "$list" | tail -n 1)
    pairs=${last%% *}
    sides=${last#* }
    printf '%-28s' "$(basename "$program")"
    printf '%12s' $sides
    printf '\n'
    printf '%s\n' "$list" | sed '$d' | while read -r table name; do
        "$program" "$table" >"$input" || exit 1
        printf '%-28s' "$name"
        for side in $sides; do
            none=$(instructions "$program" "$side" 0)
            once=$(instructions "$program" "$side" 1)
            [ -n "$none" ] && [ -n "$once" ] || { echo "valgrind counted nothing" >&2; exit 1; }
            printf '%12d' $(((once - none) / pairs))
        done
        printf '\n'
    done || exit 1
done
