#!/bin/sh
# run.sh 'NAME..'..: makes check-NAME for each name. The names of one word are made one after the other. Words are made side by side, as many as
# there are processors, once the first is through and what all others need is built; what they print stays in their order. Each check
# prints a line 'N passed, M failed'; the last line here is the sum of them all. A check that prints no such line, or that fails without
# a count of failures, counts as one failure.
set -u

# run.sh --word FOLDER N: the checks of one word, their output in out.N and a line with name and counts of each in counts.N
if [ "${1-}" = --word ]; then
    work=$2
    word=$3
    for name in $(cat "$work/names.$word"); do
        printf '== %s\n' "$name"
        { "${MAKE:-make}" -s "check-$name" 2>&1; echo $? >"$work/status.$word"; } | tee "$work/log.$word"
        count=$(sed -n 's/^\([0-9][0-9]*\) passed, \([0-9][0-9]*\) failed$/\1 \2/p' "$work/log.$word" | tail -n 1)
        n=${count% *}
        m=${count#* }
        if [ -z "$count" ]; then
            n=0
            m=1
        elif [ "$m" -eq 0 ] && [ "$(cat "$work/status.$word")" -ne 0 ]; then
            m=1
        fi
        echo "$name $n $m" >>"$work/counts.$word"
    done
    : >"$work/done.$word"
    exit 0
fi

work=$(mktemp -d) || exit 1
trap 'rm -rf "$work"' EXIT
words=0
for names do
    words=$((words + 1))
    echo "$names" >"$work/names.$words"
done
if [ "$words" -gt 0 ]; then
    "$0" --word "$work" 1
fi
if [ "$words" -gt 1 ]; then
    "${MAKE:-make}" -s ready 2>&1
    seq 2 "$words" | xargs -P "$(nproc)" -n 1 sh -c '"$0" --word "$1" "$2" >"$1/out.$2" 2>&1' "$0" "$work" &
    word=2
    while [ "$word" -le "$words" ]; do
        while [ ! -f "$work/done.$word" ] && kill -0 $! 2>/dev/null; do
            sleep 0.2
        done
        cat "$work/out.$word"
        word=$((word + 1))
    done
    wait
fi
word=1
while [ "$word" -le "$words" ]; do
    [ -f "$work/done.$word" ] || echo "$(tr ' ' '+' <"$work/names.$word") 0 1" >>"$work/counts.$word" # it was broken off
    word=$((word + 1))
done
cat "$work"/counts.* 2>/dev/null | awk '
    { passed += $2; failed += $3; if ($3) names = names " " $1 }
    END { if (names) print "failed:" names; print passed + 0 " passed, " failed + 0 " failed"; exit failed > 0 }'
