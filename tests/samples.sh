#!/bin/sh
# samples.sh SAMPLES PLANLOOK: the generator writes the inputs that are in examples/planlook, and planlook writes for each
# what is beside it.
set -u
passed=0
failed=0
work=$(mktemp -d) || exit 1
trap 'rm -rf "$work"' EXIT
"$1" "$work" || failed=1
for input in examples/planlook/*.in; do
    name=$(basename "$input" .in)
    if cmp "$work/$name.in" "$input" && "$2" <"$input" >"$work/out" && cmp "$work/out" "${input%.in}.out"; then
        echo "ok planlook $name"
        passed=$((passed + 1))
    else
        echo "FAILED planlook $name"
        failed=$((failed + 1))
    fi
done
echo "$passed passed, $failed failed"
[ "$failed" -eq 0 ]
