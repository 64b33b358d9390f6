#!/bin/sh
# outputs.sh PROGRAM..: each program, NAME or NAME-cpp, writes what examples/NAME.out says.
set -u
passed=0
failed=0
for program do
    if "$program" | cmp - "examples/$(basename "$program" -cpp).out"; then
        echo "ok $program"
        passed=$((passed + 1))
    else
        echo "FAILED $program"
        failed=$((failed + 1))
    fi
done
echo "$passed passed, $failed failed"
[ "$failed" -eq 0 ]
