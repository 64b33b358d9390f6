#!/bin/sh
# memory.sh PROGRAM: a short run of a test program under valgrind, on areas of just their lengths. An invalid read or
# write, or a use of a byte that nothing wrote, makes it fail.
if ! "$(dirname "$0")/valgrind.sh"; then
    echo "valgrind is not on this machine and could not be installed: NOT RUN"
    echo "0 passed, 0 failed"
    exit 0
fi
AREAS=exact SMALL=1 exec valgrind -q --error-exitcode=99 "$1"
