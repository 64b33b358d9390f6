#!/bin/sh
# valgrind.sh: whether valgrind is here; where it is missing it is installed.
command -v valgrind >/dev/null 2>&1 && exit 0
apt-get install -y valgrind >/dev/null 2>&1 || { apt-get update && apt-get install -y valgrind; } >/dev/null 2>&1
command -v valgrind >/dev/null 2>&1
