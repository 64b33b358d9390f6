#!/bin/sh
# progress.sh CRATE LOG COMMAND..: runs a command of rt that proves a crate of crates.txt with all that it uses, and says how
# far it is: on a terminal in one line that is written over, elsewhere in a line for each crate. What the command prints goes
# to the log. If it fails, the end of the log is shown, up to the first crate that is not proved: those after it are not
# tried. The exit status is the command's.
set -u
if [ $# -lt 3 ]; then
    echo "usage: progress.sh CRATE LOG COMMAND.." >&2
    exit 2
fi
crate=$1
log=$2
shift 2

# the crate and what it uses; rt's own libraries are not in crates.txt and are proved already
total=$(awk -v crate="$crate" '
    /^[a-z]/ { name = $1; sub(/:$/, "", name); $1 = ""; uses[name] = $0 }
    END {
        list[1] = crate
        seen[crate] = count = 1
        for (i = 1; i <= count; i++) {
            n = split(uses[list[i]], names, " ")
            for (k = 1; k <= n; k++) if (names[k] in uses && !(names[k] in seen)) { seen[names[k]] = 1; list[++count] = names[k] }
        }
        print count
    }' crates.txt) || exit 2
mkdir -p "$(dirname "$log")" && : >"$log" || exit 2

if [ -t 1 ]; then over=yes; else over=; fi
echo "$crate: $total crates to check, which takes minutes the first time; what rt prints is in $log"

# Takes the line that is written over off the terminal.
wipe() {
    [ -z "$over" ] || printf '\r%-60s\r' ''
}

# the terminal interrupts the command too; here the line that is written over is ended
trap 'echo; echo "$crate: interrupted; what is proved so far is kept" >&2; exit 130' INT

{ "$@" 2>&1; echo "exit status $?"; } | tee "$log" | {
    status=1
    count=0
    while IFS= read -r line; do
        case $line in
        "rt: chose --jobs "*" for "*)
            count=$((count + 1))
            name=${line##* for }
            if [ -n "$over" ]; then
                printf '\rcrate %d of %d: %-24s' "$count" "$total" "$name"
            else
                echo "crate $count of $total: $name"
            fi
            ;;
        "exit status "*) status=${line#exit status } ;;
        esac
    done
    wipe
    exit "$status"
}
status=$?
if [ "$status" -eq 0 ]; then
    echo "$crate: proved and built"
else
    {
        sed '/^logic=not-proved/q' "$log" | grep -v '^statements \|^library ' | tail -n 20 | cut -c 1-400
        echo "FAILED with status $status: $*; the whole output is in $log"
    } >&2
fi
exit "$status"
