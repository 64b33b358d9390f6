#!/bin/sh
# proofs.sh: Rattle's gate over every crate: proofs, edits that must be refused, and the program's run. It fails where the
# gate does, and where an edit was not refused for what it says: one that cannot be applied (BAD), fewer refused than there are, or one that
# was refused only because a proof names what the edit took away.
set -u
log=$(mktemp) || exit 1
trap 'rm -f "$log" "$log.status"' EXIT
{ rt ci 2>&1; echo $? >"$log.status"; } | tee "$log"
code=$(cat "$log.status")
[ "$code" -eq 0 ] || exit "$code"
edits=$(find crates -path '*/must-fail/*.edit' | wc -l)
said=$(grep -a '^rt: ok' "$log" | tail -n 1)
if ! printf '%s\n' "$said" | grep -q "must-fail edits: $edits refused" || printf '%s\n' "$said" | grep -Eq '[1-9][0-9]* bad'; then
    echo "proofs.sh: of $edits edits not each was refused: $said" >&2
    exit 1
fi
named=$(grep -a 'refused, as it must be (only because' "$log")
if [ -n "$named" ]; then
    echo "proofs.sh: refused for a name and not for what the edit says:" >&2
    printf '%s\n' "$named" >&2
    exit 1
fi
