#!/bin/sh
# cargo-count.sh: passes on what cargo test prints and ends with the sum of its results as 'N passed, M failed'.
awk '
    { print }
    /^test result:/ { seen = 1; for (i = 2; i <= NF; i++) { if ($i == "passed;") n += $(i - 1); if ($i == "failed;") m += $(i - 1) } }
    END { if (!seen) m = 1; printf "%d passed, %d failed\n", n, m; exit m > 0 }
'
