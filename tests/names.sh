#!/bin/sh
# names.sh ARCHIVE: the places that name calls, refusals, limits and the version agree with the header, and those that name promises
# and edits with one another. Each comparison is one case; one that fails says what stands in one of its two places only.
set -u
export LC_ALL=C
header=include/gindrazoma.h
source=crates/gindrazoma_c/src/lib.rt
page=man/gindrazoma.3
raw=rust/gindrazoma/src/raw.rs
refusals=rust/gindrazoma/src/refusal.rs
passed=0
failed=0
work=$(mktemp -d) || exit 1
trap 'rm -rf "$work"' EXIT

# compare WHAT PLACE LIST PLACE LIST: two lists of lines are equal in any order, and not empty.
compare() {
    sort "$3" >"$work/left"
    sort "$5" >"$work/right"
    if [ -s "$work/left" ] && cmp -s "$work/left" "$work/right"; then
        echo "ok $1: $2 and $4"
        passed=$((passed + 1))
        return
    fi
    echo "FAILED $1: $2 and $4"
    [ -s "$work/left" ] || echo "    none found in $2"
    [ -s "$work/right" ] || echo "    none found in $4"
    comm -23 "$work/left" "$work/right" | sed "s|^|    only in $2: |"
    comm -13 "$work/left" "$work/right" | sed "s|^|    only in $4: |"
    failed=$((failed + 1))
}

# A section of the manual page, from its heading to the next.
section() {
    awk -v name="$1" '/^\.S[HS] / { inside = substr($0, 5) == name; next } inside' "$page"
}

# Declarations in C as NAME(PARAMETERS), the parameters as Rust has them: a pointer and its length are one area.
c_calls() {
    tr '\n' ' ' | tr ';' '\n' | sed -n 's/.*int32_t gindrazoma_\([a-z0-9_]*\)(\(.*\)).*/\1,\2/p' | awk -F ' *, *' '{
        line = $1 "("
        for (i = 2; i <= NF; i++) {
            gsub(/ +/, " ", $i)
            area = $i
            sub(/.*\*/, "", area)
            if ($i ~ /^const uint8_t \*/ && $(i + 1) == "size_t " area "_len") { parameter = area ": &[u8]"; i++ }
            else if ($i ~ /^uint8_t \*/ && $(i + 1) == "size_t " area "_len") { parameter = area ": &mut [u8]"; i++ }
            else if ($i ~ /^uint32_t /) parameter = substr($i, 10) ": u32"
            else if ($i ~ /^uint64_t /) parameter = substr($i, 10) ": u64"
            else parameter = $i
            line = line (line ~ /\($/ ? "" : ", ") parameter
        }
        print line ")"
    }'
}

# The words of a file that begin with the library's prefix.
words() {
    tr -cs 'A-Za-z0-9_' '[\n*]' <"$1" | grep -E '^(gindrazoma_[a-z0-9_]+|GINDRAZOMA_[A-Z0-9_]+)$' | sort -u
}

# ---- calls

c_calls <"$header" >"$work/header"
sed 's/(.*//' "$work/header" >"$work/header-names"
# .BI puts its words together: what is between quotes keeps its spaces
section SYNOPSIS | awk -F '"' '/^\.BI / { for (i = 1; i <= NF; i++) { if (i % 2) gsub(/ |^\.BI/, "", $i); printf "%s", $i } print "" }' |
    c_calls >"$work/page"
section NAME | tr -cs 'a-z0-9_' '[\n*]' | sed -n 's/^gindrazoma_//p' >"$work/page-names"
section DESCRIPTION | sed -n 's/^\.B gindrazoma_//p' >"$work/page-described"
tr '\n' ' ' <"$source" | awk '{
    count = split($0, parts, "pub extern \"C\" fn gindrazoma_")
    for (i = 2; i <= count; i++) if (match(parts[i], /^[a-z0-9_]*\([^)]*\) -> i32/)) print substr(parts[i], 1, RLENGTH - 7)
}' | sed -e 's/  */ /g' -e 's/( /(/' -e 's/, *)/)/' >"$work/source"
sed -n 's/^    fn \([a-z0-9_]*(.*)\);$/\1/p' "$raw" >"$work/raw"
nm -g --defined-only "$1" | awk 'NF == 3 && $2 == "T" { print $3 }' | sed -n 's/^gindrazoma_//p' >"$work/archive"
sed -n '/^STAGES/p' Makefile | tr -cs 'a-z0-9_' '[\n*]' | sed -n 's/^gindrazoma_//p' >"$work/stages"

compare calls "$header" "$work/header" "$source" "$work/source"
compare calls "$header" "$work/header-names" "the archive" "$work/archive"
compare calls "$header" "$work/header" "$page, synopsis" "$work/page"
compare calls "$header" "$work/header-names" "$page, name" "$work/page-names"
compare calls "$header" "$work/header-names" "$page, description" "$work/page-described"
compare calls "$header" "$work/header" "$raw" "$work/raw"
compare calls "$header" "$work/header-names" "the stages of the Makefile" "$work/stages"

# ---- refusals: number and name

awk '/^enum gindrazoma_refusal/ { inside = 1; next } /^}/ { inside = 0 } inside' "$header" |
    sed -n 's/^ *GINDRAZOMA_\([A-Z_]*\) = \([0-9]*\).*/\2 \1/p' >"$work/header"
section "RETURN VALUE" | sed -n 's/^\.B \([0-9]*\) GINDRAZOMA_\([A-Z_]*\)$/\1 \2/p' >"$work/page"
sed -n 's/^    .* \([0-9][0-9]*\) \([A-Z_]*\)$/\1 \2/p' README.md >"$work/readme"
awk '/^pub enum Refusal/ { inside = 1; next } /^}/ { inside = 0 } inside' "$refusals" | sed -n 's/^ *\([A-Za-z]*\) = \([0-9]*\),$/\2 \1/p' |
    sed 's/\([a-z]\)\([A-Z]\)/\1_\2/g' | tr '[:lower:]' '[:upper:]' >"$work/rust"

compare refusals "$header" "$work/header" "$page" "$work/page"
compare refusals "$header" "$work/header" "README.md, drawing" "$work/readme"
compare refusals "$header" "$work/header" "$refusals" "$work/rust"

# ---- limits and lengths: number and name; the README has the limits only

awk '/^enum [{]/ { inside = 1; next } /^}/ { inside = 0 } inside && /= [0-9]/ { sub(/^ *GINDRAZOMA_/, ""); sub(/,/, ""); print $3, $1 }' \
    "$header" >"$work/header"
awk '/^enum [{]/ { inside = 1 } /^}/ { inside = 0 } inside && /^ *\/\*/ { limits = /Limits/ }
    inside && limits && /= [0-9]/ { sub(/^ *GINDRAZOMA_/, ""); sub(/,/, ""); print $3, $1 }' "$header" >"$work/limits"
section Limits | awk '/^GINDRAZOMA_/ { sub(/^GINDRAZOMA_/, ""); print $2, $1 }' >"$work/page"
sed -n 's/^pub const \([A-Z_]*\): usize = \([0-9]*\);$/\2 \1/p' "$raw" >"$work/raw"
awk -F ' *[|] *' '/^\|.*`GINDRAZOMA_/ { gsub(/,/, "", $3); gsub(/`|GINDRAZOMA_/, "", $4); print $3, $4 }' README.md >"$work/readme"

compare limits "$header" "$work/header" "$page" "$work/page"
compare limits "$header" "$work/header" "$raw" "$work/raw"
compare limits "$header" "$work/limits" "README.md, limits" "$work/readme"

# ---- the version

# version PLACE LIST
version() {
    compare version "$header" "$work/header" "$1" "$2"
}

sed -n 's/^#define GINDRAZOMA_VERSION "\(.*\)"$/\1/p' "$header" >"$work/header"
awk '/^#define GINDRAZOMA_VERSION_(MAJOR|MINOR|PATCH) / { line = line (line == "" ? "" : ".") $3 } END { print line }' "$header" >"$work/numbers"
sed -n 's/^VERSION = //p' Makefile >"$work/make"
sed -n 's/^version = "\(.*\)"$/\1/p' rust/gindrazoma/Cargo.toml >"$work/cargo"
sed -n 's/^## \([0-9].*\)$/\1/p' CHANGELOG.md | head -n 1 >"$work/changes"
# any file will do for the program: only the pkg-config file is looked at
"${MAKE:-make}" -s install DESTDIR="$work/stage" PREFIX=/usr ARCHIVE="$1" PLANLOOK="$1" >/dev/null
sed -n 's/^Version: //p' "$work/stage/usr/lib/pkgconfig/gindrazoma.pc" >"$work/pc"

version "its MAJOR, MINOR and PATCH" "$work/numbers"
version Makefile "$work/make"
version rust/gindrazoma/Cargo.toml "$work/cargo"
version "the installed gindrazoma.pc" "$work/pc"
version "CHANGELOG.md, newest entry" "$work/changes"
for manual in man/*; do
    sed -n 's/^\.TH .*"gindrazoma \([0-9.]*\)".*/\1/p' "$manual" >"$work/title"
    version "$manual" "$work/title"
done

# ---- promises: each statement is a field of the record that the gate proves, its term has its name in small letters, and docs/PROOFS.md has it

# Names of types as those of their terms: ImageBack as image_back.
small() {
    sed 's/\([a-z0-9]\)\([A-Z]\)/\1_\2/g' | tr '[:upper:]' '[:lower:]'
}

promises=crates/promises
for file in "$promises"/specs/*.antt; do
    module=$(basename "$file" .antt | tr '[:upper:]' '[:lower:]')
    sed -n "s/^unfoldable pub \\([A-Z][A-Za-z0-9]*\\) : Type [01]\$/\\1 $module/p" "$file"
done >"$work/types"
cut -d ' ' -f 1 "$work/types" >"$work/names"
small <"$work/names" | paste -d ' ' - "$work/types" | awk '{ print $1, $3 "." $2 }' >"$work/statements"
sed -n 's/^  pub \([a-z0-9_]*\) : \([a-z]*\.[A-Z][A-Za-z0-9]*\)$/\1 \2/p' "$promises/specs/EveryPromise.antt" >"$work/fields"
small <"$work/names" | paste -d ' ' - "$work/types" | awk '{ print $1 " = " $3 "." $1 ";" }' >"$work/owed"
sed -n 's/^  \([a-z0-9_]* = .*;\)$/\1/p' "$promises/proofs/EveryPromise.antt" >"$work/terms"
awk '/^## The promises/ { inside = 1; next } /^## / { inside = 0 } inside && /^[|] `/' docs/PROOFS.md |
    cut -d '|' -f 2 | tr -cs 'A-Za-z0-9' '[\n*]' | sed '/^$/d' >"$work/document"

compare promises "their statements" "$work/statements" "the fields of EveryPromise" "$work/fields"
compare promises "their statements" "$work/owed" "the terms" "$work/terms"
compare promises "their statements" "$work/names" docs/PROOFS.md "$work/document"

awk '/^## What a wrong program/ { inside = 1; next } /^## / { inside = 0 } inside' docs/PROOFS.md |
    tr -cs 'a-z0-9_/' '[\n*]' | grep -E '^[a-z_]+/[a-z0-9_]+$' | sort -u >"$work/document"
sed 's|\(.*\)/\(.*\)|crates/\1/must-fail/\2.edit|' "$work/document" | while read -r file; do
    [ -f "$file" ] && echo "$file"
done | sed 's|crates/\(.*\)/must-fail/\(.*\).edit|\1/\2|' >"$work/edits"

compare "must-fail edits" docs/PROOFS.md "$work/document" "the crates" "$work/edits"

# ---- no document names what the header does not have; the crate that exports the calls has the library's prefix too

{
    words "$header"
    basename -a crates/gindrazoma_*
} | sort -u >"$work/header"
for document in README.md docs/*.md man/*; do
    words "$document" | comm -23 - "$work/header" | sed "s|^|    $document has |"
done >"$work/unknown"
if [ -s "$work/unknown" ]; then
    echo "FAILED names in README.md, docs and man that are not in $header"
    cat "$work/unknown"
    failed=$((failed + 1))
else
    echo "ok names in README.md, docs and man: all in $header"
    passed=$((passed + 1))
fi

echo "$passed passed, $failed failed"
[ "$failed" -eq 0 ]
