#!/bin/sh
# longform.sh FOLDER LONGFORM: runs the program `longform` on each FOLDER/N.frames of at most 65,536 bytes and compares its lines
# with FOLDER/N.long and N.answers, where the oracle has them: the text of each long form, and the steps of each refusal;
# with FOLDER/N.expect, where vectors state what `check_proofs` writes: which proofs are refused, and how;
# with FOLDER/calls.tsv, where vectors state calls: each text of an accepted long form is that of a line.
# LONGFORM is crates/longform/out/longform, which `rt run` in that folder leaves there.
# The known differences from the oracle (bench/known.rs, docs/DIFFERENCES.md) are left out and counted. Lines that differ are shown: `<` is
# the program's, `>` the stated one. The exit status is 1 if any differ.
set -eu
files=0 lines=0 differ=0 known=0
work=$(mktemp -d)
trap 'rm -rf "$work"' EXIT
sed -n 's/^ *row("\([^"]*\)", "\([^"]*\)".*/\1 \2/p' "$(dirname "$0")/bench/known.rs" >"$work/known"
for file in "$1"/*.frames; do
    [ "$(wc -c <"$file")" -le 65536 ] || continue
    name=${file%.frames}
    "$2" <"$file" >"$work/written"
    if [ -e "$name.long" ]; then
        sed -n "s/^${name##*/} //p" "$work/known" >"$work/apart"
        known=$((known + $(wc -l <"$work/apart")))
        awk 'FILENAME ~ /apart$/ { apart[$1] = apart[$1 ":"] = 1; next } $1 in apart { next }
            NF == 5 && $2 == "refused" { print $1, $2, $5; next } { print }' "$work/apart" "$work/written" >"$work/found"
        awk 'FILENAME ~ /apart$/ { apart[$1] = 1; next } FILENAME ~ /long$/ { text[$1] = $0; next } $1 in apart { next }
            $2 != "Accepted" || text[$1 ":"] ~ /: TOOLONG$/ { print $1, "refused", $3; next }
            { print text[$1 ":"] }' "$work/apart" "$name.long" "$name.answers" >"$work/stated"
    elif [ -e "$name.expect" ]; then
        awk '$1 ~ /:$/ { print substr($1, 1, length($1) - 1), 0; next }
            NF == 5 { if ($3 < 60) print $1, $3, $4, $5; else print $1, 0; next } { print }' "$work/written" >"$work/found"
        awk '$1 == "checked" && NF == 2 { next } NF == 4 && $2 == 0 { print $1, 0; next } { print }' "$name.expect" >"$work/stated"
    else
        sed -n 's/^[^ ]*: //p' "$work/written" | sort -u >"$work/texts"
        awk -F '\t' -v file="${file##*/}" '$1 == file && $2 == "longform" && $9 ~ /^0 / { print $10 }' "$1/calls.tsv" | sort -u >"$work/stated"
        comm -12 "$work/texts" "$work/stated" >"$work/found"
    fi
    files=$((files + 1))
    lines=$((lines + $(wc -l <"$work/stated")))
    if ! diff "$work/found" "$work/stated" >"$work/differ"; then
        less=$(grep -c '^>' "$work/differ" || true) more=$(grep -c '^<' "$work/differ" || true)
        differ=$((differ + (less > more ? less : more)))
        echo "$file:"
        grep '^[<>]' "$work/differ" | cut -c 1-120
    fi
done
echo "$files files, $lines lines, $differ differ, $known known differences left out"
[ "$differ" = 0 ]
