#!/bin/sh
# check_proofs.sh FOLDER CHECK_PROOFS: runs the program `check_proofs` on each FOLDER/N.frames and compares all that it writes with FOLDER/N.expect.
# CHECK_PROOFS is crates/check_proofs/out/check_proofs, which `rt run` in that folder leaves there.
set -eu
count=0 differ=0
for file in "$1"/*.frames; do
    count=$((count + 1))
    "$2" <"$file" | cmp -s - "${file%.frames}.expect" || differ=$((differ + 1))
done
echo "$count vectors, $differ differ"
