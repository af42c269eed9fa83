#!/bin/sh
# programs.sh FOLDER FRAMECHECK: runs `framecheck` on each FOLDER/N.frames and compares with FOLDER/N.expect: the same `refused` line, or `good`
# where the expected output is that of a good file. FRAMECHECK is crates/framecheck/out/framecheck, which `rt run` in that folder leaves there.
set -eu
count=0 differ=0
for file in "$1"/*.frames; do
    expected=$(head -n 1 "${file%.frames}.expect")
    found=$("$2" <"$file")
    count=$((count + 1))
    case "$expected" in
    refused*) [ "$found" = "$expected" ] || differ=$((differ + 1)) ;;
    *) case "$found" in good*) ;; *) differ=$((differ + 1)) ;; esac ;;
    esac
done
echo "$count vectors, $differ differ"
