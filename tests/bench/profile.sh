#!/bin/sh
# Says in which functions the runs of a frame file's proofs spend their time, the file check left out: profile.sh ARCHIVE FILE.frames [TIMES]
# ARCHIVE is the static library of the crate bench_c for this machine. TIMES is how often all proofs are run (default 100). Needs perf.
# The first proof is left out. What is inlined is counted where it stands.
set -eu
here=$(cd "$(dirname "$0")" && pwd)
usage="usage: profile.sh ARCHIVE FILE.frames [TIMES]"
work=$(mktemp -d)
trap 'rm -rf "$work"' EXIT
cc -O2 -Wall -o "$work/profile" "$here/profile.c" "${1:?$usage}"
mkfifo "$work/control" "$work/acknowledged"
perf record -q -e cpu-clock:u -F 20000 -D -1 --control "fifo:$work/control,$work/acknowledged" -o "$work/data" \
    "$work/profile" "${2:?$usage}" "${3:-100}" "$work/control" "$work/acknowledged" >"$work/said" 2>&1 || { cat "$work/said"; exit 1; }
perf report -i "$work/data" --stdio --no-children --sort symbol 2>/dev/null | grep '%' | sed 's/ *- *- *$//'
