#!/bin/sh
# Times the file check natively: run.sh ARCHIVE [FILE..]
# ARCHIVE is the static library of the crate frames_c for this machine (on x86-64: rt lib in crates/frames_c, which writes
# crates/frames_c/out/libframes_c.a). With no FILE: the corpus, and a file of the greatest sizes made by ../make_big.py.
set -eu
here=$(cd "$(dirname "$0")" && pwd)
archive=${1:?usage: run.sh ARCHIVE [FILE..]}
shift
work=$(mktemp -d)
trap 'rm -rf "$work"' EXIT
cc -O2 -o "$work/bench" "$here/bench.c" "$archive"
if [ $# -eq 0 ]; then
    python3 "$here/../make_big.py" "$work/big.frames"
    cp "$here"/../corpus/*.frames "$work/"
    cd "$work"
    set -- demo0.frames hol.frames set-1000.frames set-2500.frames big.frames
fi
"$work/bench" "$@"
