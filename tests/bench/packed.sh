#!/bin/sh
# Times the functions over the pool natively: packed.sh ARCHIVE
# ARCHIVE is the static library of the crate packed_c for this machine (on x86-64: rt lib in crates/packed_c, which writes
# crates/packed_c/out/libpacked_c.a).
set -eu
here=$(cd "$(dirname "$0")" && pwd)
archive=${1:?usage: packed.sh ARCHIVE}
work=$(mktemp -d)
trap 'rm -rf "$work"' EXIT
cc -O2 -Wall -o "$work/bench" "$here/packed.c" "$archive"
"$work/bench"
