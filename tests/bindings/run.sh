#!/bin/sh
# Compiles and runs a test of bindings/bench.h and one of bindings/bench.rs: run.sh ARCHIVE
# ARCHIVE is the static library of the crate bench_c for this machine (on x86-64: rt lib in crates/bench_c, which writes
# crates/bench_c/out/libbench_c.a).
set -eu
here=$(cd "$(dirname "$0")" && pwd)
archive=${1:?usage: run.sh ARCHIVE}
archive=$(cd "$(dirname "$archive")" && pwd)/$(basename "$archive")
sample=$here/../corpus/row01.frames
work=$(mktemp -d)
trap 'rm -rf "$work"' EXIT
cc -std=c99 -O2 -Wall -Wextra -pedantic -Werror -o "$work/in_c" "$here/bindings.c" "$archive"
"$work/in_c" "$sample"
if command -v c++ >/dev/null; then
    echo '#include "bench.h"' >"$work/header.cpp"
    c++ -Wall -Wextra -pedantic -Werror -I "$here/../../bindings" -fsyntax-only "$work/header.cpp"
    echo "C++: the header compiles"
fi
rustc --edition 2021 -O -D warnings -C link-arg="$archive" -o "$work/in_rust" "$here/bindings.rs"
"$work/in_rust" "$sample"
