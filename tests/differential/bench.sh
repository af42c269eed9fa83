#!/bin/sh
# Compares the calls of the bench with metamath-rs 0.3.9, the vectors and random bytes: bench.sh ARCHIVE ORACLE VECTORS [COUNT]
# ARCHIVE is the static library of the crate bench_c for this machine (on x86-64: rt lib in crates/bench_c, which writes
# crates/bench_c/out/libbench_c.a). ORACLE is the oracle's folder, with its corpus and its build.sh; beside it stands docs/src, the Rust that
# it compiles. Neither is written to: both are copied to target/oracle and built there, unless ORACLE_PROGRAM names the built program.
# VECTORS is the folder of vectors. COUNT is the number of random inputs, 1,000,000 if not given; with fewer there are fewer mutants, too.
# A file on which the two differ is saved in target/differential. The last line has the counts; the exit status is 1 if any differ.
set -eu
here=$(cd "$(dirname "$0")" && pwd)
usage="usage: bench.sh ARCHIVE ORACLE VECTORS [COUNT]"
archive=${1:?$usage}
archive=$(cd "$(dirname "$archive")" && pwd)/$(basename "$archive")
oracle=$(cd "${2:?$usage}" && pwd)
vectors=$(cd "${3:?$usage}" && pwd)
count=${4:-1000000}
target=$here/../../target
mkdir -p "$target"
target=$(cd "$target" && pwd)
program=${ORACLE_PROGRAM:-$target/oracle/build/release/oracle}
if [ ! -x "$program" ]; then
    mkdir -p "$target/oracle"
    cp -R "$oracle" "$oracle/../docs" "$target/oracle/"
    chmod -R u+w "$target/oracle"
    (cd "$target/oracle/$(basename "$oracle")" && CARGO_TARGET_DIR=$target/oracle/build ./build.sh)
fi
work=$(mktemp -d)
trap 'rm -rf "$work"' EXIT
rustc --edition 2021 -O -D warnings -C link-arg="$archive" -o "$work/driver" "$here/bench/main.rs"
"$work/driver" "$program" "$oracle/corpus" "$vectors" "$count" "$work" "$target/differential"
