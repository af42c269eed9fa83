#!/bin/sh
# Times the runs natively beside metamath-rs 0.3.9: verify.sh ARCHIVE ORACLE
# ARCHIVE is the static library of the crate bench_c for this machine (on x86-64: rt lib in crates/bench_c, which writes
# crates/bench_c/out/libbench_c.a). ORACLE is the oracle's folder (see ../differential/bench.sh; ORACLE_PROGRAM may name the built program).
# On hol, set-2500, the first proof of big-unifier and made proofs of 60,000 letters each: the time of all proofs, the file in memory, with
# the greatest sizes lent. The clock starts after the file check (see verify.c); the clearing of the lent memory is counted and not counted.
# Then the time of a step in made databases of 100 to 4,000 statements.
# Both are timed by processor time, in turn, in eleven rounds; in each a program's time is its median of eleven runs. Printed are the middle times and the
# lowest, middle and highest ratio of the rounds.
set -eu
here=$(cd "$(dirname "$0")" && pwd)
usage="usage: verify.sh ARCHIVE ORACLE"
archive=${1:?$usage}
oracle=$(cd "${2:?$usage}" && pwd)
target=$here/../../target
program=${ORACLE_PROGRAM:-$target/oracle/build/release/oracle}
if [ ! -x "$program" ]; then
    mkdir -p "$target/oracle"
    target=$(cd "$target" && pwd)
    cp -R "$oracle" "$oracle/../docs" "$target/oracle/"
    chmod -R u+w "$target/oracle"
    (cd "$target/oracle/$(basename "$oracle")" && CARGO_TARGET_DIR=$target/oracle/build ./build.sh)
fi
work=$(mktemp -d)
trap 'rm -rf "$work"' EXIT
cc -O2 -Wall -o "$work/timer" "$here/verify.c" "$archive"
cc -O2 -Wall -shared -fPIC -o "$work/cpu_clock.so" "$here/cpu_clock.c"
python3 "$here/verify.py" "$work/timer" "$program" "$oracle/corpus" "$work" "$work/cpu_clock.so"
