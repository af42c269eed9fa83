#!/bin/sh
# Builds the oracle in a folder of its own and compares its file check with the replayed list: run.sh ORACLE [VECTORS]
# ORACLE is the oracle's folder, with its build.sh; beside it stands docs/src, the Rust that it compiles. Neither is written
# to: both are copied to target/oracle and built there. VECTORS is a folder of N.frames with N.expect.
set -eu
here=$(cd "$(dirname "$0")" && pwd)
oracle=$(cd "${1:?usage: run.sh ORACLE [VECTORS]}" && pwd)
work=$here/../../target/oracle
mkdir -p "$work"
work=$(cd "$work" && pwd)
if [ ! -x "$work/build/release/oracle" ]; then
    cp -R "$oracle" "$oracle/../docs" "$work/"
    chmod -R u+w "$work"
    (cd "$work/$(basename "$oracle")" && CARGO_TARGET_DIR=$work/build ./build.sh)
fi
exec python3 "$here/compare.py" "$work/build/release/oracle" ${2+"$2"}
