#!/usr/bin/env bash
# Times the transform of crates/bench and the same in plain Rust, which must print the same sum. Then times the list of roots
# of crates/rootbench, and FLINT at the same polynomial, with the same roots, where Debian's package libflint-dev is installed.
set -eu
cd "$(dirname "$0")/.."
for program in bench rootbench; do (cd crates/$program && rt run >/dev/null 2>&1); done
mkdir -p target/plain
rustc -O -o target/plain/plain bench/plain.rs
echo 'Rattle:'
crates/bench/out/bench
echo 'plain Rust:'
target/plain/plain
echo 'Rattle, roots:'
crates/rootbench/out/rootbench
if [ -e /usr/include/flint/nmod_poly_factor.h ]; then
    cc -O3 -o target/plain/flint bench/flint.c -lflint -lgmp
    echo 'FLINT, roots:'
    target/plain/flint
else
    echo 'FLINT is not installed (libflint-dev)'
fi
