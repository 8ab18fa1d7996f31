#!/bin/sh
# run.sh: builds the callers in C and Rust against the static library, runs them on examples/survey.in and compares both outputs with
# examples/callers.out. Needs gcc, rustc and crates/tables_c/out/libtables_c.a from `rt lib` in crates/tables_c; no part of the gate.
set -eu
cd "$(dirname "$0")/.."
library=crates/tables_c/out
[ -f $library/libtables_c.a ] || { echo "no $library/libtables_c.a: run rt lib in crates/tables_c" >&2; exit 1; }
gcc -std=c11 -Wall -Wextra -Werror -O2 -Iinclude examples/c/caller.c $library/libtables_c.a -o $library/caller
rustc -O --edition 2021 examples/rust/caller.rs -L $library -l static=tables_c -o $library/caller-rust
$library/caller examples/survey.in | diff - examples/callers.out
$library/caller-rust examples/survey.in | diff - examples/callers.out
echo "C and Rust print examples/callers.out"
