#!/bin/sh
# run.sh: builds the callers of `spoken` in C and Rust against the static library, runs them on damp.in with the wording "blank" and compares both outputs
# with damp.out. Needs gcc, rustc and crates/tables_c/out/libtables_c.a from `rt lib` in crates/tables_c; no part of the gate.
set -eu
cd "$(dirname "$0")/../.."
library=crates/tables_c/out
[ -f $library/libtables_c.a ] || { echo "no $library/libtables_c.a: run rt lib in crates/tables_c" >&2; exit 1; }
gcc -std=c11 -Wall -Wextra -Werror -O2 -Iinclude examples/spoken/spoken.c $library/libtables_c.a -o $library/spoken
rustc -O --edition 2021 examples/spoken/spoken.rs -L $library -l static=tables_c -o $library/spoken-rust
$library/spoken examples/spoken/damp.in blank | diff - examples/spoken/damp.out
$library/spoken-rust examples/spoken/damp.in blank | diff - examples/spoken/damp.out
echo "C and Rust print examples/spoken/damp.out"
