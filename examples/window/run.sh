#!/bin/sh
# run.sh: builds the callers of `window` in C and Rust against the static library, runs them on examples/damp-missing.in at the widths 70 to 210 by tens
# and compares both outputs with damp.out. Needs gcc, rustc and crates/tables_c/out/libtables_c.a from `rt lib` in crates/tables_c; no part of the gate.
set -eu
cd "$(dirname "$0")/../.."
library=crates/tables_c/out
[ -f $library/libtables_c.a ] || { echo "no $library/libtables_c.a: run rt lib in crates/tables_c" >&2; exit 1; }
gcc -std=c11 -Wall -Wextra -Werror -O2 -Iinclude examples/window/window.c $library/libtables_c.a -o $library/window
rustc -O --edition 2021 examples/window/window.rs -L $library -l static=tables_c -o $library/window-rust
$library/window examples/damp-missing.in 70 210 10 | diff - examples/window/damp.out
$library/window-rust examples/damp-missing.in 70 210 10 | diff - examples/window/damp.out
echo "C and Rust print examples/window/damp.out"
