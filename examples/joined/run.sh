#!/bin/sh
# run.sh: builds the caller of `joined_grid` and `joined_layout` against the static library, runs it on rooms.in and compares what it prints with rooms.out.
# Needs gcc and crates/tables_c/out/libtables_c.a from `rt lib` in crates/tables_c; no part of the gate.
set -eu
cd "$(dirname "$0")/../.."
library=crates/tables_c/out
[ -f $library/libtables_c.a ] || { echo "no $library/libtables_c.a: run rt lib in crates/tables_c" >&2; exit 1; }
gcc -std=c11 -Wall -Wextra -Werror -O2 -Iinclude examples/joined/joined.c $library/libtables_c.a -o $library/joined
$library/joined examples/joined/rooms.in 2 24 | diff - examples/joined/rooms.out
echo "C prints examples/joined/rooms.out"
