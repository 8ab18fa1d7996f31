#!/bin/sh
# run.sh BUILD_FOLDER
# Measures everything with BUILD_FOLDER/driver and writes BUILD_FOLDER/RESULTS.md. Needs valgrind; takes about ten minutes.
set -eu
here=$(cd "$(dirname "$0")" && pwd)
build=$(cd "${1:?build folder}" && pwd)
for run in 1 2 3; do "$build/driver" times > "$build/times.$run.txt"; done
"$build/driver" cold > "$build/cold.txt"
"$build/driver" window > "$build/window.txt"
rm -rf "$build/counts"
mkdir "$build/counts"
valgrind --tool=callgrind --collect-atstart=no --callgrind-out-file="$build/counts/callgrind.out" "$build/driver" counts > "$build/counts.txt" 2>&1
"$here/report.py" "$build"/times.?.txt "$build/cold.txt" "$build/window.txt" --counts "$build/counts" > "$build/RESULTS.md"
echo "wrote $build/RESULTS.md"
