#!/bin/sh
# build.sh LIB_RS BUILD_FOLDER [LIBRARY_FOLDER]
# Cuts html2text's table functions out of its src/lib.rs and of the render/text_renderer.rs beside it, and builds BUILD_FOLDER/driver,
# linked with the libtables_c.a in LIBRARY_FOLDER: without one, crates/tables_c/out, where `rt lib` there writes it.
# Needs rustc (1.85 or later), Python 3.8 or later and Debian's librust-unicode-width-dev.
set -eu
here=$(cd "$(dirname "$0")" && pwd)
root=$(cd "$here/.." && pwd)
lib=${1:?path of the src/lib.rs of html2text 0.17.4, with render/text_renderer.rs beside it}
mkdir -p "${2:?build folder}"
build=$(cd "$2" && pwd)
case "$build/" in "$root"/*) echo "the build folder must lie outside $root" >&2; exit 1;; esac
libraries=${3:-$root/crates/tables_c/out}
[ -f "$libraries/libtables_c.a" ] || { echo "no $libraries/libtables_c.a: run rt lib in crates/tables_c" >&2; exit 1; }
registry=${UNICODE_WIDTH_REGISTRY:-/usr/share/cargo/registry}
width=$(ls -d "$registry"/unicode-width-* | head -n 1)
python3 "$root/oracle/extract.py" "$lib" "$build/generated.rs"
# Both sides for the same processor: rt lib compiles for plain x86-64, and so does rustc here.
rustc --edition 2015 -O -C target-cpu=x86-64 --crate-type rlib --crate-name unicode_width --cap-lints allow --out-dir "$build" "$width/src/lib.rs"
# Overflow checks are off, as in a release of html2text. One codegen unit: the Rust is not kept from inlining anything.
GENERATED_RS="$build/generated.rs" rustc --edition 2024 -O -C target-cpu=x86-64 -C overflow-checks=off -C codegen-units=1 \
    --crate-name driver --extern unicode_width="$build/libunicode_width.rlib" \
    -L "$libraries" -l static=tables_c -o "$build/driver" "$here/driver.rs"
echo "built $build/driver with $(basename "$width")"
