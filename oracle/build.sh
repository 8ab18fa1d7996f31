#!/bin/sh
# build.sh LIB_RS BUILD_FOLDER
# Cuts html2text's table functions out of its src/lib.rs and of the render/text_renderer.rs beside it, and builds BUILD_FOLDER/table_oracle.
# Needs rustc (1.85 or later), Python 3.8 or later and Debian's librust-unicode-width-dev.
set -eu
here=$(cd "$(dirname "$0")" && pwd)
lib=${1:?path of the src/lib.rs of html2text 0.17.4, with render/text_renderer.rs beside it}
mkdir -p "${2:?build folder}"
build=$(cd "$2" && pwd)
case "$build/" in "$here"/*) echo "the build folder must lie outside $here" >&2; exit 1;; esac
registry=${UNICODE_WIDTH_REGISTRY:-/usr/share/cargo/registry}
width=$(ls -d "$registry"/unicode-width-* | head -n 1)
python3 "$here/extract.py" "$lib" "$build/generated.rs"
rustc --edition 2015 -O --crate-type rlib --crate-name unicode_width --cap-lints allow \
    --out-dir "$build" "$width/src/lib.rs"
# Overflow checks stay on: a wrap-around inside the cut text must not pass unseen.
GENERATED_RS="$build/generated.rs" rustc --edition 2024 -O -C overflow-checks=on \
    -C debug-assertions=on --crate-name table_oracle \
    --extern unicode_width="$build/libunicode_width.rlib" \
    -o "$build/table_oracle" "$here/main.rs"
echo "built $build/table_oracle with $(basename "$width")"
