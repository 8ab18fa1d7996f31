#!/bin/sh
# check.sh
# Whether bench/ and oracle/main.rs still fit what oracle/extract.py cuts out of html2text, as far as that can be seen without its source:
# every name that they use is cut out, stands in oracle/standins.rs or is their own, and a stand-in is made with all its fields; and whether
# ours.rs and sheets.rs, which need nothing of html2text, compile. What the cut text looks at inside, only build.sh sees.
# Silent if all is well. Needs Python 3.8 or later and rustc 1.85 or later, and compares nothing where one of them is missing.
set -eu
here=$(cd "$(dirname "$0")" && pwd)
root=$(cd "$here/.." && pwd)
skipped() { echo "bench/check.sh: no $1 here, nothing compared" >&2; exit 0; }
command -v python3 > /dev/null || skipped python3
work=$(mktemp -d)
trap 'rm -rf "$work"' EXIT
cd "$work"
echo 'pub trait UnicodeWidthStr {}' > unicode_width.rs
rustc --edition 2024 --crate-type lib --emit=metadata unicode_width.rs 2> /dev/null || skipped "rustc 1.85"
printf '#[path = "%s/ours.rs"] pub mod ours;\n#[path = "%s/sheets.rs"] pub mod sheets;\n' "$here" "$here" > parts.rs
rustc --edition 2024 --crate-type lib --emit=metadata parts.rs || { echo "bench/check.sh: ours.rs or sheets.rs does not compile" >&2; exit 1; }
python3 -B - "$root/oracle" "$here/driver.rs" "$root/oracle/main.rs" <<'P'
import os, re, subprocess, sys
sys.path.insert(0, sys.argv[1])
import extract
with open("hollow.rs", "w") as f:
    f.write(extract.hollow())

# What is cut out is hollow here: that rustc finds no variant, field or argument of it is no fault. These are, but for names of variants:
FAULT = re.compile(r"cannot find ([^`]*) `(\w+)`|undeclared|unresolved|unlinked|missing field|has no field|named `\w+` found for .*`.*RenderNode`|(?:^|: )error: (?!aborting)")
wrong = 0
for program in sys.argv[2:]:
    command = ["rustc", "--edition", "2024", "--crate-name", "checked", "--emit=metadata", "-A", "warnings", "--error-format=short",
               "--extern", "unicode_width=libunicode_width.rmeta", program]
    said = subprocess.run(command, env=dict(os.environ, GENERATED_RS=os.path.abspath("hollow.rs")), stderr=subprocess.PIPE, text=True).stderr
    for line in said.splitlines():
        found = FAULT.search(line)
        if found and not (found[2] and found[2][0].isupper() and ("variant" in found[1] or found[1] == "value")):
            print(line, file=sys.stderr)
            wrong = 1
if wrong:
    print("bench/check.sh: the above does not fit what oracle/extract.py cuts out and oracle/standins.rs holds", file=sys.stderr)
sys.exit(wrong)
P
