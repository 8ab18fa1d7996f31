#!/usr/bin/env python3
# places.py [-l]
# Counts, in crates/*/src, the places of the design pass by point (docs/DESIGN-PASS.md); -l lists each. Run at the top of the repository.
# Reads text alone: comments and strings are cut off, and what a pattern cannot see is named in the page, not here.
import glob, re, sys

files = {}
for path in sorted(glob.glob("crates/*/src/**/*.rt", recursive=True)):
    text = open(path, encoding="utf-8").read()
    files[path] = re.sub(r"//[^\n]*", "", text)

def hits(pattern, flags=re.M):
    for path, text in files.items():
        for m in re.finditer(pattern, text, flags):
            yield path, text.count("\n", 0, m.start()) + 1, " ".join(m.group(0).split())[:90]

# Each enum with its variants: name, and whether it carries a value.
def enums():
    for path, text in files.items():
        for m in re.finditer(r"^(?:pub )?enum (\w+)(?:<[^>]*>)? \{(.*?)^\}", text, re.M | re.S):
            variants = re.findall(r"^    (\w+)( \{|\()?", m.group(2), re.M)
            yield path, text.count("\n", 0, m.start()) + 1, m.group(1), variants

def shaped():
    for path, line, name, variants in enums():
        bare = [v for v, value in variants if not value]
        refused = [v for v, value in variants if v in ("Refused", "Faulty")]
        valued = [v for v, value in variants if value and v not in ("Refused", "Faulty")]
        option = len(variants) == 2 and len(bare) == 1 and len(valued) == 1
        result = len(refused) == 1 or name in ("Answer", "Measure", "LineRead", "Count")
        if option or result:
            yield path, line, f"enum {name}"

def facts():
    seen = {}
    for path, line, text in hits(r"^\s*requires[^{\n]*\{ .* \}$"):
        fact = re.sub(r"^requires[^{]*", "", text)
        fact = re.sub(r"\b\w+\.(now|old)\b", r"_.\1", fact)
        seen.setdefault(fact, []).append((path, line, fact))
    for fact, places in sorted(seen.items(), key=lambda e: -len(e[1])):
        if len(places) >= 3:
            yield from places

def together(*names):
    need = [re.compile(rf"\b{n}:") for n in names]
    for path, line, _ in hits(r"\bfn \w+"):
        text = files[path]
        start = [m.start() for m in re.finditer(r"\bfn \w+", text)]
        at = next(s for s in start if text.count("\n", 0, s) + 1 == line)
        signature = text[at:at + text[at:].find(")") + 1]
        if all(n.search(signature) for n in need):
            yield path, line, signature.split("(")[0]

SIZED = r"\bfn \w+_(?:small|large|few|some|many|within)\b"
COPIES = r"\bfn (?:smaller|larger|longer|further|filled|grown|is_digit|index|to_u64|fill|total|spread_of|either_below|any_below|" \
         r"starts_with|begins_at|is_headed|stop_at|line_end|column_count|entry_count|row_count|missed_count)\b"
ACCESS = r"\bfn (?:\w+_at|put_\w+)\((?:\w+: &(?:mut )?\[u32\], i: usize)"
POINTS = [
    ("1 enums of the shape of Option or Result", shaped),
    ("1 numbers for refusals", lambda: hits(r"\bnumber: \d+|Faulty\(\d+\)|refusal: u32|-> u32\n\s*requires[^\n]*\n[^\n]*\n[^\n]*\n\s*ensures \{ result ≡ refusal_of|=> [56],")),
    ("1 numbers for kinds", lambda: hits(r"\bkind: u32\b|\bkind [=<>!]=? |kinds::[A-Z]+\b|\bkind: [a-z]*kinds::")),
    ("1 a flag with a value beside it", lambda: hits(r"Place \{ first: [01]|key: 0, next: 0|Frame \{ from: at, to: at \}|first == 0")),
    ("2 functions that differ in an array's length", lambda: hits(SIZED)),
    ("2 functions that stand more than once, or in std", lambda: hits(COPIES)),
    ("2 reading and writing a record, once a type", lambda: hits(ACCESS)),
    ("3 loops that count by hand", lambda: hits(r"^ *(?:while|loop)\b[^{]*\{")),
    ("4 conversion, choice and printing by hand", lambda: hits(r"\bfn (?:\w+_result|\w+_number|number_of|verdict_of|answer_of|letter_of|word|told|figures|brief|place_of|width_of|is_down|line_count)\b|return true;|return false;")),
    ("5 a fact in three contracts or more", facts),
    ("5 `out` and `at` together", lambda: together("out", "at")),
    ("5 `wrap`, `raw` and `width` together", lambda: together("wrap", "raw", "width")),
    ("5 `lines` and `figures` together", lambda: together("lines", "figures")),
    ("5 `entries` and `rows` together", lambda: together("entries", "rows")),
    ("5 `words` and `counts` together", lambda: together("words", "counts")),
    ("6 records packed into a slice of numbers", lambda: hits(r"\b(?:lines|kept|cells|entries|rows|figures|walk|passed|next|overhang|grid): &(?:mut )?\[u32\]")),
    ("6 a length beside its slice", lambda: hits(r"\[\.\.(?:n|r|c|k|end|entries_end|rows_end)\]|\b[23] \* \w+\.\.")),
    ("7 a switch on the step to run", lambda: hits(r"\b(?:scope: Scope|form: Form|part: Part|large: bool|most: usize|asks: bool|each(?:_row)?: usize)\b")),
]

total = 0
for name, find in POINTS:
    places = list(find())
    total += len(places)
    print(f"{len(places):5}  {name}")
    if "-l" in sys.argv[1:]:
        for path, line, text in places:
            print(f"         {path}:{line}  {text}")
print(f"{total:5}  in all")
