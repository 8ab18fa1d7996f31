#!/usr/bin/env python3
"""What must be believed: the definitions that the contracts of the calls reach.

trust.py          writes docs/TRUST.md
trust.py --check  fails where docs/TRUST.md is not what it would write, where a call or a statement
                  reaches a definition in specs/inner/, and where none reaches a file of specs/

Names are followed by their text, through the `use` lines of each file. What std states is left out,
and so are the files of computed cases.
"""
import os
import re
import sys

TOP = os.path.dirname(os.path.dirname(os.path.abspath(__file__)))
PAGE = os.path.join(TOP, "docs", "TRUST.md")

# the calls, in the order of document 01 and of the wishes: the crate, the file, the function
CALLS = [
    ("check", "call_estimates", "lib.rt"),
    ("measure", "text", "lib.rt"),
    ("estimates", "call_estimates", "lib.rt"),
    ("grid", "call_grid", "lib.rt"),
    ("layout", "call_layout", "lib.rt"),
    ("missing", "call_missing", "lib.rt"),
    ("at", "call_preview", "lib.rt"),
    ("within", "call_preview", "lib.rt"),
    ("joining", "call_preview", "lib.rt"),
    ("walk", "call_walk", "lib.rt"),
    ("nested", "call_nested", "lib.rt"),
    ("window", "call_window", "lib.rt"),
    ("spoken", "call_spoken", "lib.rt"),
    ("joined_grid", "call_joined", "gridding.rt"),
    ("joined_layout", "call_joined", "laying.rt"),
    ("joined_spoken", "call_joined", "speaking.rt"),
]

USE = re.compile(r"^(?:ghost )?(?:pub )?use Rattle\.(\w+)\.specs\.([\w.]+?)(?:\.\{([^}]*)\})?(?: as (\w+))?;?\s*$", re.M)
START = re.compile(r"^\s*(?:(?:abbrev|unfoldable|pub|private)\s+)*(record\s+|data\s+)?([^\s:({]+)\s*(?:[({:].*|[^=]*\s:\s.*)$")
NO_NAMES = ("use", "module", "pub", "where", "let", "unfolding", "cond", "elim", "λ")
WORDS = re.compile(r"[^\s(){}\[\],;.]+")


class File:
    """One file of definitions: what it names, what it brings in, its lines of code by definition."""

    def __init__(self, path):
        self.path, self.brought, self.modules, self.blocks = path, {}, {}, {}
        text = open(os.path.join(TOP, path)).read()
        self.lines = sum(1 for l in text.split("\n") if l.strip())
        bring(text, self.brought, self.modules)
        for block in re.split(r"\n[ \t]*\n", text):
            code = [l for l in block.split("\n") if not l.strip().startswith("--")]
            body = "\n".join(l for l in code if not re.match(r"\s*(pub )?(use|unfolding) ", l))
            for line in code:
                m = START.match(line)
                if m and m.group(2) not in NO_NAMES:
                    self.blocks.setdefault(m.group(2), body)


def bring(text, brought, modules):
    for crate, path, names, alias in USE.findall(text):
        parts = path.split(".")
        if parts[0] == "declared" or crate == "std":
            continue
        at = "crates/%s/specs/%s.antt" % (crate, "/".join(parts))
        if names:
            for n in names.split(","):
                old, _, new = n.strip().partition(" as ")
                if old:
                    brought[new or old] = (at, old)
        else:
            modules[alias or parts[-1]] = at


# what is stated beyond the contracts, and proved: the files of which every definition counts
STATED = [
    ("which texts are expressions, and what they are worth", "expression/specs/Grammar"),
    ("an expression as a tree, with its value", "expression/specs/Tree"),
    ("what holds of the resolved rows of every table", "resolved_rows/specs/Facts"),
    ("cutting by one level gives the same widths", "cutting/specs/Level"),
    ("where the grid is the one of before spans ended with their body", "grid/specs/Before"),
    ("whose cell a filler's owner is", "grid/specs/Owners"),
    ("why a column is 0 wide", "placement/specs/Why"),
    ("which cells can go missing", "missing_theorems/specs/Missing"),
    ("what holds of every walk", "walk_theorems/specs/Descent"),
    ("what holds of every report of `window`", "window_theorems/specs/Window"),
    ("what is spoken at every filler", "spoken_theorems/specs/Spoken"),
    ("what holds of two grids joined", "grid_join/specs/Facts"),
    ("what holds of two tables side by side", "joined_tables/specs/Side"),
    ("what a calc line is refused for, and its size", "sum_theorems/specs/Sums"),
    ("no call answers 7", "refusal_theorems/specs/NoSeven"),
    ("pointing, without a search", "hit_test/specs/Exact"),
    ("the calls that point, without a search", "call_preview/specs/Exact"),
    ("what the numbers of `at` and `within` are", "preview_theorems/specs/Numbers"),
    ("the settings of a program's input", "settings/specs/Settings"),
    ("what C is handed", "c_results/specs/Answers"),
]

# computed: they hold of single sheets, and nothing stands on them
CASES = re.compile(r"/(Cases|Lib|inner)\.antt$|^crates/(cases|fields/specs/Heading|kinds/specs/Names)")

# the crates in the order of document 01, then the calls; what is not named comes last
ORDER = """common text kinds fields expression evaluator line records sheet sheet_load resolved_rows columns
grid_row grid_positions column_edges grid estimates cutting widths placement table_layout sheet_figures
answers arguments call_estimates call_grid call_layout causes call_missing row_lookup hit_test
call_preview available_width sheet_walk call_walk call_nested call_window owners spoken_text call_spoken
grid_join joined_tables call_joined settings c_results""".split()

files = {}


def load(path):
    if path not in files:
        files[path] = File(path) if os.path.exists(os.path.join(TOP, path)) else None
    return files[path]


def words_of(body):
    words = set(WORDS.findall(re.sub(r"--.*", "", body)))
    return words, set(re.findall(r"(\w+)\.(\S+?)[\s(){}\[\],;]", body))


def follow(path, name, seen):
    f = load(path)
    if f is None or (path, name) in seen:
        return
    if name not in f.blocks:
        if name in f.brought:
            follow(*f.brought[name], seen)
        return
    seen.add((path, name))
    words, dotted = words_of(f.blocks[name])
    for n in list(f.blocks) + list(f.brought):
        core = n.replace("◌", "")
        if (n in words or (core != n and core in words)) and n != name:
            if n in f.blocks:
                follow(path, n, seen)
            else:
                follow(*f.brought[n], seen)
    for module, n in dotted:
        if module in f.modules:
            follow(f.modules[module], n, seen)


def contract_of(crate, file, function):
    """The words of a public function's contract, and what its file brings in."""
    path = "crates/%s/src/%s" % (crate, file)
    text = open(os.path.join(TOP, path)).read()
    m = re.search(r"^pub fn %s\b.*?\n\{" % function, text, re.M | re.S)
    if not m:
        sys.exit("trust.py: no pub fn %s in %s" % (function, path))
    brought = {}
    bring(text, brought, {})
    clauses = " ".join(re.findall(r"(?:ensures|requires)[^{]*\{(.*?)\}\s*(?=ensures|requires|\{|$)", m.group(0)[:-1] + "{", re.S))
    words, _ = words_of(clauses)
    return [brought[w] for w in words if w in brought]


def reached():
    out = {}
    for call, crate, file in CALLS:
        seen = set()
        for path, name in contract_of(crate, file, call):
            follow(path, name, seen)
        out[call] = seen
    return out


def place(path):
    """Where a file stands on the page."""
    crate = path.split("/")[1]
    return (ORDER.index(crate) if crate in ORDER else len(ORDER), path)


def short(path):
    return path[len("crates/"):-len(".antt")]


def code_lines(path, names):
    """The lines of code, comments aside, of some definitions of a file."""
    bodies = {load(path).blocks[n] for n in names}
    return sum(1 for b in bodies for l in b.split("\n") if l.strip())


def all_specs():
    out = []
    for crate in sorted(os.listdir(os.path.join(TOP, "crates"))):
        top = os.path.join(TOP, "crates", crate, "specs")
        for folder, _, names in os.walk(top):
            out += [os.path.relpath(os.path.join(folder, n), TOP) for n in names if n.endswith(".antt")]
    return sorted(p for p in out if "/inner/" not in p and not CASES.search(p))


def by_file(seen):
    out = {}
    for path, name in seen:
        out.setdefault(path, set()).add(name)
    return out


def row_of(path, names, calls):
    """A file, how much of it is reached, and from where."""
    known = load(path).blocks
    n = "all %d" % len(known) if len(names) == len(known) else "%d of %d" % (len(names), len(known))
    who = "all calls" if len(calls) == len(CALLS) else ", ".join(calls)
    return "| %s | %s | %d | %s |" % (short(path), n, code_lines(path, names), who)


def page(calls):
    everything = set().union(*calls.values())
    lines = [
        "# What must be believed",
        "",
        "For those who want to know what is proved without reading a proof: these definitions say it, with",
        "the structs and enums of `src/` that they name. A call's contract stands at its function (`pub fn`),",
        "in the crate that the first table names; what it cites stands in `specs/`. `specs/inner/` holds what",
        "only code and proofs need. What the calls cite of Rattle's own library is left out.",
        "",
        "This page is written by `python3 tools/trust.py`. The gate fails where it is not what that writes,",
        "where a call or a statement below reaches `specs/inner/`, and where neither reaches a file of",
        "`specs/`, computed cases aside. Names are followed by their text; the fields of a record count as",
        "definitions.",
        "",
        "## The calls",
        "",
        "| call | crate | files | definitions | lines |",
        "|---|---|---|---|---|",
    ]
    for call, crate, _ in CALLS:
        f = by_file(calls[call])
        lines.append("| `%s` | %s | %d | %d | %d |" % (call, crate, len(f), len(calls[call]), sum(code_lines(p, n) for p, n in f.items())))
    f = by_file(everything)
    lines.append("| all of them | | %d | %d | %d |" % (len(f), len(everything), sum(code_lines(p, n) for p, n in f.items())))
    lines += [
        "",
        "## The files, in the order of the data",
        "",
        "| file | definitions | lines | reached by |",
        "|---|---|---|---|",
    ]
    for p in sorted(f, key=place):
        lines.append(row_of(p, f[p], [c for c, _, _ in CALLS if any(q == p for q, _ in calls[c])]))
    parts = [p for p in sorted(f, key=place) if len(f[p]) < len(load(p).blocks)]
    lines += ["", "Of these files a part is reached:", ""]
    for p in parts:
        lines += fold("- %s: %s." % (short(p), ", ".join("`%s`" % n for n in load(p).blocks if n in f[p])))
    lines += [
        "",
        "## What is stated beyond the contracts",
        "",
        "| what | file | definitions |",
        "|---|---|---|",
    ]
    for what, name in STATED:
        lines.append("| %s | %s | %d |" % (what, name, len(load("crates/%s.antt" % name).blocks)))
    return "\n".join(lines) + "\n"


def fold(text):
    """A list item of lines of at most 100 characters."""
    out, line = [], ""
    for word in text.split(" "):
        if line and len(line) + 1 + len(word) > 100:
            out.append(line)
            line = "  " + word
        else:
            line = line + " " + word if line else word
    return out + [line]


def main():
    calls, stated = reached(), set()
    for _, name in STATED:
        path = "crates/%s.antt" % name
        for n in list(load(path).blocks):
            follow(path, n, stated)
    text = page(calls)
    if sys.argv[1:] != ["--check"]:
        open(PAGE, "w").write(text)
        return 0
    got = set().union(stated, *calls.values())
    bad = ["%s `%s` is reached by a call or a statement" % (short(p), n) for p, n in sorted(got) if "/inner/" in p]
    files_got = {p for p, _ in got}
    bad += ["%s is reached by no call and no statement" % short(p) for p in all_specs() if p not in files_got]
    if not os.path.exists(PAGE) or open(PAGE).read() != text:
        bad.append("docs/TRUST.md is not what tools/trust.py writes")
    for line in bad:
        print("trust.py: " + line, file=sys.stderr)
    return 1 if bad else 0


if __name__ == "__main__":
    sys.exit(main())
