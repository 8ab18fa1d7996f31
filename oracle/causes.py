#!/usr/bin/env python3
"""Holds the program `explain` to the Rust's figures, in bulk.

    causes.py HARNESS EXPLAIN KIND SEED COUNT [FIRST]

HARNESS is the program that build.sh makes; KIND, SEED, COUNT, FIRST are as for
generate.py. From the Rust's estimates, grids, ways and column widths, each table at
the width that walk.py finds for it, it works out what docs/FORMAT.md says `explain`
prints: sizes, leasts and shares of the columns, their causes, and the missing
entries, which are those that the Rust does not print.
Prints how many cases there were, how many tables and missing entries, and the first
case that differs. Ends with 0 if nothing differs, with 1 otherwise.
"""

import collections
import re
import sys

import compare
import generate
import walk

WORDS = ["shown", "empty", "little", "cut", "page"]


def numbers(lines):
    return [[int(f) if f.isdigit() else f for f in line.split()] for line in lines]


def parts(answer):
    """The layouts, the estimates and the grids of an accepted case, by line."""
    layouts, estimates, grids = {}, {}, {}
    chunk = re.split(r"(?m)^(table way cols wide|column width|row cell x width|line size least prefix|grid cols|row cell first span|row end)\n",
                     answer)
    at = None
    for title, body in zip(chunk[1::2], chunk[2::2]):
        rows = numbers(body.splitlines())
        if title == "table way cols wide":
            at = layouts.setdefault(rows[0][0], {"head": rows[0]})
        elif title == "column width":
            at["widths"] = [row[1] for row in rows]
        elif title == "row cell x width":
            at["printed"] = [(row[0], row[1]) for row in rows]
        elif title == "line size least prefix":
            estimates = {row[0]: row[1:] for row in rows}
        elif title == "grid cols":
            at = grids.setdefault(rows[0][0], {})
        elif title == "row cell first span":
            at["entries"] = rows
    return layouts, estimates, grids


def share(size, least, width, total):
    return min(size, max(size * width // total, least)) if size else 0


def cause(width, size, part, wide):
    if width == 0:
        return 4
    if wide > 0:
        return 0
    return 1 if size == 0 else 2 if part == 0 else 3


def told(layout, grid, estimates, width):
    """What `explain` prints of one table, and how many entries are missing."""
    line, way, count, own = layout["head"]
    figures = [(row, cell, first, span, *(estimates[cell][:2] if cell else (0, 0))) for row, cell, first, span in grid.get("entries", [])]
    over = [[f for f in figures if f[2] <= j < f[2] + f[3]] for j in range(count)]
    sizes = [max((f[4] // f[3] for f in fs), default=0) for fs in over]
    leasts = [max((f[5] // f[3] for f in fs), default=0) for fs in over]
    widths = layout.get("widths", [])
    out = ["table way cols wide", "%d %s %d %d" % (line, way, count, own), "column size least share width cause"]
    for j in range(count):
        part = share(sizes[j], leasts[j], width, sum(sizes))
        why = WORDS[cause(width, sizes[j], part, widths[j])]
        out.append("%d %d %d %d %d %s" % (j, sizes[j], leasts[j], width if way == "v" else part, widths[j], why))
    missing = [f for f in figures if not any(widths[f[2]:f[2] + f[3]])]
    printed = [(f[0], f[1]) for f in figures if f not in missing]
    if printed != layout.get("printed", []):
        out.append("(the Rust prints other entries)")
    out += ["missing lost", "%d %d" % (len(missing), sum(1 for f in missing if f[4] > 0)), "row cell first span size"]
    out += ["%d %d %d %d %d" % f[:5] for f in missing]
    return "\n".join(out) + "\n", len(missing)


def expected(found):
    """What `explain` prints, and how many tables and missing entries it tells of."""
    if isinstance(found, bytes):
        return found.decode("latin-1"), 0, 0
    texts = []
    for line, width, _ in found.tables():
        layouts, estimates, grids = parts(found.answers[width][0].decode("latin-1"))
        texts.append(told(layouts[line], grids[line], estimates, width))
    return "".join(text for text, _ in texts), len(texts), sum(count for _, count in texts)


def main():
    harness, program, kind, seed, count = sys.argv[1:6]
    first = int(sys.argv[6]) if len(sys.argv) > 6 else 1
    tally = collections.Counter()
    for k in range(first, first + int(count)):
        frame = generate.make(kind, int(seed), k)
        found = walk.walks(harness, [frame])[0]
        wanted, tables, missing = expected(found)
        got = compare.run([program], frame[0]).decode("latin-1")
        tally.update(cases=1, tables=tables, missing=missing, refused=isinstance(found, bytes))
        if got != wanted:
            print("case %d differs; wanted\n%s\ngot\n%s" % (k, wanted[:2000], got[:2000]))
            return 1
    print(", ".join("%s %d" % item for item in sorted(tally.items())) + ": no difference")
    return 0


if __name__ == "__main__":
    sys.exit(main())
