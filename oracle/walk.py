#!/usr/bin/env python3
"""The walk from a sheet's first line down, by the Rust's own figures.

    walk.py HARNESS WALKER KIND SEED COUNT [FIRST]
    walk.py HARNESS WALKER --minus

Imported by compare.py and causes.py. The harness lays out every table of a case
at one width; so each table is taken from an answer at the width that it has here.
A cell's width is the one that the Rust prints it with, and what head, quote, ul,
ol and dd pass on is the answer of the Rust's `width_minus`.
Started by itself it holds the calls tables_walk and tables_nested to that, each
case with overflow 0 and 1. WALKER is walker.c, linked with the static library:
    gcc -O2 -Iinclude oracle/walker.c crates/tables_c/out/libtables_c.a -o WALKER
KIND, SEED, COUNT, FIRST are as for generate.py. With --minus the cases are one
line over one text for each prefix, width and least of a grid. Prints what was
seen, and the first case that differs. Ends with 0 if nothing differs.
"""

import collections
import os
import re
import sys

import cases
import expect
import generate
import refusals

TAKES_OFF = (b"head", b"quote", b"ul", b"ol", b"dd")
BLOCK = re.compile(rb"(?m)^table way cols wide\n(\d+) [hv] \d+ \d+\ncolumn width\n(?:\d+ \d+\n)*row cell x width\n((?:\d+ \d+ \d+ \d+\n)*)")
ESTIMATES = re.compile(rb"line size least prefix\n((?:\d+ \d+ \d+ \d+\n)*)")
UNKNOWN = -1


class Walk:
    """One case on its way: what was asked of the Rust so far, and the widths that follow."""

    def __init__(self, data, answer, overflow):
        self.data, self.overflow = data, overflow
        self.settings = [int(figure) for figure in data.split(b"\n")[1].split()]
        lines = [line.split(b" ", 5) for line in data.split(b"\n")[3:]]
        self.lines = [(int(line[0]), line[1]) for line in lines if len(line) == 6]
        rows = ESTIMATES.search(answer).group(1).splitlines()
        self.estimates = [tuple(int(figure) for figure in row.split()[1:]) for row in rows]
        self.answers = {}           # by width: the answer at it, and each table's text and printed cells
        self.passed = {}            # by width, prefix and what is asked for: what width_minus gives
        self.put(self.settings[2], answer)

    def put(self, width, answer):
        tables = {}
        for found in BLOCK.finditer(answer):
            printed = [row.split() for row in found.group(2).splitlines()]
            tables[int(found.group(1))] = (found.group(0), {int(row[1]): int(row[3]) for row in printed})
        self.answers[width] = answer, tables

    def at(self, width):
        wrap, raw, _ = self.settings
        head, _, sheet = self.data.split(b"\n", 2)
        return b"%s\n%d %d %d\n%s" % (head, wrap, raw, width, sheet)

    def cell(self, line, table, width):
        """The width of the cell in a line."""
        if width in (None, UNKNOWN):
            return width
        if width not in self.answers:
            self.wanted_widths.add(width)
            return UNKNOWN
        return self.answers[width][1][table][1].get(line)

    def passes(self, kind, estimate, width):
        if width in (None, UNKNOWN) or kind not in TAKES_OFF:
            return width
        _, least, prefix = estimate
        asked = width, prefix, max(least - prefix, 0)
        if asked not in self.passed:
            self.wanted_rests.add(asked)
            return UNKNOWN
        return self.passed[asked]

    def go(self):
        """Walks as far as the answers reach; whether nothing is left to ask."""
        self.wanted_widths, self.wanted_rests, self.narrow = set(), set(), None
        self.widths, path, rests = [], [], []
        for k, (depth, kind) in enumerate(self.lines):
            path[depth:] = [k]
            if k == 0:
                width = self.settings[2]
            elif kind == b"cell":
                table = path[depth - 3]
                width = self.cell(k + 1, table + 1, self.widths[table])
            else:
                width = rests[path[depth - 1]]
            rest = self.passes(kind, self.estimates[k], width)
            if rest == "narrow":
                self.narrow = k + 1
                break
            self.widths.append(width)
            rests.append(rest)
        for k, (_, kind) in enumerate(self.lines[:len(self.widths)]):
            if kind == b"table" and self.widths[k] not in (None, UNKNOWN) and self.widths[k] not in self.answers:
                self.wanted_widths.add(self.widths[k])
        return not self.wanted_widths and not self.wanted_rests

    def tables(self):
        """Each table that has a width, in line order: its line, its width, its text."""
        return [(k + 1, width, self.answers[width][1][k + 1][0])
                for k, ((_, kind), width) in enumerate(zip(self.lines, self.widths)) if kind == b"table" and width is not None]


def walks(harness, frames, overflow=0):
    """For each case a refusal, or its walk."""
    found = expect.expected(harness, frames)
    going = []
    for k, answer in enumerate(found):
        if not answer.startswith(b"refusal"):
            found[k] = Walk(frames[k][0], answer, overflow)
            going.append(found[k])
    while True:
        going = [walk for walk in going if not walk.go()]
        if not going:
            break
        asked = [(walk, width) for walk in going for width in sorted(walk.wanted_widths)]
        for (walk, width), answer in zip(asked, expect.ask(harness, [(walk.at(width),) for walk, width in asked])):
            walk.put(width, answer)
        asked = [(walk, rest) for walk in going for rest in sorted(walk.wanted_rests)]
        text = b"".join(b"%d %d %d %d\n" % (rest + (walk.overflow,)) for walk, rest in asked)
        said = expect.run([os.path.abspath(harness), "--minus"], text).read().split() if asked else []
        for (walk, rest), word in zip(asked, said):
            walk.passed[rest] = "narrow" if word == b"narrow" else int(word)
    return [expect.refusal(12, one.narrow) if isinstance(one, Walk) and one.narrow else one for one in found]


def layouts(harness, frames):
    """What `layout` prints for each case."""
    return [one if isinstance(one, bytes) else b"".join(text for _, _, text in one.tables()) for one in walks(harness, frames)]


def grid():
    """One line over one text: each prefix from 2 to 11, widths and leasts from 0 to 20."""
    above = [("quote", 0), ("ul", 0), ("dd", 0)] + [("head", n) for n in range(1, 7)] + [("ol", 10 ** n) for n in range(1, 9)]
    for kind, n in above:
        for width in range(21):
            for least in range(21):
                lines = [cases.node(0, kind, n), cases.node(1, "text", text=b"x" * least)]
                yield (cases.case(cases.sheet(lines), 1000, 0, width),)


def said_of(one):
    """What the walker says of a walk, but for x and the widths of missing entries."""
    if isinstance(one, bytes):
        return [b"walk %s 0" % b" ".join(one.split()[2:4])]
    out = [b"walk 0 0 %d" % len(one.lines)]
    out += [b"0 0" if width is None else b"1 %d" % width for width in one.widths]
    texts = {line: (width, text) for line, width, text in one.tables()}
    for k, (_, kind) in enumerate(one.lines):
        if kind == b"table" and k + 1 not in texts:
            out.append(b"nested %d 0 0 0 0 0" % (k + 1))
        elif kind == b"table":
            width, text = texts[k + 1]
            rows = text.split(b"\n")
            _, way, columns, wide = rows[1].split()
            out.append(b"nested %d 1 %d %d %s %s" % (k + 1, width, way == b"v", columns, wide))
            out.append(b" ".join(row.split()[1] for row in rows[3:3 + int(columns)]))
            out.append(b" ".join(b"%s %s" % tuple(row.split()[2:4]) for row in rows[4 + int(columns):] if row))
    return out


def got_of(lines, at):
    """One answer of the walker in the same words, and the place behind it."""
    out = [lines[at]]
    count = int(lines[at].split()[3])
    out += lines[at + 1:at + 1 + count]
    at += 1 + count
    while at < len(lines) and lines[at].startswith(b"nested"):
        out.append(lines[at])
        column, x, wide = (row.split() for row in lines[at + 1:at + 4])
        if lines[at].split()[2] == b"1":
            out.append(b" ".join(column))
            out.append(b" ".join(b"%s %s" % pair for pair in zip(x, wide) if pair[1] != b"0"))
        elif any(figure != b"0" for figure in column + x + wide):
            out.append(b"(a figure of a table without a width)")
        at += 4
    return out, at


def main():
    harness, walker = os.path.abspath(sys.argv[1]), os.path.abspath(sys.argv[2])
    if sys.argv[3] == "--minus":
        frames = list(grid())
    else:
        kind, seed, count = sys.argv[3], int(sys.argv[4]), int(sys.argv[5])
        first = int(sys.argv[6]) if len(sys.argv) > 6 else 1
        frames = [generate.make(kind, seed, k) for k in range(first, first + count)]
        frames = [frame for frame in frames if not refusals.answer(*frame)]
    tally = collections.Counter()
    for overflow in (0, 1):
        text = b""
        for frame in frames:
            _, settings, sheet = frame[0].split(b"\n", 2)
            text += b"%d %s %d\n%s" % (len(sheet), settings, overflow, sheet)
        lines, at = expect.run([walker], text).read().split(b"\n")[:-1], 0
        for frame, one in zip(frames, walks(harness, frames, overflow)):
            got, at = got_of(lines, at)
            if got != said_of(one):
                print("overflow %d: differs on\n%s\nwanted %s\ngot %s" % (overflow, frame[0].decode("latin-1"), said_of(one), got))
                return 1
            if isinstance(one, bytes):
                tally["refused %d" % int(one.split()[2])] += 1
                continue
            tally["accepted"] += 1
            tally["lines without a width"] += one.widths.count(None)
            tally["lines with one"] += sum(width is not None for width in one.widths)
            tally["tables at another width than the page's"] += sum(width != one.settings[2] for _, width, _ in one.tables())
            tally["widths above the page's"] += sum(width is not None and width > one.settings[2] for width in one.widths)
    print(", ".join("%s %d" % item for item in sorted(tally.items())) + ": no difference")
    return 0


if __name__ == "__main__":
    sys.exit(main())
