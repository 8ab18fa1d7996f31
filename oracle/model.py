#!/usr/bin/env python3
"""docs/FORMAT.md in Python: a second reading beside the Rust.

    model.py < FRAMES > ANSWERS      answers frames as expect.py does
    model.py --explain < CASE        shows the steps behind one case's figures

It was written from docs/FORMAT.md, to test the other parts here against each
other, and to see on paper where two answers part: --explain shows resolved
spans, positions, edges, columns and shares, which the harness does not. It is
no yardstick: where it and the harness differ, the harness is right.
"""

import re
import sys

import cases
import refusals

NUMBER = r"(0|-?[1-9][0-9]*)"
LINE = re.compile((NUMBER + r" ([a-z]+) " + (NUMBER + " ") * 3 + r"(.*)").encode(), re.S)
SETTINGS = re.compile((r"wrap raw width\n" + " ".join([NUMBER] * 3) + r"\n(.*)").encode(), re.S)


class Refused(Exception):
    """Carries number and line."""


def refuse_if(wrong, number, line):
    if wrong:
        raise Refused(number, line)


# ------------------------------------------------------------------ the sheet

class Node:
    def __init__(self, line, depth, kind, n, cols, rows, text):
        self.line, self.depth, self.kind = line, depth, kind
        self.n, self.cols, self.rows, self.text = n, cols, rows, text
        self.parent, self.children = None, []


def figure(field):
    return int(field) if len(field) < 12 else 10 ** 12


def read_settings(data):
    found = SETTINGS.fullmatch(data)
    refuse_if(not found, 9, 0)
    wrap, raw, width = (figure(f) for f in found.groups()[:3])
    refuse_if(not (0 <= wrap <= 1000 and raw in (0, 1) and 0 <= width <= 65535), 9, 0)
    return wrap, raw, width, found.group(4)


def read_node(line, k):
    found = LINE.fullmatch(line)
    refuse_if(not found, 2, k)
    depth, kind, n, cols, rows, text = found.groups()
    node = Node(k, figure(depth), kind.decode(), figure(n), figure(cols), figure(rows), text)
    low, high = {"head": (1, 6), "ol": (-10 ** 9, 10 ** 9)}.get(node.kind, (0, 0))
    most_cols, most_rows = (1000, 65534) if node.kind == "cell" else (0, 0)
    refuse_if(node.kind not in cases.KINDS + ["calc"] or not 0 <= node.depth <= cases.MAX_DEPTH or not low <= node.n <= high
              or not 0 <= node.cols <= most_cols or not 0 <= node.rows <= most_rows
              or (text and node.kind not in cases.TEXT_KINDS + ["calc"]), 2, k)
    refuse_if(text and max(text) > 130, 3, k)
    refuse_if(node.kind == "calc" and not refusals.is_sum(text), 13, k)
    refuse_if(node.kind == "calc" and refusals.worth(text) is None, 14, k)
    return node


PARENT = {"body": "table", "row": "body", "cell": "row"}


def read_sheet(data):
    """The nodes in the order of their lines."""
    refuse_if(len(data) > 65536 or data.count(b"\n") > 4097, 8, 0)
    refuse_if(not data.startswith(cases.HEADING), 1, 0)
    nodes, last = [], {}
    for k, line in enumerate(data[len(cases.HEADING):].split(b"\n"), 1):
        if line == b"" and k == data.count(b"\n"):
            break
        refuse_if(k == data.count(b"\n"), 2, k)
        node = read_node(line, k)
        refuse_if((node.depth == 0) != (k == 1), 4, k)
        if node.depth > 0:
            refuse_if(node.depth > nodes[-1].depth + 1, 4, k)
            parent = last[node.depth - 1]
            wanted = {"table": "body", "body": "row", "row": "cell"}.get(parent.kind)
            refuse_if(parent.kind in cases.LEAF_KINDS + ["calc"] or wanted not in (None, node.kind), 4, k)
            node.parent = parent
            parent.children.append(node)
        refuse_if(node.kind in PARENT and (not node.parent or node.parent.kind != PARENT[node.kind]), 4, k)
        last[node.depth] = node
        nodes.append(node)
    refuse_if(not nodes, 4, 0)
    for node in nodes:
        refuse_if(node.kind in ("table", "body") and not node.children, 4, node.line)
    return nodes


# ------------------------------------------------------------------- the grid

def resolve(body):
    """The columns of each cell of a body, colspan 0 replaced."""
    sums = [sum(max(c.cols, 1) for c in row.children) for row in body.children]
    return [[c.cols or max(sums) - total + 1 for c in row.children]
            for row, total in zip(body.children, sums)]


class Grid:
    """rows: (row line, entries), an entry being (cell or None, position, span)
    until `number_columns`, (cell or None, first column, span) afterwards."""

    def __init__(self, table):
        self.table, self.rows, hanging = table, [], []
        for body in table.children:
            for i, (row, spans) in enumerate(zip(body.children, resolve(body))):
                hanging = self.add_row(row, spans, hanging, len(body.children) - 1 - i)
        ends = [at + span for _, row in self.rows for _, at, span in row]
        refuse_if(max(ends, default=0) > 4096, 5, table.line)
        refuse_if(sum(len(row) for _, row in self.rows) > 8192, 6, table.line)
        self.edges = sorted({0, *ends})
        self.number_columns()

    def add_row(self, row, spans, hanging, left_in_body):
        entries, after, col = [], [], 0
        waiting = list(reversed(hanging))

        def filler():
            nonlocal col
            left, at, span = waiting.pop()
            entries.append((None, col, span))
            col += span
            if left > 1:
                after.append((left - 1, at, span))

        for c, span in zip(row.children, spans):
            while waiting and waiting[-1][1] <= col:
                filler()
            hangs = min(c.rows - 1, left_in_body) if c.rows else left_in_body
            if hangs > 0:
                after.append((hangs, col, span))
            entries.append((c, col, span))
            col += span
        while waiting:
            filler()
        self.rows.append((row.line, entries))
        return after

    def number_columns(self):
        rank = {edge: i for i, edge in enumerate(self.edges)}
        self.positions = self.rows
        self.rows = [(line, [(c, rank[at], rank[at + span] - rank[at]) for c, at, span in row])
                     for line, row in self.rows]
        self.cols = max(sum(span for _, _, span in row) for _, row in self.rows)


# -------------------------------------------------------------- the estimates

def text_size(text):
    width = {**dict.fromkeys(range(33, 127), 1), 129: 1, 130: 2}
    words = re.split(rb"[\t-\r ]+", text)
    inner = [w for w in words if w]
    size = sum(width.get(byte, 0) for byte in text) + max(len(inner) - 1, 0)
    return size + (1 if size and words[0] == b"" else 0)


def estimate(node, wrap, grids, done):
    """(size, least, prefix) of a node, noted in `done` by line, for it and all below."""
    children = [estimate(c, wrap, grids, done) for c in node.children]
    size, least, prefix = sum(c[0] for c in children), max((c[1] for c in children), default=0), 0
    if node.kind in cases.TEXT_KINDS:
        size = text_size(node.text) + (2 if node.kind == "img" else 0)
        least = min(size, wrap)
    elif node.kind == "calc":
        size = len(str(refusals.worth(node.text)))
        least = min(size, wrap)
    elif node.kind == "link":
        size, least = size + 5, max(least, 5)
    elif node.kind == "break":
        size, least = 1, 1
    elif node.kind in ("body", "row"):
        size, least = 0, 0
    elif node.kind == "table":
        grid = grids[node.line]
        sizes, leasts = [0] * grid.cols, [0] * grid.cols
        for _, row in grid.rows:
            for c, first, span in row:
                for j in range(first, first + span) if c else ():
                    sizes[j] += done[c.line][0] // span
                    leasts[j] = max(leasts[j], done[c.line][1] // span)
        gaps = max(grid.cols - 1, 0)
        size, least = sum(sizes) + gaps, sum(leasts) + gaps
    elif node.kind in ("head", "quote", "ul", "ol", "dd"):
        prefix = 2
        if node.kind == "head":
            prefix = node.n + 1
        elif node.kind == "ol":
            prefix = 2 + max(len(str(node.n)), len(str(node.n + len(children) - 1)))
        size, least = size + prefix, least + prefix
    done[node.line] = (size, least, prefix)
    return done[node.line]


# ----------------------------------------------------------- shares, placement

class Layout:
    def __init__(self, grid, done, raw, width):
        self.sizes, self.leasts = [0] * grid.cols, [0] * grid.cols
        for _, row in grid.rows:
            for c, first, span in row:
                for j in range(first, first + span) if c else ():
                    self.sizes[j] = max(self.sizes[j], done[c.line][0] // span)
                    self.leasts[j] = max(self.leasts[j], done[c.line][1] // span)
        gaps = max(grid.cols - 1, 0)
        self.down = raw == 1 or width == 0 or sum(self.leasts) + gaps > width
        if self.down:
            self.shares = self.widths = [width] * grid.cols
            self.wide = width
        else:
            total = sum(self.sizes)
            self.shares = [min(s, max(s * width // total, l)) if s else 0
                           for s, l in zip(self.sizes, self.leasts)]
            self.widths = list(self.shares)
            for _ in range(max(0, sum(self.widths) + gaps - width)):
                j = max(range(grid.cols), key=lambda j: (self.widths[j] - self.leasts[j], self.widths[j], -j))
                self.widths[j] -= 1
            self.wide = sum(self.widths) + max(sum(w > 0 for w in self.widths) - 1, 0)
        self.placed = []                        # (row line, cell line, x, width) of the printed ones
        for line, row in grid.rows:
            x = 0
            for c, first, span in row:
                room = width if self.down else sum(self.widths[first:first + span])
                if room and self.down:
                    self.placed.append((line, c.line if c else 0, 0, width))
                elif room:
                    self.placed.append((line, c.line if c else 0, x, room + span - 1))
                    x += room + span


# ------------------------------------------------------------------ the answer

def work(data):
    """Nodes, grids by line, estimates by line, layouts by line."""
    wrap, raw, width, rest = read_settings(data)
    nodes = read_sheet(rest)
    grids = {node.line: Grid(node) for node in nodes if node.kind == "table"}
    done = {}
    estimate(nodes[0], wrap, grids, done)
    return nodes, grids, done, {t: Layout(grid, done, raw, width) for t, grid in grids.items()}


def answer(data):
    try:
        nodes, grids, done, layouts = work(data)
    except Refused as refused:
        return "refusal line\n%d %d\n" % refused.args
    out = []
    for t, lay in layouts.items():
        out += ["table way cols wide", "%d %s %d %d" % (t, "hv"[lay.down], grids[t].cols, lay.wide), "column width"]
        out += ["%d %d" % column for column in enumerate(lay.widths)]
        out += ["row cell x width"] + ["%d %d %d %d" % place for place in lay.placed]
    out += ["line size least prefix"] + ["%d %d %d %d" % (k, *done[k]) for k in sorted(done)]
    for t, grid in grids.items():
        out += ["grid cols", "%d %d" % (t, grid.cols), "row cell first span"]
        out += ["%d %d %d %d" % (line, c.line if c else 0, first, span)
                for line, row in grid.rows for c, first, span in row]
        out.append("row end")
        end = 0
        for line, row in grid.rows:
            end += len(row)
            out.append("%d %d" % (line, end))
    return "".join(line + "\n" for line in out)


def measured(text, wrap, img):
    try:
        refuse_if(wrap > 1000, 9, 0)
        refuse_if(len(text) > 65536, 8, 0)
        refuse_if(text and max(text) > 130, 3, 0)
    except Refused as refused:
        return "refusal line\n%d %d\n" % refused.args
    size = text_size(text) + (2 if img else 0)
    return "size least prefix\n%d %d 0\n" % (size, min(size, wrap))


def explain(data):
    nodes, grids, done, layouts = work(data)
    for t, grid in grids.items():
        lay = layouts[t]
        print("table at line %d: %d columns, edges %s" % (t, grid.cols, grid.edges))
        for body in grid.table.children:
            print("  body %d, resolved columns by row: %s" % (body.line, resolve(body)))
        for (line, row), (_, by_position) in zip(grid.rows, grid.positions):
            shown = ["%s [%d,%d) columns %d+%d" % (c.line if c else "filler", at, at + width, first, span)
                     for (c, first, span), (_, at, width) in zip(row, by_position)]
            print("  row %d: %s" % (line, "; ".join(shown) or "empty"))
        print("  sizes %s leasts %s" % (lay.sizes, lay.leasts))
        print("  %s, shares %s, widths %s, table width %d"
              % ("down" if lay.down else "sideways", lay.shares, lay.widths, lay.wide))


def main():
    if sys.argv[1:] == ["--explain"]:
        try:
            explain(sys.stdin.buffer.read())
        except Refused as refused:
            print("refused: %d on line %d" % refused.args)
    elif not sys.argv[1:]:
        for k, frame in enumerate(cases.read_frames(sys.stdin.buffer), 1):
            said = answer(*frame) if len(frame) == 1 else measured(*frame)
            sys.stdout.write("case %d\n%s" % (k, said))
    else:
        raise SystemExit(__doc__)


if __name__ == "__main__":
    main()
