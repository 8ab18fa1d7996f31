#!/usr/bin/env python3
"""Two tables side by side, by docs/CALLS.md; html2text has no such call.

    joined.py JOINER KIND SEED COUNT [FIRST]

Holds the calls tables_joined_grid, tables_joined_layout and tables_joined_spoken to a
reading of the rule beside the definitions: the grids and the layout are model.py's,
owners and texts those of spoken.py. JOINER is joiner.c, linked with the static library:
    gcc -O2 -Iinclude oracle/joiner.c crates/tables_c/out/libtables_c.a -o JOINER
KIND is `fillers` or one of generate.py but `measures`; SEED, COUNT, FIRST are as there.
Of each sheet some pairs of tables are asked, the same table twice among them, at widths
from 0 on, and lines that are no table. Prints what was seen, and the first case that
differs. Ends with 0 if nothing differs.
"""

import collections
import os
import sys

import expect
import generate
import model
import spoken

WORDING = 5


class Joined:
    """rows as model.Grid has them, and for each row whether an entry is a filler, and its owner's line (0: none)."""

    def __init__(self, left, right, left_owners, right_owners, line):
        c, d = left.cols, right.cols
        self.cols, self.rows, self.owners = c + d, [], []
        for i in range(max(len(left.rows), len(right.rows))):
            entries, owners, here = [], [], None
            if i < len(left.rows):
                here, row = left.rows[i]
                entries, owners = list(row), list(left_owners[i])
            end = sum(entries[-1][1:]) if entries else 0
            self.empty(entries, owners, end, c)
            if i < len(right.rows):
                there, row = right.rows[i]
                here = there if here is None else here
                entries += [(one, c + first, span) for one, first, span in row]
                owners += right_owners[i]
            else:
                self.empty(entries, owners, c, c + d)
            self.rows.append((here, entries))
            self.owners += owners
        model.refuse_if(self.cols > 4096, 5, line)
        model.refuse_if(len(self.owners) > 8192, 6, line)

    @staticmethod
    def empty(entries, owners, start, stop):
        if start < stop:
            entries.append((None, start, stop - start))
            owners.append((True, 0))


class Places(model.Layout):
    """The layout with x and width of every entry, missing ones too."""

    def figures(self, grid, width):
        xs, wides = [], []
        for _, row in grid.rows:
            x = 0
            for _, first, span in row:
                room = width if self.down else sum(self.widths[first:first + span])
                xs.append(0 if self.down else x)
                wides.append(room if self.down or not room else room + span - 1)
                if room and not self.down:
                    x += room + span
        return xs, wides


class Sheet:
    """All that a sheet answers of two tables."""

    def __init__(self, data):
        self.refused, self.said = None, spoken.Model(data)
        if self.said.refused:
            self.refused = self.said.refused
            return
        self.nodes = model.read_sheet(data)
        self.tables = [node.line for node in self.nodes if node.kind == "table"]
        self.late, self.grids, self.done = self.said.late, {}, {}
        if not self.late:
            self.grids = {node.line: model.Grid(node) for node in self.nodes if node.kind == "table"}

    def owners(self, line):
        """Those of each row."""
        flat, at, rows = self.said.owners(line), 0, []
        for _, row in self.grids[line].rows:
            rows.append(flat[at:at + len(row)])
            at += len(row)
        return rows

    def join(self, left, right):
        if self.refused:
            raise model.Refused(*self.refused)
        model.refuse_if(left not in self.tables or right not in self.tables, 10, 0)
        if self.late:
            raise model.Refused(*self.late)
        return Joined(self.grids[left], self.grids[right], self.owners(left), self.owners(right), left)

    def answers(self, left, right, wrap, raw, width, entry):
        """The three lines."""
        try:
            grid = self.join(left, right)
        except model.Refused as why:
            no = list(why.args) + [0, 0, 0]
            return [no, no, no]
        entries = [one for _, row in grid.rows for one in row]
        ends, rows = 0, []
        for line, row in grid.rows:
            ends += len(row)
            rows.append((line, ends))
        first = [0, 0, len(rows), len(entries), grid.cols] + [one.line if one else 0 for one, _, _ in entries] \
            + [at for _, at, _ in entries] + [span for _, _, span in entries] + [line for line, _ in rows] + [end for _, end in rows]
        if wrap not in self.done:
            self.done[wrap] = {}
            model.estimate(self.nodes[0], wrap, self.grids, self.done[wrap])
        lay = Places(grid, self.done[wrap], raw, width)
        xs, wides = lay.figures(grid, width)
        second = [0, 0, int(lay.down), grid.cols, lay.wide] + list(lay.widths) + xs + wides
        if entry >= len(entries) or not grid.owners[entry][0]:
            return [first, second, [10, 0, 0, 0, 0]]
        owner = grid.owners[entry][1]
        part = self.said.sheet.part(owner) if owner else None
        return [first, second, [0, 0, 1] + list(part) if part else [0, 0, 0, 0, WORDING]]


def asked(dice, sheet):
    """Lines, settings and entries."""
    count = len(sheet.nodes) if not sheet.refused else 5
    asks = [(dice.below(count + 2), dice.below(count + 2)) for _ in range(2)]
    if not sheet.refused and sheet.tables:
        one = dice.pick(sheet.tables)
        asks += [(one, one), (one, 0), (0, one)] + [(dice.pick(sheet.tables), dice.pick(sheet.tables)) for _ in range(4)]
    return [(l, r, dice.pick([0, 1, 3, 3, 8]), dice.pick([0, 0, 0, 1]), dice.pick([0, 1, 4, 9, 20, 33, 80, 160, 400]), dice.below(dice.pick([4, 30, 300])))
            for l, r in asks]


def compare(joiner, kind, seed, first, count):
    tally, made, text = collections.Counter(), [], []
    for k in range(first, first + count):
        data = spoken.make(kind, seed, k).split(b"\n", 2)
        data = data[2] if len(data) == 3 else b""
        sheet = Sheet(data)
        asks = asked(generate.Dice(79, seed, k), sheet)
        made.append((k, data, sheet, asks))
        text.append(b"%d %d\n%s" % (len(data), len(asks), data))
        text += [b"%d %d %d %d %d %d\n" % ask for ask in asks]
    lines = expect.run([os.path.abspath(joiner)], b"".join(text)).read().split(b"\n")[:-1]
    at = 0
    for k, data, sheet, asks in made:
        for ask in asks:
            answers = sheet.answers(*ask)
            for wanted in answers:
                got = [int(figure) for figure in lines[at].split()] if at < len(lines) else None
                at += 1
                if got != wanted:
                    print("case %d, %s: wanted %s, got %s, of\n%s" % (k, ask, wanted, got, data.decode("latin-1")[:4000]))
                    return None
            grid, lay, said = answers
            tally["refused %d" % grid[0] if grid[0] else "laid down" if lay[2] else "laid sideways"] += 1
            if not grid[0]:
                tally["no filler" if said[0] else "spoken from the sheet" if said[2] else "spoken with the wording"] += 1
    if at != len(lines):
        print("more answers than were asked")
        return None
    return tally


def main():
    if len(sys.argv) not in (5, 6):
        raise SystemExit(__doc__)
    joiner, kind, seed, count = sys.argv[1], sys.argv[2], int(sys.argv[3]), int(sys.argv[4])
    first, tally = int(sys.argv[5]) if len(sys.argv) == 6 else 1, collections.Counter()
    for start in range(first, first + count, 100):
        some = compare(joiner, kind, seed, start, min(100, first + count - start))
        if some is None:
            return 1
        tally += some
    print(", ".join("%s %d" % item for item in sorted(tally.items())) + ": no difference")
    return 0


if __name__ == "__main__":
    sys.exit(main())
