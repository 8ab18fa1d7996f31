#!/usr/bin/env python3
"""What is spoken at a filler, by docs/FORMAT.md and docs/CALLS.md; html2text has no such call.

    spoken.py SPEAKER KIND SEED COUNT [FIRST]
    spoken.py --self

Holds the call tables_spoken to a reading of the rule beside the definitions. It
shares with the other files the refusals of a sheet (refusals.py) and the cases;
5 and 6 it counts by itself, and it has a grid of its own, whose entries are
their owners. SPEAKER is speaker.c, linked with the static library:
    gcc -O2 -Iinclude oracle/speaker.c crates/tables_c/out/libtables_c.a -o SPEAKER
KIND is `fillers` (tables full of rowspans, cells with all sorts of texts), or one
of generate.py but `measures`; SEED, COUNT, FIRST are as there. Of each sheet some
fillers, some cells, entries past the last and lines that are no table are asked.
Prints what was seen, and the first case that differs. Ends with 0 if nothing
differs. --self tries the rule on three sheets whose answers stand here.
"""

import collections
import os
import sys

import cases
import expect
import generate
import refusals

END = 2 ** 32 - 1


class Sheet:
    """A sheet without a fault of its own: of each line, from 1, depth, kind, cols, rows, text and where its bytes end."""

    def __init__(self, data):
        self.lines, at = [None], len(cases.HEADING)
        for line in data[at:].split(b"\n")[:-1]:
            depth, kind, _, cols, rows, text = line.split(b" ", 5)
            at += len(line)
            self.lines.append((int(depth), kind, int(cols), int(rows), text, at))
            at += 1

    def below(self, k):
        """The lines inside line k."""
        m = k + 1
        while m < len(self.lines) and self.lines[m][0] > self.lines[k][0]:
            yield m
            m += 1

    def bodies(self, table):
        """Bodies of rows of cells, each its line, its columns and how many rows below its own it reaches into."""
        depth, found = self.lines[table][0], []
        for m in self.below(table):
            if self.lines[m][0] == depth + 1:
                found.append([])
            elif self.lines[m][0] == depth + 2:
                found[-1].append([])
            elif self.lines[m][0] == depth + 3:
                found[-1][-1].append(m)
        for body in found:
            sums = [sum(max(self.lines[m][2], 1) for m in row) for row in body]
            for i, row in enumerate(body):
                left = len(body) - 1 - i
                body[i] = [(m, self.lines[m][2] or max(sums) - sums[i] + 1,
                            left if self.lines[m][3] == 0 else min(self.lines[m][3] - 1, left)) for m in row]
        return found

    def table_refusal(self, table):
        """5 or 6, without a grid: what reaches into a row adds its columns and an entry, wherever it stands."""
        ends, entries = 0, 0
        for body in self.bodies(table):
            wide, many = [0] * (len(body) + 1), [0] * (len(body) + 1)
            for i, row in enumerate(body):
                for _, cols, reach in row:
                    for figures, one in ((wide, cols), (many, 1)):
                        figures[i] += one
                        figures[i + reach + 1] -= one
            for figures in (wide, many):
                for i in range(1, len(figures)):
                    figures[i] += figures[i - 1]
            ends, entries = max([ends] + wide), entries + sum(many)
        return 5 if ends > cases.MAX_END else 6 if entries > cases.MAX_ENTRIES else None

    def owners(self, table):
        """Of each entry of the table, in order, whether it is a filler, and the line of its cell."""
        entries = []
        for body in self.bodies(table):
            waiting = collections.deque()           # what reaches into the row: its cell, rows left, place, columns
            for row in body:
                kept, col = collections.deque(), 0

                def put(m, reach, place, cols, filler):
                    entries.append((filler, m))
                    if reach > 0:
                        kept.append((m, reach, place, cols))

                for m, cols, reach in row:
                    while waiting and waiting[0][2] <= col:
                        one, left, place, wide = waiting.popleft()
                        put(one, left - 1, place, wide, True)
                        col += wide
                    put(m, reach, col, cols, False)
                    col += cols
                for one, left, place, wide in waiting:
                    put(one, left - 1, place, wide, True)
                waiting = kept
        return entries

    def part(self, owner):
        """Where the text that is spoken for a cell stands, or None."""
        for m in self.below(owner):
            if self.lines[m][1] == b"text":
                text, end = self.lines[m][4:]
                return (end - len(text), len(text)) if text else None
        return None


class Model:
    """All that a sheet answers."""

    def __init__(self, data):
        self.refused, self.sheet, self.tables, self.late = refusals.sheet_answer(data), None, [], None
        if not self.refused:
            self.sheet, self.grids = Sheet(data), {}
            self.tables = [k for k in range(1, len(self.sheet.lines)) if self.sheet.lines[k][1] == b"table"]
            for k in self.tables:
                number = self.sheet.table_refusal(k)
                if number:
                    self.late = (number, k)
                    break

    def owners(self, line):
        if line not in self.grids:
            self.grids[line] = self.sheet.owners(line)
        return self.grids[line]

    def said(self, line, entry, wording):
        """number, line, of_sheet, from, length."""
        if self.refused:
            return self.refused + (0, 0, 0)
        if line not in self.tables:
            return (10, 0, 0, 0, 0)
        if self.late:
            return self.late + (0, 0, 0)
        entries = self.owners(line)
        if entry >= len(entries) or not entries[entry][0]:
            return (10, 0, 0, 0, 0)
        part = self.sheet.part(entries[entry][1])
        return (0, 0, 1) + part if part else (0, 0, 0, 0, len(wording))


# ---------------------------------------------------------------- what is asked

def content(dice, depth):
    """What stands in a cell: any of texts, empty, blank or not, images, frames, a table."""
    lines = []
    for _ in range(dice.pick([0, 1, 1, 2, 3])):
        way = dice.below(9)
        text = dice.pick([b"", b"", b" ", b"   ", b"a", b"damp", b" wall ", b"\t", b"\r", bytes([128, 129, 130]), b"x" * 300])
        if way < 3:
            lines.append(cases.node(depth, "text", text=text))
        elif way == 3:
            lines.append(cases.node(depth, dice.pick(["img", "svg"]), text=text))
        elif way == 4:
            lines.append(cases.node(depth, "calc", text=b"1+2"))
        elif way == 5:
            lines.append(cases.node(depth, dice.pick(["break", "frag"])))
        elif way == 6 and depth + 4 <= cases.MAX_DEPTH:
            lines += cases.table([[[(1, 2, lambda d: content(dice, d)), (1, 1)], [(1, 1)]]], depth)
        elif depth < cases.MAX_DEPTH:
            kind = dice.pick(["div", "em", "quote", "ul", "item"])
            lines.append(cases.node(depth, kind))
            if dice.chance(70):
                lines += content(dice, depth + 1)
    return lines


def fillers(dice):
    bodies = []
    for _ in range(dice.pick([1, 1, 2, 3])):
        bodies.append([[(dice.pick([1, 1, 1, 2, 0, 3]), dice.pick([1, 2, 2, 3, 5, 0, 65534]), lambda d: content(dice, d))
                        for _ in range(dice.pick([0, 1, 1, 2, 3, 4]))] for _ in range(dice.between(1, 6))])
    lines = cases.table(bodies, 1)
    if dice.chance(30):
        lines += [cases.node(1, "text", text=b"after the table")]
    return cases.case(cases.sheet([cases.node(0, "div")] + lines))


def make(kind, seed, k):
    if kind == "fillers":
        return fillers(generate.Dice(77, seed, k))
    return generate.make(kind, seed, k)[0]


def asked(dice, model):
    """Lines, entries and wordings."""
    count = len(model.sheet.lines) - 1 if model.sheet else 5
    asks = [(line, dice.below(3)) for line in (0, 1, count, count + 1, END, dice.between(1, max(count, 1)))]
    tables = [dice.pick(model.tables) for _ in range(min(6, len(model.tables)))]
    for line in tables:
        if model.late:
            asks.append((line, dice.below(9)))
            continue
        entries = model.owners(line)
        hung = [e for e, (filler, _) in enumerate(entries) if filler]
        asks += [(line, dice.pick(hung)) for _ in range(min(12, 2 * len(hung)))]
        asks += [(line, dice.below(len(entries) + 2)) for _ in range(3)]
        asks += [(line, e) for e in (len(entries), len(entries) + 1, END)]
        asks += [(line, e) for e in (hung[:1] + hung[-1:] + [len(entries) - 1]) if e >= 0]
    return [(line, e, bytes(dice.below(256) for _ in range(dice.pick([0, 1, 5, 300])))) for line, e in asks]


def kind_of(answer):
    if answer[0]:
        return "refused %d" % answer[0]
    return "of the sheet" if answer[2] else "the wording"


def compare(speaker, kind, seed, first, count):
    tally = collections.Counter()
    made, text = [], []
    for k in range(first, first + count):
        data = make(kind, seed, k).split(b"\n", 2)
        sheet = data[2] if len(data) == 3 else b""
        model = Model(sheet)
        asks = asked(generate.Dice(78, seed, k), model)
        made.append((k, sheet, model, asks))
        text.append(b"%d %d\n%s" % (len(sheet), len(asks), sheet))
        text += [b"%d %d %d\n%s" % (line, entry, len(wording), wording) for line, entry, wording in asks]
    lines = expect.run([os.path.abspath(speaker)], b"".join(text)).read().split(b"\n")[:-1]
    at = 0
    for k, sheet, model, asks in made:
        for line, entry, wording in asks:
            wanted = model.said(line, entry, wording)
            got = tuple(int(figure) for figure in lines[at].split()) if at < len(lines) else None
            at += 1
            if got != wanted:
                print("case %d: line %d, entry %d, a wording of %d bytes: wanted %s, got %s, of\n%s"
                      % (k, line, entry, len(wording), wanted, got, sheet.decode("latin-1")[:4000]))
                return None
            tally[kind_of(wanted)] += 1
    if at != len(lines):
        print("more answers than were asked")
        return None
    return tally


# ------------------------------------------------------------ the rule by itself

ROOMS = [cases.node(0, "table"), cases.node(1, "body"), cases.node(2, "row"),
         cases.cell(3, 1, 3), cases.node(4, "text", text=b"hall"),
         cases.cell(3, 1, 2), cases.node(4, "text"), cases.node(4, "text", text=b"b"),
         cases.cell(3, 1, 2), cases.node(4, "img", text=b"x"),
         cases.cell(3, 1, 2), cases.node(4, "text", text=b"  "),
         cases.cell(3, 1, 2)] + cases.table([[[(1, 1, b"in")]]], 4) + [cases.node(4, "text", text=b"out"),
         cases.node(2, "row"), cases.node(2, "row"), cases.cell(3, 1, 1)]


def try_rule():
    model = Model(cases.sheet(ROOMS))
    wanted = {5: (0, 0, 1, 97, 4), 6: (0, 0, 0, 0, 5), 7: (0, 0, 0, 0, 5), 8: (0, 0, 1, 200, 2), 9: (0, 0, 1, 286, 2), 10: (0, 0, 1, 97, 4),
              4: (10, 0, 0, 0, 0), 11: (10, 0, 0, 0, 0), 12: (10, 0, 0, 0, 0)}
    said = {e: model.said(1, e, b"blank") for e in wanted}
    # a filler that stands elsewhere in between, and two of which the later cell's comes first
    kept = Model(cases.sheet(cases.table([[[(3, 1), (1, 3)], [(1, 1)], [(1, 1)] * 4]]))).owners(1)
    order = Model(cases.sheet(cases.table([[[(1, 1), (2, 3)], [(1, 2)], []]]))).owners(1)
    good = (said == wanted and [m for filler, m in kept if filler] == [5, 5] and kept[7] == (True, 5)
            and [m for filler, m in order if filler] == [5, 7, 5] and model.said(2, 5, b"")[0] == 10)
    print("as it stands here" if good else "differs: %s %s %s" % (said, kept, order))
    return 0 if good else 1


def main():
    if sys.argv[1:] == ["--self"]:
        return try_rule()
    if len(sys.argv) not in (5, 6):
        raise SystemExit(__doc__)
    speaker, kind, seed, count = sys.argv[1], sys.argv[2], int(sys.argv[3]), int(sys.argv[4])
    first, tally = int(sys.argv[5]) if len(sys.argv) == 6 else 1, collections.Counter()
    for start in range(first, first + count, 200):
        some = compare(speaker, kind, seed, start, min(200, first + count - start))
        if some is None:
            return 1
        tally += some
    print(", ".join("%s %d" % item for item in sorted(tally.items())) + ": no difference")
    return 0


if __name__ == "__main__":
    sys.exit(main())
