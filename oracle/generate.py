#!/usr/bin/env python3
"""Makes cases from a seed.

    generate.py KIND SEED COUNT [FIRST] > FRAMES

KIND: small     well-formed sheets of a few to about a hundred lines
      limits    sheets at and just past docs/FORMAT.md's limits
      damaged   settings and sheets with faults for refusals 9, 8, 1, 2, 3, 4
      texts     sheets of many texts, all text bytes
      measures  single texts for the measure (`text` frames, byte 10 too)
      totals    small, with sums (kind calc) among the texts
      walks     tables inside tables, in cells, quotes, lists and headings
Case number k (from 1) of a kind depends on KIND, SEED and k alone; FIRST
(default 1) begins at a later one, so that one case can be made again.
"""

import sys

import cases
from cases import case, cell, node, sheet, table


class Dice:
    """A stream of numbers (splitmix64): the same under every Python."""

    def __init__(self, *seeds):
        self.state = 0
        for seed in seeds:
            self.state = (self.word() ^ seed) & (2 ** 64 - 1)

    def word(self):
        self.state = (self.state + 0x9E3779B97F4A7C15) & (2 ** 64 - 1)
        z = self.state
        z = ((z ^ (z >> 30)) * 0xBF58476D1CE4E5B9) & (2 ** 64 - 1)
        z = ((z ^ (z >> 27)) * 0x94D049BB133111EB) & (2 ** 64 - 1)
        return z ^ (z >> 31)

    def below(self, n):
        return self.word() % n

    def between(self, low, high):
        return low + self.below(high - low + 1)

    def chance(self, percent):
        return self.below(100) < percent

    def pick(self, choices):
        return choices[self.below(len(choices))]


# ---------------------------------------------------------------- small parts

TEXT_BYTES = [b for b in range(131) if b != 10]
SPACES = [9, 11, 12, 13, 32]
NARROW = list(range(97, 123)) * 4 + list(range(33, 127)) + [129] * 4
EMPTY = list(range(0, 9)) + list(range(14, 32)) + [127, 128, 128, 128]
WIDE = [130]


def some_text(dice, longest):
    """A text of at most `longest` bytes, of one of several mixtures."""
    length = dice.below(longest + 1)
    style = dice.below(7)
    if style == 0:
        return bytes(dice.pick(TEXT_BYTES) for _ in range(length))
    if style == 1:
        return bytes(dice.pick(NARROW) for _ in range(length))
    if style == 2:
        return bytes(dice.pick(dice.pick([SPACES, EMPTY])) for _ in range(length))
    if style == 3:
        return bytes(dice.pick(dice.pick([WIDE, EMPTY, NARROW, SPACES])) for _ in range(length))
    if style == 4:
        return bytes(dice.pick([32] * 2 + NARROW[:8]) for _ in range(length))
    if style == 5:
        return bytes(dice.pick(SPACES) for _ in range(length))
    return b" " * dice.below(3) + bytes(dice.pick(NARROW) for _ in range(length)) + b" " * dice.below(3)


def some_settings(dice, lines=()):
    """wrap, raw, width. With lines, often a width about which their first table
    has to share and cut: a guess from its texts and cells."""
    wrap = dice.pick([0, 1, 2, 3, 3, 3, 3, 5, 8, 20, cases.MAX_WRAP, dice.below(12),
                      dice.below(cases.MAX_WRAP + 1)])
    raw = 1 if dice.chance(6) else 0
    width = dice.pick([0, 1, 2, 3, 5, 8, 13, 21, 40, 80, cases.MAX_WIDTH,
                       dice.below(12), dice.below(24), dice.below(24), dice.below(40),
                       dice.below(40), dice.below(80), dice.below(80), dice.below(200),
                       dice.below(cases.MAX_WIDTH + 1)])
    kinds = [line.split(b" ", 2)[1] for line in lines]
    if kinds.count(b"cell") > 1 and dice.chance(60):
        columns = kinds.count(b"cell") // kinds.count(b"row") + 1
        letters = sum(len(line) - 14 for line, kind in zip(lines, kinds) if kind in (b"text", b"img", b"svg"))
        wrap = dice.pick([wrap, dice.below(4)])
        width = columns * (wrap % 5) + dice.below(2 * columns + 3 * letters // kinds.count(b"row") + 2)
    return wrap, raw, min(width, cases.MAX_WIDTH)


def some_ol(dice):
    """A first number of an ol: near a power of ten or anywhere."""
    near = 10 ** dice.below(10) + dice.between(-12, 12)
    n = dice.pick([0, 1, near, near, dice.below(cases.MAX_OL + 1), cases.MAX_OL])
    n = min(n, cases.MAX_OL)
    return -n if dice.chance(40) else n


def some_n(dice, kind):
    if kind == "head":
        return dice.between(1, 6)
    return some_ol(dice) if kind == "ol" else 0


class Plan:
    """How the spans of one table are chosen. safe: so that it is hardly ever
    refused, for sheets with many tables."""

    def __init__(self, dice, safe=False):
        self.dice = dice
        # ones: every cell one column wide, so that no hanging one can fail
        self.cols = dice.pick(["ones", "ones", "few", "few", "few", "many"])
        self.rows = dice.pick(["ones", "few", "few", "many"])
        # cut: no span reaches below the table's last row
        self.cut = dice.chance(60) or (safe and self.cols != "ones")
        self.widest = 60 if safe else cases.MAX_COLS
        # plain: each cell holds one text
        self.plain = dice.chance(40)

    def span(self, left):
        """(cols, rows) of a cell; left: rows of the table from its own on."""
        dice = self.dice
        cols = {"ones": 1,
                "few": dice.pick([0, 1, 1, 1, 2, 3]),
                "many": dice.pick([0, 1, 2, 5, dice.below(20), min(dice.below(300), self.widest), self.widest]),
                }[self.cols]
        rows = {"ones": dice.pick([0, 1, 1, 1]),
                "few": dice.pick([0, 1, 1, 1, 2, 2, 3]),
                "many": dice.pick([0, 1, 2, 3, dice.below(9), dice.below(100), cases.MAX_ROWS]),
                }[self.rows]
        return cols, min(rows, left) if self.cut else rows


class Grower:
    """Grows a well-formed sheet line by line within a number of lines and bytes."""

    def __init__(self, dice, lines, longest_text=12, bytes_left=30000, safe=False):
        self.dice = dice
        self.safe = safe
        self.lines = []
        self.left = lines
        self.longest = longest_text
        self.bytes_left = bytes_left

    def put(self, line):
        self.lines.append(line)
        self.left -= 1
        self.bytes_left -= len(line)

    def room(self, lines=1):
        return self.left >= lines and self.bytes_left > 300 + lines * 40

    def any_node(self, depth, tables=30):
        """A node with what is in it. tables: how likely a table is, in percent."""
        dice = self.dice
        if dice.chance(tables) and depth <= cases.MAX_DEPTH - 2 and self.room(3):
            self.a_table(depth)
        elif dice.chance(55):
            kind = dice.pick(["text"] * 6 + cases.LEAF_KINDS)
            text = some_text(dice, self.longest) if kind in cases.TEXT_KINDS else b""
            self.put(node(depth, kind, text=text))
        else:
            kind = dice.pick(cases.HOLDER_KINDS + ["ol"])
            self.put(node(depth, kind, some_n(dice, kind)))
            self.children(depth + 1, dice.pick([0, 1, 1, 2, 3, 11]), tables)

    def children(self, depth, most, tables):
        if depth > cases.MAX_DEPTH:
            return
        for _ in range(self.dice.below(most + 1)):
            if self.room():
                self.any_node(depth, tables)

    def a_table(self, depth):
        dice = self.dice
        plan = Plan(dice, self.safe)
        bodies = dice.pick([1, 1, 1, 2, 3])
        rows_in = [dice.pick([1, 1, 2, 2, 3, 4, 6]) for _ in range(bodies)]
        width = dice.pick([1, 2, 3, 3, 4, 6])
        left = sum(rows_in)
        self.put(node(depth, "table"))
        for b, rows in enumerate(rows_in):
            if b > 0 and not self.room(2):
                return
            self.put(node(depth + 1, "body"))
            for r in range(rows):
                if r > 0 and not self.room():
                    break
                self.put(node(depth + 2, "row"))
                if depth + 3 <= cases.MAX_DEPTH:
                    for _ in range(0 if dice.chance(10) else dice.between(1, width)):
                        if not self.room():
                            break
                        self.put(cell(depth + 3, *plan.span(left)))
                        if plan.plain and self.room() and depth + 4 <= cases.MAX_DEPTH:
                            self.put(node(depth + 4, "text", text=some_text(dice, self.longest)))
                        else:
                            self.children(depth + 4, dice.pick([0, 1, 1, 1, 2]), 8)
                left -= 1


def small(dice):
    size = dice.pick([dice.between(1, 6), dice.between(6, 20), dice.between(15, 50), dice.between(30, 100)])
    grower = Grower(dice, size, dice.pick([3, 8, 12, 12, 30]))
    shape = dice.below(5)
    if shape == 0:
        return sharing(dice)
    if shape == 1:
        grower.any_node(0, 20)
    elif shape == 2:                    # several things under one root
        kind = dice.pick(cases.HOLDER_KINDS)
        grower.put(node(0, kind, some_n(dice, kind)))
        while grower.room():
            grower.any_node(1, 40)
    else:
        grower.a_table(0)
    return case(sheet(grower.lines), *some_settings(dice, grower.lines))


def sharing(dice):
    """A table whose width lies between its leasts and its sizes, so that it is
    sideways and shares are cut; few different figures, so that ties arise."""
    wrap = dice.pick([0, 1, 2, 3, 3, 5, 8])
    columns = dice.between(1, 6)
    figures = dice.pick([[3, 7], [1, 4, 10], [5, 6], [0, 12, 30], list(range(13))])
    sizes, leasts = [0] * columns, [0] * columns
    rows = []
    for _ in range(dice.pick([1, 1, 2, 3])):
        row, j = [], 0
        while j < columns:
            span = 2 if dice.chance(12) and j + 2 <= columns else 1
            content, size, least = some_content(dice, wrap, dice.pick(figures))
            row.append((span, 1, content))
            for i in range(j, j + span):
                sizes[i] = max(sizes[i], size // span)
                leasts[i] = max(leasts[i], least // span)
            j += span
        rows.append(row)
    gaps = columns - 1
    low, high = sum(leasts) + gaps, sum(sizes) + gaps
    width = dice.pick([low, max(low - 1, 0), high, high - 1, dice.between(low, high), dice.between(low, high),
                       dice.between(low, high + 1), dice.between(low, (low + high) // 2)])
    return case(sheet(table([rows])), wrap, 0, max(0, min(width, cases.MAX_WIDTH)))


def some_content(dice, wrap, k):
    """Content for a cell, with its size and least: k letters in one of several dresses."""
    letters, least = b"abcdefghijklmnopqrstuvwxyz0123456789"[:k], min(k, wrap)
    way = dice.below(5)
    if way == 0:
        return lambda d: [node(d, "link"), node(d + 1, "text", text=letters)], k + 5, max(least, 5)
    if way == 1:
        return lambda d: [node(d, "ul"), node(d + 1, "text", text=letters)], k + 2, least + 2
    if way == 2:
        return lambda d: [node(d, "text", text=b"x")] * k, k, min(1, least)
    return letters, k, least


def texts(dice):
    lines = [node(0, dice.pick(["container", "div", "item"]))]
    for _ in range(dice.between(1, 40)):
        text = some_text(dice, dice.pick([2, 4, 8, 20, 20, 60, 300]))
        lines.append(node(1, dice.pick(["text", "text", "img", "svg"]), text=text))
    if dice.chance(30):
        lines = table([[[(1, 1, [node(4, "text", text=some_text(dice, 20))])
                         for _ in range(dice.between(1, 4))] for _ in range(dice.between(1, 4))]])
    return case(sheet(lines), *some_settings(dice))


def one_text(dice):
    """(bytes, wrap, img) for the measure; byte 10 may stand anywhere."""
    text = some_text(dice, dice.pick([2, 4, 8, 20, 60, 300]))
    if dice.chance(40):
        text = bytes(10 if byte in SPACES and dice.chance(50) else byte for byte in text)
    if dice.chance(3):
        at = dice.below(len(text) + 1)
        text = text[:at] + bytes([dice.between(131, 255)]) + text[at:]
    if dice.chance(1):
        text = bytes(dice.pick(TEXT_BYTES) for _ in range(7)) * 9362 + b"x" * dice.between(0, 4)
    wrap = some_settings(dice)[0]
    if dice.chance(3):
        wrap = dice.pick([cases.MAX_WRAP + 1, 65536, 2 ** 31, 2 ** 32 - 1])
    return text, wrap, dice.below(2)


# --------------------------------------------------------------------- limits

def settings_for_limits(dice):
    wrap = dice.pick([0, 1, 3, 3, 10, cases.MAX_WRAP])
    width = dice.pick([0, 1, 10, 100, 4095, 4096, 5000, 20000, cases.MAX_WIDTH, cases.MAX_WIDTH - 1,
                       dice.below(5000), dice.below(cases.MAX_WIDTH + 1)])
    return wrap, 1 if dice.chance(5) else 0, width


def full_lines(dice, lines, count=cases.MAX_NODES):
    """Brings lines under a root that may have children to `count` lines."""
    while len(lines) < count:
        lines.append(node(1, dice.pick(["em", "frag", "break", "dd"])))
    return lines


def full_bytes(lines, count=cases.MAX_BYTES, byte=b"x"):
    """Adds a text under the root so that the sheet has `count` bytes."""
    have = len(sheet(lines)) + len(node(1, "text"))
    return lines + [node(1, "text", text=byte * (count - have))]


def large(dice):
    """A long random sheet; often exactly 4,096 lines."""
    lines = dice.pick([300, 1000, 2500, cases.MAX_NODES])
    grower = Grower(dice, lines, dice.pick([1, 4, 8]), 60000, dice.chance(90))
    kind = dice.pick(cases.HOLDER_KINDS)
    grower.put(node(0, kind, some_n(dice, kind)))
    while grower.room(120):
        grower.any_node(1, 40)
    if len(sheet(grower.lines)) + 12 * (lines - len(grower.lines)) < cases.MAX_BYTES:
        full_lines(dice, grower.lines, lines)
    return sheet(grower.lines)


def one_large_table(dice):
    """One table of many rows and columns with texts in it."""
    width = dice.between(2, 60)
    rows = dice.between(2, 1200 // width)
    hang = dice.chance(50)
    cols = dice.pick([[1], [1], [1, 2], [0, 1, 2, 3]])

    def content(depth):
        if dice.chance(40):
            return []
        return [node(depth, "text", text=some_text(dice, dice.pick([2, 10, 40])))]

    body = [[(dice.pick(cols), min(rows - r, dice.between(0, 4)) if hang else 1, content)
             for _ in range(dice.between(width // 2, width))] for r in range(rows)]
    return sheet(table([body[:rows // 2], body[rows // 2:]]))


def most_lines(dice):
    """4,096 node lines, one more, or a piece of one more."""
    kind = dice.pick(["em", "div", "ol", "ul"])
    lines = full_lines(dice, [node(0, kind, some_n(dice, kind))])
    return sheet(lines) + dice.pick([b"", b"", b"x", b"1 em 0 0 0 ", node(1, "em"), b"\n"])


def most_bytes(dice):
    """65,536 bytes, or a few more or less."""
    byte = bytes([dice.pick([120, 32, 128, 130, 130])])
    lines = full_bytes([node(0, "div")], cases.MAX_BYTES + dice.pick([0, 0, 0, 1, -1, 2]), byte)
    return sheet(lines)


def widest_text(dice):
    """A table whose sizes times the width pass 32 bits."""
    long = bytes([130]) * dice.between(20000, 32000)
    return sheet(table([[[(1, 1, long), (dice.between(1, 2), 1, long), (1, 1, b"ab")]]]))


def many_entries(dice):
    """8,192 entries or one more, by cells that hang through most rows."""
    total = cases.MAX_ENTRIES + dice.pick([0, 0, 1, 1, -1])
    hanging = dice.between(10, 120)
    rows = total // hanging
    written = rows - dice.below(2)      # all rows that are asked for are written, or all but one
    rest = total - hanging * rows
    body = [[(1, rows) for _ in range(hanging)]] + [[] for _ in range(written - 1)]
    for _ in range(rest):
        body[dice.below(len(body))].append((1, 1))
    return sheet(table([body]))


def many_extra_rows(dice):
    """Cells of different heights, all cut to the rows that are written."""
    k = dice.pick([126, 126, 127, 125, 60])
    rows = list(range(2, k + 2))
    if dice.chance(60):
        rows = [dice.between(2, k + 1) for _ in rows]
    elif dice.chance(50):
        rows.reverse()
    return sheet(table([[[(1, r) for r in rows]]]))


def longest_row(dice):
    """Rows that end at 4,096 or 4,097, in several ways."""
    over = dice.pick([0, 0, 1])
    end = cases.MAX_END + over
    way = dice.below(6)
    thousands = [(cases.MAX_COLS, 1)] * 4
    if way == 0:                        # plain cells
        bodies = [[thousands + [(end - 4000, 1)]]]
    elif way == 1:                      # hanging ones and cells
        bodies = [[[(cases.MAX_COLS, 2)] * 4], [[(1, 1)] * (end - 4000)]]
    elif way == 2:                      # one colspan 0 that is resolved to most of it
        bodies = [[thousands + [(end - 4000, 1)], [(0, 1), (1, 1)], [(0, 1)]]]
    elif way == 3:                      # two zeros in a row: 2 * 2100 - 104 = 4096
        bodies = [[[(1000, 1), (1000, 1), (100, 1)], [(0, 1), (0, 1), (102 - over, 1)]]]
    elif way == 4:                      # the long row late, behind many entries
        bodies = [[[(1, 52)] * 100] + [[] for _ in range(50)] + [[(1000, 1)] * 3 + [(end - 3100, 1)]]]
    else:                               # single columns only
        bodies = [[[(1, 1)] * 2000, [(1000, 1)] * 4 + [(end - 4000, 1)]]]
    return sheet(table(bodies))


def five_before_six(dice):
    """Too many entries, and sometimes a later row that is too long."""
    rows = [[(1, cases.MAX_ROWS)] * 100] + [[] for _ in range(dice.between(80, 300))]
    if dice.chance(60):
        rows.append([(cases.MAX_COLS, 1)] * 4)
    return sheet(table([rows]))


def six_or_not(dice):
    """About 8,192 entries, and spans that would run on below the last row."""
    written = dice.pick([79, 79, 80])
    rows = [[(3, written + 1)] + [(2, cases.MAX_ROWS)] * 99] + [[] for _ in range(written - 1)]
    if written == 79:                   # 79 rows of 100: 7,900, and up to 94 cells more
        for _ in range(dice.pick([0, 92, 93, 93, 94])):
            rows[dice.below(written)].append((2, 1))
    return sheet(table([rows]))


def huge_sums(dice):
    """Resolved spans far past every limit."""
    wide = dice.pick([1, 4, 40, 400, 2048])
    zeros = dice.pick([1, 1, 2, 4, 400, 2000])
    return sheet(table([[[(cases.MAX_COLS, 1)] * wide, [(0, 2)] * zeros]]))


def nested(dice):
    """As many tables inside each other as the depth allows; with one more, refusal 2."""
    levels = cases.MAX_NESTED + dice.pick([0, 0, 0, 1])
    lines = []
    for level in range(levels):
        depth = 4 * level
        lines += [node(depth, "table"), node(depth + 1, "body"), node(depth + 2, "row")]
        for _ in range(dice.below(3)):
            lines.append(cell(depth + 3, dice.below(3), 1))
            if depth + 4 <= cases.MAX_DEPTH and dice.chance(60):
                lines.append(node(depth + 4, "text", text=some_text(dice, 9)))
        lines.append(cell(depth + 3, dice.between(0, 2), dice.pick([1, 1, 1, 1, 1, 2])))
        if dice.chance(30) and depth + 4 <= cases.MAX_DEPTH:
            lines.append(node(depth + 4, "text", text=some_text(dice, 9)))
    for depth in range(4 * levels - 1, 2, -4):      # later rows and cells on the way back up
        if dice.chance(30):
            lines.append(cell(depth, 1, 1))
        if dice.chance(30):
            lines.append(node(depth - 1, "row"))
            lines.append(cell(depth, dice.below(3), 1))
    return sheet(lines)


def deepest(dice):
    """Lists inside each other down to the largest depth; with one more, refusal 2."""
    last = cases.MAX_DEPTH + dice.pick([0, 0, 0, 1])
    lines = []
    for depth in range(last):
        kind = dice.pick(["quote", "ul", "dd", "head", "ol", "div", "link", "item"])
        lines.append(node(depth, kind, some_n(dice, kind)))
    return sheet(lines + [node(last, "text", text=some_text(dice, 20))])


def most_tables(dice):
    """1,365 tables under one root, or fewer with cells."""
    lines = [node(0, dice.pick(["div", "ul", "container"]))]
    cells = dice.pick([0, 0, 1, 2, 3])
    while len(lines) + 3 + cells <= cases.MAX_NODES and len(sheet(lines)) < 65000 - 30 * cells:
        lines += [node(1, "table"), node(2, "body"), node(3, "row")]
        lines += [cell(4, dice.pick([1, 1, 2, 0]), dice.pick([0, 1, 1, 1, 1])) for _ in range(cells)]
    if dice.chance(25):                 # the last one cannot be laid out
        lines = lines[:1 + (3 + cells) * dice.between(1, 500)] + table([[[(2, 1), (1, 2)]]], 1)
    return sheet(lines)


def most_columns(dice):
    """4,096 columns from 193 lines: 64 cells 64 wide, moved by 1 to 63 in the rows below."""
    rows = [[(64, 1)] + [(64, 64)] * 63] + [[(i, 1)] for i in range(1, 64)]
    if dice.chance(50):
        rows[0][dice.below(64)] += (some_text(dice, 40),)
        rows[dice.between(1, 63)][0] += (some_text(dice, 40),)
    if dice.chance(20):
        rows.append([(cases.MAX_COLS, 1)] * 4 + [(96 + dice.below(2), 1)])
    return sheet(table([rows]))


def many_cuts(dice):
    """Shares that overflow by much: short columns that are all least, beside long ones."""
    short = dice.between(2, 50)
    word = dice.between(5, 400)
    row = [(1, 1, b"x" * word) for _ in range(short)]
    for _ in range(dice.between(1, 3)):
        row.insert(dice.below(len(row) + 1), (1, 1, b"y" * dice.between(2000, 10000)))
    return sheet(table([[row]]))


def long_list(dice):
    """An ol with thousands of children, about a power of ten."""
    children = dice.between(1, 4095)
    first = min(cases.MAX_OL, 10 ** dice.below(10) - dice.pick([0, 1, children - 1, children]))
    lines = [node(0, "ol", -first if dice.chance(40) else first)]
    return sheet(lines + [node(1, "item")] * children)


def many_rows(dice):
    """Thousands of rows, most of them empty, in one or many bodies."""
    count = dice.between(1000, 4090)
    bodies = [[]]
    for _ in range(count):
        if dice.chance(10) and bodies[-1] and len(bodies) < 4:
            bodies.append([])
        bodies[-1].append([])
    bodies[0][0] = [(1, dice.between(1, 3)), (dice.below(3), dice.between(1, count))]
    lines = table(bodies)
    return sheet(lines[:cases.MAX_NODES])


LIMITS = [large, one_large_table, most_lines, most_bytes, widest_text, many_entries, many_extra_rows,
          longest_row, five_before_six, six_or_not, huge_sums, nested, deepest, most_tables,
          most_columns, many_cuts, long_list, many_rows]


def limits(dice, k):
    made = LIMITS[(k - 1) % len(LIMITS)](dice)
    wrap, raw, width = settings_for_limits(dice)
    if LIMITS[(k - 1) % len(LIMITS)] in (many_cuts, widest_text, one_large_table):
        # a width at which the shares overflow is likely
        raw = 0
        wrap = dice.pick([3, 20, 200, cases.MAX_WRAP])
        width = dice.pick([width, dice.between(1000, 20000), dice.between(100, 2000)])
    return case(made, wrap, raw, width)


# -------------------------------------------------------------------- damaged

NO_NUMBERS = [b"", b"-", b"+", b"+1", b"+0", b"01", b"00", b"007", b"-0", b"-00", b"-01", b"--1", b"1-",
              b"1e3", b"0x1", b"1.0", b"1,000", b"1_0", b"a", b"O", b"\xb2", b"\t1", b"1\t", b"1\r", b"\x001",
              b"1\x00", b"\xef\xbc\x91"]
TOO_DEEP = b"%d" % (cases.MAX_DEPTH + 1)
OUT_OF_RANGE = [b"-1", b"-5", TOO_DEEP, b"%d" % (cases.MAX_DEPTH + 2), b"1001", b"65535", b"65536", b"1000000001", b"-1000000001",
                b"256", b"4294967295", b"4294967296", b"4294967297", b"18446744073709551615",
                b"18446744073709551616", b"18446744073709551617", b"99999999999999999999999",
                b"-99999999999999999999999", b"1" + b"0" * 60]
NO_KINDS = [b"", b"Text", b"TEXT", b"texts", b"tex", b"td", b"tr", b"p", b"table\t", b"\xe9m", b"em\x00", b"body\r",
            b"celll", b"sub", b"img,", b"0", b"-", b"containe", b"containers"]


class Parts:
    """A case taken apart, to be damaged and put together again."""

    def __init__(self, data):
        pieces = data.split(b"\n")
        self.top, self.figures, self.heading = pieces[:3]
        self.lines = pieces[3:-1]
        self.tail = b""             # bytes behind the last line feed
        self.cut = None             # keep so many bytes of the sheet
        self.whole = None           # replaces the case altogether

    def join(self):
        if self.whole is not None:
            return self.whole
        front = self.top + b"\n" + self.figures + b"\n"
        behind = b"".join(line + b"\n" for line in [self.heading] + self.lines) + self.tail
        return front + (behind if self.cut is None else behind[:self.cut])

    def a_line(self, dice):
        return dice.below(len(self.lines)) if self.lines else None

    def set_field(self, dice, field, value, kinds=None):
        """Replaces a field (0 to 5) of a random line, of one of the kinds if given."""
        fit = [i for i, line in enumerate(self.lines)
               if line.count(b" ") >= 5 and (kinds is None or line.split(b" ")[1] in kinds)]
        if fit:
            i = dice.pick(fit)
            fields = self.lines[i].split(b" ", 5)
            fields[field] = value
            self.lines[i] = b" ".join(fields)


def top_line(dice, p):
    p.top = dice.pick([b"", b"wrap raw width ", b"wrap  raw width", b"Wrap raw width", b"wrap raw width\r",
                       b"wrap raw", b"width raw wrap", b" wrap raw width", b"wrap\traw width", p.heading,
                       b"wrap raw width\n", b"\xef\xbb\xbfwrap raw width", b"wrap raw width text"])


def no_setting(dice, p):
    figures = p.figures.split(b" ")
    figures[dice.below(len(figures))] = dice.pick(NO_NUMBERS)
    p.figures = b" ".join(figures)


def setting_out_of_range(dice, p):
    figures = p.figures.split(b" ")
    i = dice.below(len(figures))
    figures[i] = dice.pick(OUT_OF_RANGE + [[b"1001", b"2", b"65536"][i % 3]] * 6 + [[b"1000", b"1", b"65535"][i % 3]] * 3)
    p.figures = b" ".join(figures)


def settings_shape(dice, p):
    p.figures = dice.pick([b"3 0", b"3", b"3 0 9 1", b"3 0 9 ", b" 3 0 9", b"3  0 9", b"3 0  9", b"3\t0 9", b"3 0 9\r",
                           b"3 0 9\n", b"3,0,9", b"", b"3 0 9\x00", b"3 0 9 \n", b"\n3 0 9", p.heading])


def cut_in_front(dice, p):
    """The input ends in the settings or right behind them."""
    front = p.top + b"\n" + p.figures + b"\n"
    p.whole = front[:dice.pick([0, 15, len(front), len(front) - 1, dice.below(len(front) + 1)])]


def heading_line(dice, p):
    p.heading = dice.pick([b"", b"depth kind n cols rows text ", b"depth kind n cols rows", b"depth kind n cols rows ",
                           b"Depth kind n cols rows text", b"depth kind n cols rows text\r", b"depth  kind n cols rows text",
                           b"depth kind n rows cols text", b" depth kind n cols rows text", b"depth kind n cols rows  text",
                           b"depth kind n cols rows Text", b"\ndepth kind n cols rows text", b"depth\tkind n cols rows text",
                           b"\xef\xbb\xbfdepth kind n cols rows text", b"depth kind n cols rows text\x00"])


def heading_missing(dice, p):
    p.heading = p.lines.pop(0) if p.lines else b""


def heading_twice(dice, p):
    p.lines.insert(dice.pick([0, 0, dice.below(len(p.lines) + 1)]), p.heading)


def heading_alone(dice, p):
    p.lines, p.tail = [], b""
    p.cut = dice.pick([None, None, 0, 27, dice.below(28)])


def no_number(dice, p):
    p.set_field(dice, dice.pick([0, 2, 3, 4]), dice.pick(NO_NUMBERS))


def out_of_range(dice, p):
    p.set_field(dice, dice.pick([0, 2, 3, 4]), dice.pick(OUT_OF_RANGE))


def n_of_kind(dice, p):
    choice = dice.below(3)
    if choice == 0:
        p.set_field(dice, 2, dice.pick([b"0", b"7", b"-1", b"6", b"1"]), [b"head"])
    elif choice == 1:
        p.set_field(dice, 2, dice.pick([b"1000000001", b"-1000000001", b"1000000000", b"-1000000000"]), [b"ol"])
    else:
        p.set_field(dice, 2, dice.pick([b"1", b"-1"]))


def spans_of_kind(dice, p):
    choice = dice.below(4)
    if choice == 0:
        p.set_field(dice, 3, dice.pick([b"1001", b"-1", b"1000", b"0"]), [b"cell"])
    elif choice == 1:
        p.set_field(dice, 4, dice.pick([b"65535", b"-1", b"65534", b"0"]), [b"cell"])
    else:
        p.set_field(dice, dice.pick([3, 4]), b"1")


def no_kind(dice, p):
    p.set_field(dice, 1, dice.pick(NO_KINDS))


def other_kind(dice, p):
    """A known kind in another's place: mostly a fault of nesting."""
    p.set_field(dice, 1, dice.pick(cases.KINDS).encode())


def other_depth(dice, p):
    last = cases.MAX_DEPTH
    p.set_field(dice, 0, b"%d" % dice.pick([-1, 0, 1, 2, 3, 4, 5, last - 1, last, last + 1, last + 2, dice.below(last + 7)]))


def separators(dice, p):
    """A space too many, too few or another byte in its place."""
    i = p.a_line(dice)
    if i is not None:
        line = p.lines[i]
        blanks = [j for j, byte in enumerate(line) if byte == 32]
        at = dice.pick(blanks) if blanks else 0
        p.lines[i] = dice.pick([line[:at] + b" " + line[at:], line[:at] + line[at + 1:],
                                line[:at] + b"\t" + line[at + 1:], b" " + line, line + b" ", line.rstrip(b" "),
                                line[:at] + b"\x00" + line[at + 1:], line[:at], line[:at + 1]])


def text_without_right(dice, p):
    """A text on a kind that has none."""
    p.set_field(dice, 5, dice.pick([b" ", b"x", b"\x83", b"\r", b"\x00", b"a b"]),
                [k.encode() for k in cases.KINDS if k not in cases.TEXT_KINDS])


def text_byte(dice, p):
    """A byte above 130 in a text."""
    bad = bytes([dice.pick([131, 132, 160, 200, 255, dice.between(131, 255)])])
    p.set_field(dice, 5, dice.pick([bad, b"a" + bad, bad + b" ", b"  " + bad, b"ab" + bad + b"c\x83"]),
                [b"text", b"img", b"svg"])


def byte_anywhere(dice, p):
    """A byte above 130 somewhere in a line."""
    i = p.a_line(dice)
    if i is not None:
        at = dice.below(len(p.lines[i]) + 1)
        p.lines[i] = p.lines[i][:at] + bytes([dice.between(128, 255)]) + p.lines[i][at + dice.below(2):]


def carriage_return(dice, p):
    if dice.chance(20):
        p.lines = [line + b"\r" for line in p.lines]
    else:
        i = p.a_line(dice)
        if i is not None:
            p.lines[i] += b"\r"


def empty_line(dice, p):
    p.lines.insert(dice.below(len(p.lines) + 1), dice.pick([b"", b"", b" ", b"     "]))


def last_feed_missing(dice, p):
    if p.lines:
        p.tail = p.lines.pop()


def stray_tail(dice, p):
    p.tail = dice.pick([b"x", b" ", b"\r", b"\x00", b"\xff", b"0 text 0 0 0 a", b"1 em 0 0 0 ", TOO_DEEP + b" em 0 0 0 "])


def cut_anywhere(dice, p):
    length = len(p.join())
    p.cut = dice.below(length + 1)


def line_lost(dice, p):
    if p.lines:
        p.lines.pop(dice.pick([0, p.a_line(dice)]))


def line_twice(dice, p):
    i = p.a_line(dice)
    if i is not None:
        p.lines.insert(dice.pick([i, dice.below(len(p.lines) + 1)]), p.lines[i])


def lines_swapped(dice, p):
    if p.lines:
        i, j = p.a_line(dice), p.a_line(dice)
        p.lines[i], p.lines[j] = p.lines[j], p.lines[i]


def left_empty(dice, p):
    """A table or body without children, somewhere or at the end."""
    i = p.a_line(dice)
    if i is None:
        return
    depth = p.lines[i].split(b" ")[0]
    depth = int(depth) if depth.isdigit() and len(depth) < 3 else 1
    choice = dice.below(4)
    if choice == 0:
        p.lines.insert(i, node(depth, "table")[:-1])
    elif choice == 1:
        p.lines[i:i] = [node(depth, "table")[:-1], node(depth + 1, "body")[:-1]]
    elif choice == 2:
        p.lines = [line for line in p.lines if line.split(b" ")[1:2] != [b"row"]]
    else:
        bodies = [j for j, line in enumerate(p.lines) if line.split(b" ")[1:2] == [b"body"]]
        if bodies:
            j = dice.pick(bodies)
            p.lines.insert(dice.pick([j, len(p.lines)]), p.lines[j])


def empty_then_fault(dice, p):
    left_empty(dice, p)
    dice.pick([text_byte, no_number, other_depth, other_kind])(dice, p)


def bytes_flipped(dice, p):
    data = bytearray(p.join())
    for _ in range(dice.between(1, 3)):
        if data:
            data[dice.below(len(data))] ^= 1 << dice.below(8)
    p.whole = bytes(data)


def bytes_set(dice, p):
    data = bytearray(p.join())
    for _ in range(dice.between(1, 3)):
        if data:
            data[dice.below(len(data))] = dice.pick([0, 9, 10, 13, 32, 43, 45, 48, 49, 57, 127, 130, 131, 255])
    p.whole = bytes(data)


def bytes_in_or_out(dice, p):
    data = p.join()
    for _ in range(dice.between(1, 2)):
        at = dice.below(len(data) + 1)
        if dice.chance(50):
            data = data[:at] + bytes([dice.pick([0, 10, 10, 13, 32, 32, 48, 49, 120, 131])]) + data[at:]
        else:
            data = data[:at] + data[at + dice.pick([1, 1, 2, 5, 20]):]
    p.whole = data


def noise(dice, p):
    """Random bytes in place of the sheet, the lines, or all."""
    junk = bytes(dice.below(256) for _ in range(dice.below(60)))
    choice = dice.below(3)
    if choice == 0:
        p.whole = junk
    elif choice == 1:
        p.heading, p.lines = junk, []
    else:
        p.lines = junk.split(b"\n")


def past_a_limit(dice, p):
    """Sheets too long, with other faults beside that; rare, because they are large."""
    if not dice.chance(12):
        return bytes_flipped(dice, p)
    choice = dice.below(6)
    if choice == 0:                 # too many bytes, whatever they are
        p.tail = b"x" * (cases.MAX_BYTES + dice.below(3) - len(p.join()) + len(p.top) + len(p.figures) + 2)
    elif choice == 1:               # too many line feeds
        p.tail = b"\n" * (4097 + dice.below(3) - len(p.lines) - 1)
    elif choice == 2:               # a very long number
        p.set_field(dice, dice.pick([0, 2, 3, 4]), b"1" * dice.pick([5000, 30000]))
    elif choice == 3:               # the same in the settings
        p.figures = b"3 0 " + b"9" * dice.pick([5000, 70000])
    elif choice == 4:               # both headings wrong and too long
        p.heading = b"x" * (cases.MAX_BYTES + 5)
    else:                           # 4,096 lines and a piece
        p.lines = [b"0 em 0 0 0 "] + [b"1 em 0 0 0 "] * 4095
        p.tail = dice.pick([b"", b"x", b"\n", b"1 em 0 0 0 ", b"1 em 0 0 0 \n"])


DAMAGES = [top_line, no_setting, setting_out_of_range, settings_shape, cut_in_front, heading_line, heading_missing,
           heading_twice, heading_alone, no_number, out_of_range, n_of_kind, spans_of_kind, no_kind, other_kind,
           other_depth, separators, text_without_right, text_byte, byte_anywhere, carriage_return, empty_line,
           last_feed_missing, stray_tail, cut_anywhere, line_lost, line_twice, lines_swapped, left_empty,
           empty_then_fault, bytes_flipped, bytes_set, bytes_in_or_out, noise, past_a_limit,
           # those about lines once more, so that settings do not hide them
           no_number, out_of_range, other_kind, other_kind, other_depth, other_depth, separators, text_byte,
           line_lost, line_twice, lines_swapped, left_empty, empty_then_fault]


def damaged(dice, k):
    grower = Grower(dice, dice.between(1, 25), 8)
    if dice.chance(70):
        grower.a_table(0)
    else:
        grower.any_node(0, 20)
    parts = Parts(case(sheet(grower.lines), *some_settings(dice)))
    again = dice.pick([0, 0, 1, 2])
    for damage in [DAMAGES[(k - 1) % len(DAMAGES)]] + [dice.pick(DAMAGES[9:]) for _ in range(again)]:
        damage(dice, parts)
    return parts.join()


# ---------------------------------------------------------------------- sums

def some_number(dice):
    digits = dice.pick([1, 1, 1, 2, 2, 3, 4, 6, 9])
    return b"".join(b"%d" % dice.below(10) for _ in range(digits))


def some_sum(dice, deep):
    """An expression: mostly one that has a value."""
    parts = [some_number(dice) if deep == 0 or dice.chance(60) else b"(" + some_sum(dice, deep - 1) + b")"]
    for _ in range(dice.pick([0, 1, 1, 2, 3])):
        parts.append(dice.pick([b"+", b"-", b"*", b"/"]))
        parts.append(some_number(dice) if deep == 0 or dice.chance(70) else b"(" + some_sum(dice, deep - 1) + b")")
    return b"".join(parts)


def broken_sum(dice):
    text = some_sum(dice, 2)
    at = dice.below(len(text) + 1)
    return dice.pick([
        b"", b" ", b"1 ", b"+1", b"-1", b"1+", b"()", b"(1", b"1)", b"2*-3", b"1.5", b"1/0", b"1/0+", b"0*(1/0)", b"7/(2-2)",
        b"1234567890", b"0000000001", b"1000000*1000000", b"1000000*1000000+1", b"0-1000000*1000000", b"0-1000000*1000000-1",
        b"(" * 32 + b"1" + b")" * 32, b"(" * 33 + b"1" + b")" * 33, b"999999999*999999999",
        text[:at] + dice.pick([b"(", b")", b"+", b"/", b" ", b"x", b"\r", b"0"]) + text[at:], text[:at] + text[at + 1:]])


def totals(dice):
    """A small sheet, some of whose texts are sums."""
    lines = small(dice).split(b"\n")
    for i in range(2, len(lines)):
        parts = lines[i].split(b" ", 5)
        if len(parts) == 6 and parts[1] in (b"text", b"img", b"svg", b"break", b"frag") and dice.chance(50):
            text = some_sum(dice, dice.pick([0, 1, 2, 3])) if dice.chance(93) else broken_sum(dice)
            lines[i] = parts[0] + b" calc 0 0 0 " + text
    return b"\n".join(lines)


# ----------------------------------------------------------------------- main

# ------------------------------------------------------------ tables in tables

def nest(dice, depth, levels):
    """Lines of one node at a depth, with at most so many tables inside each other."""
    way = dice.below(9)
    if depth == cases.MAX_DEPTH or (way >= 7 and depth > 0):
        return [node(depth, "text", text=b"abcdefghijklm"[:dice.pick([0, 1, 2, 3, 3, 5, 9, 13])])]
    if levels > 0 and way < 4 and depth + 4 <= cases.MAX_DEPTH:
        rows = []
        for _ in range(dice.pick([1, 1, 2])):
            rows.append([(dice.pick([1, 1, 1, 2, 3]), dice.pick([1, 1, 2, 0]), lambda d: nest(dice, d, levels - 1) if dice.chance(85) else [])
                         for _ in range(dice.between(1, 3))])
        return table([rows], depth)
    kind = dice.pick(["quote", "quote", "ul", "ol", "head", "dd", "div", "container", "em", "item"])
    lines = [node(depth, kind, some_n(dice, kind))]
    for _ in range(dice.pick([0, 1, 1, 1, 2])):
        lines += nest(dice, depth + 1, levels)
    return lines


def walks(dice):
    lines = []
    while not 2 <= len(lines) <= 400:
        lines = nest(dice, 0, dice.between(1, cases.MAX_NESTED))
    width = dice.pick([dice.between(0, 12), dice.between(5, 40), dice.between(20, 130)])
    return case(sheet(lines), dice.pick([0, 1, 1, 2, 3, 3, 5]), 1 if dice.chance(8) else 0, width)


MAKERS = {"small": lambda dice, k: small(dice), "limits": limits, "damaged": damaged,
          "texts": lambda dice, k: texts(dice), "measures": lambda dice, k: one_text(dice), "totals": lambda dice, k: totals(dice),
          "walks": lambda dice, k: walks(dice)}


def make(kind, seed, k):
    """Case k (from 1) of a kind and seed: a frame as cases.read_frames gives it."""
    dice = Dice(sorted(MAKERS).index(kind), seed, k)
    made = MAKERS[kind](dice, k)
    return made if kind == "measures" else (made,)


def main():
    if len(sys.argv) not in (4, 5) or sys.argv[1] not in MAKERS:
        raise SystemExit(__doc__)
    kind, seed, count = sys.argv[1], int(sys.argv[2]), int(sys.argv[3])
    first = int(sys.argv[4]) if len(sys.argv) == 5 else 1
    out = sys.stdout.buffer
    for k in range(first, first + count):
        frame = make(kind, seed, k)
        if len(frame) == 1:
            cases.write_frame(out, frame[0])
        else:
            cases.write_text(out, *frame)


if __name__ == "__main__":
    main()
