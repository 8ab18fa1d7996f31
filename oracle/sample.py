#!/usr/bin/env python3
"""The fixed sample: about 300 cases, most of them a few lines long.

    sample.py > FRAMES      the cases, framed
    sample.py --names       the number and name of each

Every kind, every refusal that a program can answer, every rule of docs/FORMAT.md
with small figures, its limits where a case of some kilobytes reaches them, and
at the end some generated cases. The names say what each case is there for.
"""

import sys

import cases
import generate
from cases import HEADING, SETTINGS, case, cell, node, sheet, table

ALPHABET = b"abcdefghijklmnopqrstuvwxyz" * 16


def letters(k):
    return ALPHABET[:k]


def under(kind, *contents, n=0):
    """Content of a cell: a node of a kind with texts under it."""
    return lambda d: [node(d, kind, n)] + [node(d + 1, "text", text=t) for t in contents]


def several(text, count):
    """Content of a cell: the same text in several nodes."""
    return lambda d: [node(d, "text", text=text)] * count


def one_body(rows, **settings):
    return case(sheet(table([rows])), **settings)


def lines(*raw, **settings):
    """A case from bare lines; a missing rest of the fields is filled up with zeros."""
    full = []
    for line in raw:
        words = line.split(" ")
        full.append(" ".join((words + ["0"] * 5)[:max(5, len(words))]) + " \n")
    return case(sheet([line.encode() for line in full]), **settings)


def raw(*pieces, **settings):
    """A case whose sheet has these bytes behind the heading."""
    return case(HEADING + b"".join(pieces), **settings)


# ------------------------------------------------------------ docs/FORMAT.md's own

def of_the_paper():
    yield "the example of the program", one_body([[(1, 1, b"abcdefghij"), (1, 1, b"ab")]], width=9)
    root = node(0, "container")
    yield "texts of the cases", case(sheet([root] + [node(1, "text", text=t) for t in (b" a  b ", b"   ")]
                                           + [node(1, "img"), node(1, "ol")]))
    yield "colspan 0 beside a row of sum 6", one_body([[(1, 1), (0, 1), (2, 1)], [(6, 1)]])
    yield "a span below the last row at no edge", one_body([[(2, 1), (1, 2)]])
    yield "a span below the last row at an edge", one_body([[(1, 2), (2, 1)]])
    yield "columns merged by edges", one_body([[(3, 1)], [(1, 1), (2, 1)]])
    yield "(10,3),(2,2) at 9", one_body([[(1, 1, letters(10)), (1, 1, letters(2))]], width=9)
    yield "(10,3),(10,3) at 20", one_body([[(1, 1, letters(10)), (1, 1, letters(10))]], width=20)
    twelve = [[(1, 1, letters(10)), (1, 1, under("link", letters(7)))]]
    yield "(10,3),(12,5) at 22", one_body(twelve, width=22)
    for width in (7, 6):
        yield "(3,3),(3,3) at %d" % width, one_body([[(1, 1, b"abc"), (1, 1, b"def")]], width=width)
    wide = [[(2, 1, several(b"a", 8))], [(1, 1), (1, 1, letters(400))]]
    yield "(4,0),(400,3) at 80", one_body(wide, width=80)
    yield "a cell over widths 0 and 5", one_body([[(2, 1)], [(1, 1), (1, 1, b"abcde")]], width=20)
    survey = [[[(1, 3, b"Room"), (0, 1, b"damp survey 2024")],
               [(1, 1, b"north wall"), (2, 1, lambda d: [node(d, "ul"), node(d + 1, "item"),
                                                         node(d + 2, "text", text=b" wet")])]],
              [[(2, 2, under("link", b"see"))]]]
    for width in (12, 13, 14, 23, 40):
        yield "the survey at %d" % width, case(sheet(table(survey)), width=width)


# --------------------------------------------------------------------- reading

def fields():
    yield "a text begins right after one space", raw(b"0 text 0 0 0  ab\n")
    yield "a blank as text where none may be", raw(b"0 table 0 0 0  \n")
    yield "no space after rows", raw(b"0 table 0 0 0\n")
    yield "a text of spaces, tabs and returns", raw(b"0 text 0 0 0 \t\r \x0b\x0c\n")
    yield "a byte 131 is judged before nesting", raw(b"5 text 0 0 0 \x83\n")
    too_deep = cases.MAX_DEPTH + 1
    yield "a depth of %d is judged before a byte" % too_deep, raw(b"%d text 0 0 0 \x83\n" % too_deep)
    yield "a missing line feed is judged before a byte", raw(b"0 text 0 0 0 \x83")
    yield "a bad byte where no text may be", raw(b"0 div 0 0 0 \x83\n")
    yield "a bad byte in a kind", raw(b"0 d\xe9v 0 0 0 \n")
    for byte in (131, 160, 255):
        yield "byte %d in a text" % byte, raw(b"0 div 0 0 0 \n1 text 0 0 0 ab%c\n" % byte)
    yield "byte 131 in img", raw(b"0 img 0 0 0 \x83\n")
    yield "byte 131 in svg", raw(b"0 svg 0 0 0 \x82\x83\n")
    for number in ("", "-", "+1", "01", "00", "-0", "1e3", "0x0", "-5", "99999999999999999999999", "4294967296",
                   "18446744073709551616", str(too_deep), "-1"):
        yield "depth written %s" % number, raw(number.encode() + b" div 0 0 0 \n")
    for number in ("", "-0", "01", "+0", "1", "-1", "18446744073709551616"):
        yield "n written %s" % number, raw(b"0 div " + number.encode() + b" 0 0 \n")
    for n in (0, 1, 6, 7, -1):
        yield "head %d" % n, raw(b"0 head %d 0 0 \n" % n)
    for n in (10 ** 9, 10 ** 9 + 1, -10 ** 9, -10 ** 9 - 1):
        yield "ol %d" % n, raw(b"0 ol %d 0 0 \n" % n)
    for cols in (1000, 1001, -1):
        yield "cell of %d columns" % cols, one_body([[(cols, 1)]])
    for rows in (0, 65534, 65535, -1):
        yield "cell of %d rows" % rows, one_body([[(1, rows)]])
    yield "columns on a row", raw(b"0 table 0 0 0 \n1 body 0 0 0 \n2 row 0 1 0 \n")
    yield "rows on a text", raw(b"0 text 0 0 1 a\n")
    for kind in ("", "Text", "texts", "td", "tex"):
        yield "kind %s" % kind, raw(b"0 " + kind.encode() + b" 0 0 0 \n")
    yield "two spaces", raw(b"0 div  0 0 0 \n")
    yield "a leading space", raw(b" 0 div 0 0 0 \n")
    yield "a tab between fields", raw(b"0\tdiv 0 0 0 \n")
    yield "four fields", raw(b"0 div 0 0 \n")
    yield "a carriage return before the line feed", raw(b"0 div 0 0 0 \r\n")
    yield "a carriage return at a text's end", raw(b"0 text 0 0 0 a\r\n")
    yield "an empty line", raw(b"0 div 0 0 0 \n\n")
    yield "a stray byte behind the last line feed", raw(b"0 div 0 0 0 \nx")
    yield "the last line feed missing", raw(b"0 div 0 0 0 \n1 em 0 0 0 ")
    yield "zero bytes in a text", raw(b"0 text 0 0 0 a\x00b\x00\n")


def headings():
    yield "nothing behind the settings", case(b"")
    yield "the heading alone", case(HEADING)
    yield "the heading without line feed", case(HEADING[:-1])
    good = node(0, "text", text=b"a")
    for name, heading in (("with a return", b"depth kind n cols rows text\r\n"), ("in capitals", b"DEPTH kind n cols rows text\n"),
                          ("with a space behind", b"depth kind n cols rows text \n"), ("short", b"depth kind n cols rows \n"),
                          ("with two spaces", b"depth kind n cols rows  text\n"), ("missing", b""), ("as an empty line", b"\n"),
                          ("behind an empty line", b"\n" + HEADING)):
        yield "the heading " + name, case(heading + good)
    yield "the heading twice", case(HEADING + HEADING + good)


def settings():
    good = HEADING + node(0, "text", text=b"abcd")
    yield "the least settings", case(good, wrap=0, raw=0, width=0)
    yield "the greatest settings", case(good, wrap=1000, raw=1, width=65535)
    for figures in ("1001 0 9", "3 2 9", "3 0 65536", "-1 0 9", "3 -1 9", "3 0 -1", "03 0 9", "3 00 9", "3 0 +9", "3 -0 9", "3 0",
                    "3 0 9 1", "3 0 9 ", " 3 0 9", "3  0 9", "3\t0 9", "3 0 9\r", "", "3 0 ", "a 0 9", "4294967299 0 9",
                    "3 4294967296 9", "3 0 18446744073709551625"):
        yield "settings %r" % figures, SETTINGS + figures.encode() + b"\n" + good
    yield "settings without line feed", SETTINGS + b"3 0 9"
    yield "settings heading alone", SETTINGS
    yield "no input", b""
    for name, top in (("missing", b""), ("with a return", b"wrap raw width\r\n"), ("in another order", b"raw wrap width\n"),
                      ("with a space behind", b"wrap raw width \n")):
        yield "settings heading " + name, top + b"3 0 9\n" + good
    yield "settings are judged before the sheet", SETTINGS + b"3 0 65536\nx"


def nesting():
    yield "line 1 at depth 1", lines("1 div")
    yield "line 2 at depth 0", lines("0 div", "0 div")
    yield "a jump in depth", lines("0 div", "2 em")
    for kind in ("body", "row", "cell"):
        yield "%s on line 1" % kind, lines("0 " + kind)
        yield "%s under div" % kind, lines("0 div", "1 " + kind)
    for kind in cases.LEAF_KINDS:
        yield "a child of %s" % kind, lines("0 " + kind, "1 em")
    yield "a text in a table", lines("0 table", "1 text")
    yield "a row in a table", lines("0 table", "1 row")
    yield "a cell in a body", lines("0 table", "1 body", "2 cell")
    yield "a div in a body", lines("0 table", "1 body", "2 div")
    yield "a table in a row", lines("0 table", "1 body", "2 row", "3 table")
    yield "a row in a row", lines("0 table", "1 body", "2 row", "3 row")
    yield "an empty table and a later bad byte", raw(b"0 div 0 0 0 \n1 table 0 0 0 \n1 text 0 0 0 \x83\n")
    yield "an empty table and a good text", raw(b"0 div 0 0 0 \n1 table 0 0 0 \n1 text 0 0 0 a\n")
    yield "an empty table at the end", lines("0 table")
    yield "an empty body before a sound one", lines("0 table", "1 body", "1 body", "2 row")
    yield "an empty body after a sound one", lines("0 table", "1 body", "2 row", "1 body")
    yield "the first of two empty ones", lines("0 div", "1 table", "2 body", "1 table")
    yield "an empty row", lines("0 table", "1 body", "2 row")
    last = cases.MAX_DEPTH
    chain = [node(d, "div") for d in range(last + 1)]
    yield "depth %d" % last, case(sheet(chain[:-1] + [node(last, "text", text=b"deep")]))
    yield "depth %d" % (last + 1), case(sheet(chain + [node(last + 1, "text", text=b"deep")]))
    yield "a table with its row at depth %d" % last, case(sheet(chain[:last - 2] + table([[[]]], last - 2)))
    inner = b"deep"
    for depth in range(4 * cases.MAX_NESTED - 4, -1, -4):
        inner = table([[[(1, 1), (2, 1, inner)]]], depth)
    yield "six tables inside each other", case(sheet(inner), width=70)


# ------------------------------------------------------------------- estimates

def estimates():
    root = node(0, "container")
    every = [b"%c" % b for b in range(131) if b != 10]
    yield "each text byte alone", case(sheet([root] + [node(1, "text", text=t) for t in every]))
    yield "each text byte between letters", case(sheet([root] + [node(1, "text", text=b"a" + t + b"b") for t in every]))
    yield "each text byte first and last", case(sheet([root] + [node(1, "svg", text=t + b"ab" + t) for t in every]))
    spaced = [b"", b" ", b"a", b"a ", b" a", b" a ", b"  a  b  ", b"a\r", b"\ta", b"a \t\r b", b" \x01", b"\x01 \x01",
              b"a \x01 b", b" \x80 ", b"\x80", b"\x82\x82", b"\x81", b" x ", b"a\x00b", b"  \x80a", b"abcdefghij"]
    for wrap in (0, 1, 3, 1000):
        yield "texts, wrap %d" % wrap, case(sheet([root] + [node(1, kind, text=t) for t in spaced
                                                              for kind in ("text", "img")]), wrap=wrap)
    holders = [node(1, k, 1 if k == "head" else 0) for k in cases.HOLDER_KINDS]
    yield "each kind without children", case(sheet([root] + holders + [node(1, "break"), node(1, "frag")]))
    for wrap in (0, 3):
        full = []
        for k in cases.HOLDER_KINDS:
            full += [node(1, k, 6 if k == "head" else 0), node(2, "text", text=b"abcdef"), node(2, "break"),
                     node(2, "img", text=b" x"), node(2, "frag")]
        yield "each kind with children, wrap %d" % wrap, case(sheet([root] + full), wrap=wrap)
    past = [node(1, "link"), node(1, "break"), node(1, "head", 6), node(2, "text", text=b"abcdef")]
    for wrap in (0, 3):
        yield "leasts above wrap %d" % wrap, case(sheet([root] + past), wrap=wrap)
    for kind in cases.LEAF_KINDS + ["container", "link", "ol", "sup"]:
        yield "%s as line 1" % kind, case(sheet([node(0, kind)]))
    yield "heads 1 to 6", case(sheet([root] + [node(1, "head", n) for n in range(1, 7)]))
    firsts = [(0, 0), (0, 1), (9, 1), (9, 2), (-1, 3), (-9, 10), (-10, 1), (1, 0), (-10 ** 9, 0), (10 ** 9, 2), (99, 2), (99, 1),
              (100, 0), (-99, 0), (-100, 2), (999999999, 1), (999999999, 2), (10, 0), (1000, 0), (10000, 0), (100000, 0),
              (1000000, 0), (10000000, 0), (100000000, 0), (10 ** 9, 0), (99999, 1), (99999, 2), (-1, 1), (-1, 2)]
    numbered = []
    for n, count in firsts:
        numbered += [node(1, "ol", n)] + [node(2, "item")] * count
    yield "numbered lists", case(sheet([root] + numbered))
    yield "grandchildren of a numbered list", lines("0 ol 9", "1 item", "2 em", "2 em", "2 em")
    yield "a numbered list of other kinds", lines("0 ol 9", "1 break", "1 frag")
    yield "the prefix is the node's own", case(sheet([node(0, "div"), node(1, "ul"), node(2, "text", text=b"abc")]))
    yield "lists inside lists", case(sheet([node(0, "ul"), node(1, "ol", 8), node(2, "quote"), node(3, "dd"), node(4, "head", 3),
                                            node(5, "text", text=b"abcdef"), node(1, "item"), node(1, "item")]))
    for width in (5, 80):
        yield "a table estimate sums over rows, at %d" % width, one_body([[(1, 1, b"abcd")], [(1, 1, b"abcdef")]], width=width)
    yield "division by the span in edges, one column", one_body([[(3, 1, letters(9))], [(3, 1)]])
    yield "division by the span in edges, two columns", one_body([[(3, 1, letters(9))], [(1, 1), (2, 1)]])
    yield "three empty cells", one_body([[(1, 1)] * 3])
    inner = table([[[(1, 1, letters(7)), (1, 1, letters(3))], [(2, 1, letters(9))]]], 4)
    yield "a table in a cell", one_body([[(1, 1, inner), (1, 1, b"outside")]], width=16)
    yield "a table in a cell, wrap 0", one_body([[(1, 1, inner), (1, 1, b"outside")]], wrap=0, width=4)
    yield "a table in a list in a cell", one_body([[(1, 1, [node(4, "ul"), node(5, "item")] + table([[[(1, 1, letters(4))] * 2]], 6))]])
    empty = table([[[]]], 1)
    yield "a table without columns in a div", case(sheet([node(0, "div")] + empty + [node(1, "text", text=b"ab")]))


# ------------------------------------------------------------------------ grid

def grids():
    yield "fillers are packed, not under their owner", one_body([[(2, 1), (1, 2)], [(1, 1)]])
    yield "a hanging position is kept, not moved", one_body([[(3, 1), (1, 3)], [(1, 1)], [(1, 1)] * 4])
    yield "a filler's span differs from its owner's", one_body([[(1, 1), (2, 2)], [(3, 1)], [(1, 1)] * 3])
    yield "hanging ones in the order of the row", one_body([[(1, 1), (2, 3)], [(1, 2)], []])
    yield "a span crosses bodies", case(sheet(table([[[(1, 2)]], [[(1, 1)]]])))
    yield "spans below the last row", one_body([[(1, 65534), (1, 3)]])
    yield "an edge from an earlier row", one_body([[(1, 1), (1, 1)], [(2, 1), (1, 2)]])
    yield "two colspans 0 in a row", one_body([[(0, 1), (0, 1)], [(6, 1)]])
    yield "the maximum is per body", case(sheet(table([[[(0, 1)]], [[(5, 1)]]])))
    yield "fillers do not count for colspan 0", one_body([[(2, 2)], [(0, 1)]])
    yield "colspan 0 with an empty row", one_body([[], [(0, 1)]])
    yield "colspan 0 hanging", one_body([[(0, 2), (1, 1)], [(4, 1)], [(0, 1)]])
    yield "rows 0 runs to the last row", one_body([[(1, 0), (1, 1)], [(1, 0)]])
    yield "empty rows under a hanging cell", one_body([[(1, 3), (2, 2)], [], []])
    yield "empty rows before and between", one_body([[], [(1, 1)], [], [(1, 2)], []])
    yield "only empty rows", case(sheet(table([[[], []], [[]]])))
    yield "only empty rows, raw", case(sheet(table([[[], []], [[]]])), raw=1, width=33)
    yield "only empty rows, width 0", case(sheet(table([[[]]])), width=0)
    yield "a hanging one met in the middle", one_body([[(1, 1), (1, 2), (1, 1)], [(1, 1), (1, 1)]])
    yield "a cell jumps over a hanging position", one_body([[(1, 1), (1, 2)], [(3, 1), (1, 1)]])
    yield "two hanging ones before one cell", one_body([[(1, 2), (1, 2), (1, 1)], [(1, 1)]])
    yield "a cell hangs from behind a filler", one_body([[(1, 2), (1, 1)], [(1, 2)], [(1, 1)]])
    yield "three spans below the last row", one_body([[(1, 4), (1, 2), (1, 3)]])
    yield "a span of two below the last row", one_body([[(1, 2), (3, 1), (2, 2)]])
    yield "two spans below the last row", one_body([[(3, 2), (2, 3)]])
    yield "the outer table is judged first", one_body([[(2, 1, table([[[(1000, 1)] * 5]], 4)), (1, 2)]])
    yield "the inner table is too long", one_body([[(1, 1, table([[[(1000, 1)] * 5]], 4)), (1, 2)]])
    yield "the second of two tables fails", case(sheet([node(0, "div")] + table([[[(1, 1)]]], 1) + table([[[(2, 1), (1, 2)]]], 1)))
    thousands = [(1000, 1)] * 4
    yield "a row ends at 4,096", one_body([thousands + [(96, 1)]])
    yield "a row ends at 4,097", one_body([thousands + [(97, 1)]])
    yield "hanging ones end a row at 4,096", one_body([[(1000, 2)] * 4, [(96, 1)]])
    yield "hanging ones end a row at 4,097", one_body([[(1000, 2)] * 4, [(97, 1)]])
    yield "colspan 0 ends a row at 4,096", one_body([thousands + [(96, 1)], [(0, 1)]])
    yield "two colspans 0 end a row at 4,097", one_body([[(1000, 1), (1000, 1), (100, 1)], [(0, 1), (0, 1), (101, 1)]])
    many = [[(1, 65534)] * 100] + [[] for _ in range(90)]
    yield "too many entries", one_body(many)
    yield "a late row that is too long beats too many entries", one_body(many + [thousands])
    yield "127 spans below the last row", one_body([[(1, r) for r in range(2, 129)]])
    yield "8,193 entries", one_body([[(1, 64)] * 128] + [[] for _ in range(62)] + [[(1, 1)]])
    yield "128 cells of rows 0 through 65 rows", one_body([[(1, 0)] * 128] + [[] for _ in range(64)])


# ------------------------------------------------- shares, cutting, placement

def widths():
    yield "all is cut from one column", one_body([[(1, 1, letters(30)), (1, 1, under("head", b"x", b"y", n=6)),
                                                   (1, 1, under("head", b"x", b"y", n=6))]], wrap=2, width=30)
    over = [[(2, 1, b"a")], [(1, 1), (1, 1)]]
    for width in (1, 80):
        yield "missing although not empty, at %d" % width, one_body(over, width=width)
    gap = [[(1, 1, b"ab"), (1, 1), (1, 1, b"cd")]]
    for width in (5, 6):
        yield "a missing cell between two, at %d" % width, one_body(gap, width=width)
    yield "ten empty cells at 5", one_body([[(1, 1)] * 10], width=5)
    yield "two empty cells at 5", one_body([[(1, 1)] * 2], width=5)
    link = [[(2, 1, under("link"))], [(1, 1), (1, 1)]]
    for width in (5, 4):
        yield "a least divided over two columns, at %d" % width, one_body(link, width=width)
    for width in (4, 0):
        yield "down, spans 1 and 2, at %d" % width, one_body([[(1, 1, b"abcdef"), (2, 1)], [(1, 1)] * 3], raw=1, width=width)
    yield "down, spans 2 and 1", one_body([[(2, 1, b"abcdef"), (1, 1)], [(1, 1)] * 3], raw=1, width=4)
    yield "down, fillers", one_body([[(1, 3), (2, 1)], [(1, 1)]], raw=1, width=7)
    yield "down because the leasts do not fit", one_body([[(1, 1, letters(9))] * 4], width=14)
    yield "sideways because the leasts just fit", one_body([[(1, 1, letters(9))] * 4], width=15)
    capped = [[(1, 1, letters(20)), (1, 1, under("link")), (1, 1, under("link"))]]
    yield "shares between least and size", one_body(capped, width=15)
    for width in (16, 20, 31, 32, 33):
        yield "shares between least and size, at %d" % width, one_body(capped, width=width)
    ties = [[(1, 1, letters(8)), (1, 1, letters(8)), (1, 1, letters(8))]]
    for width in (24, 25, 26, 12, 11, 10):
        yield "three equal columns at %d" % width, one_body(ties, width=width)
    mixed = [[(1, 1, letters(12)), (1, 1, under("ul", letters(9))), (1, 1, under("link", letters(4))), (1, 1, several(b"x", 10))]]
    for width in (17, 20, 29, 44):
        yield "four kinds of least at %d" % width, one_body(mixed, width=width)
    yield "a filler has no size", one_body([[(1, 2, letters(5)), (1, 1, letters(5))], [(1, 1, letters(9))]], width=18)
    yield "a span below the only row", one_body([[(1, 1, b"ab"), (1, 1, b"cd"), (1, 2, b"ef")]], width=30)
    yield "wrap 1000", one_body([[(1, 1, letters(12)), (1, 1, letters(7))]], wrap=1000, width=20)
    yield "wrap 0", one_body([[(1, 1, letters(12)), (1, 1, letters(7))]], wrap=0, width=1)
    two = table([[[(1, 1, b"one"), (1, 1, b"two")]]], 1)
    yield "two tables at one width", case(sheet([node(0, "div")] + two + two), width=6)
    yield "a table as a child of each list", case(sheet([node(0, "ul")] + two + [node(1, "quote")] + table([[[(1, 1, b"ab")]]], 2)), width=3)
    remark = [[(1, 1, letters(60))] + [(1, 1)] * 5, [(1, 1), (5, 1, several(b"a", 9))]]
    for width in (5, 12, 40, 80):
        yield "a remark over five emptied columns at %d" % width, one_body(remark, wrap=3, width=width)


# ---------------------------------------------------------------------- limits

def limits():
    long_list = [node(0, "ol", 10 ** 9)] + [node(1, "em")] * 4095
    yield "4,096 node lines, a long numbered list", case(sheet(long_list))
    yield "4,097 node lines", case(sheet(long_list + [node(1, "em")]))
    yield "4,096 node lines and a stray byte", case(sheet([node(0, "em")] + [node(1, "em")] * 4095) + b"x")
    front = table([[[(1, 1, b"ab"), (1, 1)]]])
    space = cases.MAX_BYTES - len(sheet(front)) - len(node(4, "text"))
    wide = sheet(front + [node(4, "text", text=b"\x82" * space)])
    yield "65,536 bytes, sizes past 32 bits times the width", case(wide, width=65535)
    yield "65,537 bytes with a wrong heading", case(b"x" * 65537)
    sums = [[(1000, 1)] * 2048, [(0, 1)] * 2044]
    yield "a resolved sum just below 2^32", one_body(sums)
    shifted = [[(64, 1)] + [(64, 64)] * 63] + [[(i, 1)] for i in range(1, 64)]
    yield "4,096 columns from 193 lines", one_body(shifted, width=5000)
    yield "8,192 entries", one_body([[(1, 64)] * 128] + [[] for _ in range(63)], width=200)
    yield "20 spans below the only row", one_body([[(1, r) for r in range(2, 22)]], width=19)


def generated(total, already):
    """Small and damaged cases to fill up the sample."""
    for k in range(1, total - already + 1):
        kind = "damaged" if k % 5 == 0 else "texts" if k % 20 == 1 else "small"
        yield "generated: %s 2024 1 %d" % (kind, k), generate.make(kind, 2024, k)[0]


def every_case():
    found = [named for part in (of_the_paper, fields, headings, settings, nesting, estimates, grids, widths, limits)
             for named in part()]
    return found + list(generated(320, len(found)))


def main():
    if sys.argv[1:] == ["--names"]:
        for k, (name, _) in enumerate(every_case(), 1):
            print(k, name)
    elif not sys.argv[1:]:
        for _, data in every_case():
            cases.write_frame(sys.stdout.buffer, data)
    else:
        raise SystemExit(__doc__)


if __name__ == "__main__":
    main()
