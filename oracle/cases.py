"""Building blocks for cases: node lines, sheets, settings, and the frames
around them.

A case is what the program `layout` reads: the two settings lines and a sheet.
In a stream it is framed by a line `case LENGTH` in front of it; a single text
for the measure is framed by `text LENGTH WRAP IMG`.
"""

SETTINGS = b"wrap raw width\n"
HEADING = b"depth kind n cols rows text\n"

MAX_BYTES = 65536       # of a sheet
MAX_NODES = 4096        # node lines of a sheet
MAX_DEPTH = 24          # of a node line
MAX_NESTED = (MAX_DEPTH + 1) // 4   # tables with cells inside each other: each takes four depths
MAX_END = 4096          # position at which a row may end
MAX_ENTRIES = 8192      # entries of a grid
MAX_COLS = 1000         # colspan of a cell
MAX_ROWS = 65534        # rowspan of a cell
MAX_OL = 1000000000     # first number of an ol, with either sign
MAX_WRAP = 1000
MAX_WIDTH = 65535

TEXT_KINDS = ["text", "img", "svg"]
LEAF_KINDS = TEXT_KINDS + ["break", "frag"]
HOLDER_KINDS = ["container", "link", "em", "strong", "strike", "code", "block",
                "head", "div", "quote", "ul", "ol", "dl", "dt", "dd", "item", "sup"]
TABLE_KINDS = ["table", "body", "row", "cell"]
KINDS = LEAF_KINDS + HOLDER_KINDS + TABLE_KINDS


def node(depth, kind, n=0, cols=0, rows=0, text=b""):
    """One node line, line feed included."""
    return b"%d %s %d %d %d %s\n" % (depth, kind.encode(), n, cols, rows, text)


def cell(depth, cols=1, rows=1):
    return node(depth, "cell", 0, cols, rows)


def sheet(lines):
    return HEADING + b"".join(lines)


def case(sheet_bytes, wrap=3, raw=0, width=80):
    return SETTINGS + b"%d %d %d\n" % (wrap, raw, width) + sheet_bytes


def table(bodies, depth=0):
    """The lines of a table. bodies: a list of bodies, each a list of rows, each
    a list of cells, each (cols, rows) or (cols, rows, content), the content
    being lines (or a function that makes them for a depth) or one text."""
    lines = [node(depth, "table")]
    for rows in bodies:
        lines.append(node(depth + 1, "body"))
        for cells in rows:
            lines.append(node(depth + 2, "row"))
            for figures in cells:
                lines.append(cell(depth + 3, figures[0], figures[1]))
                content = figures[2] if len(figures) > 2 else []
                if callable(content):
                    content = content(depth + 4)
                if isinstance(content, bytes):
                    content = [node(depth + 4, "text", text=content)]
                lines += content
    return lines


def write_frame(stream, data, head=b"case"):
    stream.write(b"%s %d\n" % (head, len(data)) + data)


def write_text(stream, data, wrap, img):
    stream.write(b"text %d %d %d\n" % (len(data), wrap, img) + data)


def read_frames(stream):
    """The frames of a stream: (case,) or (text, wrap, img)."""
    while True:
        head = stream.readline()
        if not head:
            return
        words = head.split()
        if not words or words[0] not in (b"case", b"text"):
            raise SystemExit("no frame: %r" % head[:60])
        data = stream.read(int(words[1]))
        if len(data) != int(words[1]):
            raise SystemExit("a frame is cut short")
        if words[0] == b"case":
            yield (data,)
        else:
            yield (data, int(words[2]), int(words[3]))
