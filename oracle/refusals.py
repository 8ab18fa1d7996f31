"""Refusals 9, 8, 1, 2, 3, 13, 14 and 4 as docs/FORMAT.md states them, in its order.

    refusals.py < CASE      prints `NUMBER LINE`, or nothing

Written from the document and from no code; it shares nothing with the other
files here.
A case is the input of the program `layout`: two settings lines, then a sheet.
5 and 6 need the grid and are not decided here, 10 and 11 need a call.
"""

import re
import sys

KINDS = ("text img svg container link em strong strike code block head div quote ul ol dl dt dd "
         "break table body row cell frag item sup calc").split()
WITH_TEXT = ("text", "img", "svg", "calc")
WITHOUT_CHILDREN = WITH_TEXT + ("break", "frag")
DEEPEST = 24            # depth of a line
MOST = 10 ** 12         # of a step of a sum, with either sign

# No leading zero, no plus, a minus only before a nonzero number.
NUMBER = re.compile(rb"0|-?[1-9][0-9]*")


def number(field):
    """The number a field spells, or None. Longer writings than any range allows
    are cut to one that is out of every range just as well."""
    if not NUMBER.fullmatch(field):
        return None
    return int(field[:20])


def between(value, low, high):
    return value is not None and low <= value <= high


def settings(case):
    """The sheet behind the settings, or None if they are refused (9)."""
    parts = case.split(b"\n", 2)
    if len(parts) < 3 or parts[0] != b"wrap raw width":
        return None
    figures = parts[1].split(b" ")
    if len(figures) != 3:
        return None
    wrap, raw, width = (number(f) for f in figures)
    if not (between(wrap, 0, 1000) and between(raw, 0, 1) and between(width, 0, 65535)):
        return None
    return parts[2]


def fields(line):
    """(depth, kind, n, cols, rows, text) of a line without its line feed, or
    None if anything is wrong with its fields (2)."""
    parts = line.split(b" ", 5)
    if len(parts) != 6:
        return None
    kind = parts[1].decode("latin-1")
    if kind not in KINDS:
        return None
    depth, n, cols, rows = (number(parts[i]) for i in (0, 2, 3, 4))
    text = parts[5]
    if kind == "head":
        n_range = (1, 6)
    elif kind == "ol":
        n_range = (-1000000000, 1000000000)
    else:
        n_range = (0, 0)
    sound = (between(depth, 0, DEEPEST)
             and between(n, *n_range)
             and between(cols, 0, 1000 if kind == "cell" else 0)
             and between(rows, 0, 65534 if kind == "cell" else 0)
             and (kind in WITH_TEXT or text == b""))
    return (depth, kind, n, cols, rows, text) if sound else None


def closing(text, start):
    """The place of the bracket that closes the one at start, or None."""
    open_now = 0
    for i in range(start, len(text)):
        open_now += (text[i:i + 1] == b"(") - (text[i:i + 1] == b")")
        if open_now == 0:
            return i
    return None


def last_outside(text, signs):
    """The place of the last of the signs that stands outside all brackets, or None."""
    found, i = None, 0
    while i < len(text):
        if text[i:i + 1] == b"(":
            i = closing(text, i)
            if i is None:
                return None
        elif text[i:i + 1] in signs:
            found = i
        i += 1
    return found


def is_sum(text, brackets=32):
    """True if a text is an expression: split at the last sign that binds least."""
    for signs in ((b"+", b"-"), (b"*", b"/")):
        at = last_outside(text, signs)
        if at is not None:
            return is_sum(text[:at], brackets) and is_sum(text[at + 1:], brackets)
    if text[:1] == b"(":
        return brackets > 0 and closing(text, 0) == len(text) - 1 and is_sum(text[1:-1], brackets - 1)
    return re.fullmatch(rb"[0-9]{1,9}", text) is not None


def worth(text):
    """The value of an expression, or None if a divisor is 0 or a step is out of bounds."""
    for signs in ((b"+", b"-"), (b"*", b"/")):
        at = last_outside(text, signs)
        if at is not None:
            left, right = worth(text[:at]), worth(text[at + 1:])
            if left is None or right is None:
                return None
            sign = text[at:at + 1]
            if sign == b"/":
                if right == 0:
                    return None
                value = abs(left) // abs(right) * (1 if (left < 0) == (right < 0) else -1)
            else:
                value = {b"+": left + right, b"-": left - right, b"*": left * right}[sign]
            return value if -MOST <= value <= MOST else None
    return worth(text[1:-1]) if text[:1] == b"(" else int(text)


def nesting(depth, kind, ancestors):
    """True if a line may stand here. ancestors: the kinds on the way from line 1
    to the previous line, that one included; empty on line 1."""
    if not ancestors:
        return depth == 0 and kind not in ("body", "row", "cell")
    if not 1 <= depth <= len(ancestors):
        return False
    parent = ancestors[depth - 1]
    if parent in WITHOUT_CHILDREN:
        return False
    for above, below in (("table", "body"), ("body", "row"), ("row", "cell")):
        if (parent == above) != (kind == below):
            return False
    return True


def sheet_answer(sheet):
    """None or (number, line), for a sheet: 8, 1, 2, 3, 4."""
    if len(sheet) > 65536 or sheet.count(b"\n") > 4097:
        return (8, 0)
    lines = sheet.split(b"\n")
    # What follows the last line feed is a line only if it is not empty.
    unended = lines.pop()
    if not lines or lines[0] != b"depth kind n cols rows text":
        return (1, 0)
    ancestors = []
    childless = {}          # line of each table and body that has no child yet
    open_lines = []         # the lines of the ancestors
    for k in range(1, len(lines)):
        found = fields(lines[k])
        if found is None:
            return (2, k)
        depth, kind, n, cols, rows, text = found
        if any(byte > 130 for byte in text):
            return (3, k)
        if kind == "calc" and not is_sum(text):
            return (13, k)
        if kind == "calc" and worth(text) is None:
            return (14, k)
        if not nesting(depth, kind, ancestors):
            return (4, k)
        if depth > 0:
            childless.pop(open_lines[depth - 1], None)
        ancestors[depth:] = [kind]
        open_lines[depth:] = [k]
        if kind in ("table", "body"):
            childless[k] = True
    if unended:
        return (2, len(lines))
    if len(lines) == 1:
        return (4, 0)
    if childless:
        return (4, min(childless))
    return None


def answer(case):
    """None or (number, line), for the bytes that the program reads."""
    sheet = settings(case)
    return (9, 0) if sheet is None else sheet_answer(sheet)


def measure_answer(text, wrap):
    """None or (number, 0), for the measure of one text; there byte 10 is a space."""
    if not 0 <= wrap <= 1000:
        return (9, 0)
    if len(text) > 65536:
        return (8, 0)
    if any(byte > 130 for byte in text):
        return (3, 0)
    return None


if __name__ == "__main__":
    refused = answer(sys.stdin.buffer.read())
    if refused:
        print("%d %d" % refused)
