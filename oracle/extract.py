#!/usr/bin/env python3
"""Cuts the private items the oracle needs out of html2text's lib.rs, and one
method out of the render/text_renderer.rs beside it, verbatim.

    extract.py LIB_RS OUT_RS

Items are found by their head line and cut by matching braces (comments,
strings and character literals are skipped). Nothing inside an item is changed.
Three places are cut smaller than an item:
  * of `impl RenderNode` only the methods named below are taken, each whole
    (the others print debug trees and need the CSS types);
  * of `render_table_tree` the body is taken from its opening brace up to and
    including the statement `let table_width = ...;`, and wrapped in a function
    `render_table_tree_head` that returns what was computed;
  * of the renderer only the method `width_minus` is taken, whole, in a module in
    which `Result` is the renderer's own.
Attributes and doc comments straight above an item go with it.
OUT_RS must not lie in the repository: it is a build product. What the cut text
leans on stands in standins.rs, for every program around it.
"""

import os
import re
import sys


def skip_code(src, i):
    """src[i] starts a comment, string or char literal: the index past it, else i."""
    two = src[i:i + 2]
    if two == "//":
        end = src.find("\n", i)
        return len(src) if end < 0 else end
    if two == "/*":
        depth, i = 1, i + 2
        while depth:
            if src[i:i + 2] == "/*":
                depth, i = depth + 1, i + 2
            elif src[i:i + 2] == "*/":
                depth, i = depth - 1, i + 2
            else:
                i += 1
        return i
    if src[i] == '"':
        i += 1
        while src[i] != '"':
            i += 2 if src[i] == "\\" else 1
        return i + 1
    if src[i] == "'":
        literal = re.compile(r"'(\\u\{[0-9a-fA-F]+\}|\\.|[^\\'])'", re.S).match(src, i)
        if literal:
            return literal.end()
        return i + 1                      # a lifetime
    if two == 'r"' or src[i:i + 3] == 'r#"':
        raise SystemExit("raw string met; the cutter does not know those")
    return i


def find_end(src, i, stop):
    """From i, the index past the first character of stop at bracket depth 0,
    or past the closing brace if stop is '}' (the first brace block)."""
    depth = 0
    while True:
        j = skip_code(src, i)
        if j != i:
            i = j
            continue
        c = src[i]
        if c in "([{":
            depth += 1
        elif c in ")]}":
            depth -= 1
            if stop == "}" and c == "}" and depth == 0:
                return i + 1
        elif c == stop and depth == 0:
            return i + 1
        i += 1


def line_start_with_attributes(src, start):
    """Moves start up over the attribute and doc lines straight above."""
    while start > 0:
        previous = src.rfind("\n", 0, start - 1) + 1
        text = src[previous:start].strip()
        if text.startswith("#[") or text.startswith("///"):
            start = previous
        else:
            break
    return start


def cut(src, head, stop="}", indent=""):
    """The one item whose first line begins with head (a regular expression)."""
    found = list(re.finditer(r"(?m)^" + indent + head, src))
    if len(found) != 1:
        raise SystemExit("%d places match %r" % (len(found), head))
    start = found[0].start()
    end = find_end(src, start, stop)
    return src[line_start_with_attributes(src, start):end] + "\n"


ITEMS = [
    (r"trait WhitespaceExt \{", "}"),
    (r"impl WhitespaceExt for char \{", "}"),
    (r"trait StrExt \{", "}"),
    (r"impl StrExt for str \{", "}"),
    (r"type Result<T> = ", ";"),
    (r"struct SizeEstimate \{", "}"),
    (r"impl SizeEstimate \{", "}"),
    (r"struct RenderTableCell \{", "}"),
    (r"impl RenderTableCell \{", "}"),
    (r"struct RenderTableRow \{", "}"),
    (r"impl RenderTableRow \{", "}"),
    (r"struct RenderTable \{", "}"),
    (r"impl RenderTable \{", "}"),
    (r"enum RenderNodeInfo \{", "}"),
    (r"impl RenderNodeInfo \{", "}"),
    (r"struct RenderNode \{", "}"),
    (r"impl Drop for RenderNode \{", "}"),
    (r"fn precalc_size_estimate<", "}"),
    (r"fn table_to_render_tree<", "}"),
    (r"fn tbody_to_render_tree<", "}"),
    (r"fn tr_to_render_tree<", "}"),
    (r"fn td_to_render_tree<", "}"),
    (r"type ResultReducer<", ";"),
    (r"type ChildPreFn<", ";"),
    (r"type ChildPostFn<", ";"),
    (r"enum TreeMapResult<", "}"),
    (r"fn tree_map_reduce<", "}"),
    (r"fn pending<F>\(", "}"),
    (r"fn pending_noempty<F>\(", "}"),
    (r"fn calc_ol_prefix_size<", "}"),
]

NODE_METHODS = ["new", "new_styled", "get_size_estimate", "calc_size_estimate", "into_info"]


TABLE_HEAD = ("fn render_table_tree_head(\n"
              "    renderer: &mut TextRenderer,\n"
              "    table: RenderTable,\n"
              ") -> (bool, Vec<usize>, usize, Vec<RenderNode>) {")


def render_table_tree_head(src):
    item = cut(src, r"fn render_table_tree<")
    body = item.index("{\n", item.index("-> render::Result<")) + 1
    let = item.index("    let table_width = ")
    end = find_end(item, let, ";")
    if not item[end:].lstrip().startswith("renderer.start_table()?;"):
        raise SystemExit("render_table_tree does not go on as expected")
    return (
        TABLE_HEAD
        + item[body:end]
        + "\n    // ---- the cut text ends here ----\n"
        "    let rows = table.into_rows(col_widths.clone(), vert_row);\n"
        "    (vert_row, col_widths, table_width, rows)\n"
        "}\n")


def in_prefixes(method):
    return ("mod prefixes {\n"
            "    use super::{TextRenderer, TooNarrow};\n"
            "    type Result<T> = std::result::Result<T, TooNarrow>;\n"
            "    impl TextRenderer {\n"
            + method
            + "    }\n}\n")


def width_minus(src):
    return in_prefixes(cut(src, r"pub fn width_minus\b", "}", "    "))


def hollow():
    """All that is cut out by its names, with nothing inside; for bench/check.sh, which has no lib.rs."""
    shapes = {"trait": "trait %s {}\n", "struct": "struct %s {}\n", "enum": "enum %s {}\n", "type": "type %s = ();\n", "fn": "fn %s() {}\n"}
    heads = [re.match(r"(\w+) (\w+)", head).groups() for head, _ in ITEMS]
    out = [shapes[word] % name for word, name in heads if word in shapes]
    out.append("impl RenderNode {\n" + "".join("    fn %s(&self) {}\n" % name for name in NODE_METHODS) + "}\n")
    return "".join(out) + TABLE_HEAD + "\n    todo!()\n}\n" + in_prefixes("        pub fn width_minus(&self) {}\n")


def main():
    if len(sys.argv) != 3:
        raise SystemExit(__doc__)
    with open(sys.argv[1], encoding="utf-8") as f:
        src = f.read()
    out = ["// Generated by extract.py from html2text's lib.rs (MIT). Do not edit.\n"]
    out += [cut(src, head, stop) for head, stop in ITEMS]
    impl = cut(src, r"impl RenderNode \{")
    out.append("impl RenderNode {\n"
               + "\n".join(cut(impl, r"fn %s\b" % name, "}", "    ") for name in NODE_METHODS)
               + "}\n")
    out.append(render_table_tree_head(src))
    with open(os.path.join(os.path.dirname(sys.argv[1]), "render", "text_renderer.rs"), encoding="utf-8") as f:
        out.append(width_minus(f.read()))
    with open(sys.argv[2], "w", encoding="utf-8") as f:
        f.write("\n".join(out))


if __name__ == "__main__":
    main()
