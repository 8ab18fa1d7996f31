//! html2text's own table functions, run on sheets of docs/FORMAT.md.
//!
//! The file named by GENERATED_RS holds the functions, cut verbatim by
//! extract.py, and standins.rs what they lean on. This file holds the program
//! around them and two stand-ins more, which count. It assumes well-formed
//! settings and a well-formed sheet: refusals 1 to 4 and 8 to 11 are not
//! decided here. 5 and 6 are docs/FORMAT.md's own limits; their figures are
//! observed from inside RenderTable::new by the two stand-ins that count. 7 is
//! the Rust's own failing unwrap.
//!
//!   table_oracle [--full]   `case LEN`, LEN bytes (settings and sheet), again
//!                           and again; answers `out LEN`, LEN bytes to each.
//!                           --full adds every line's estimate and every grid.
//!   table_oracle --text     `text LEN WRAP IMG`, LEN bytes, again and again;
//!                           answers `SIZE LEAST PREFIX` to each.
//!   table_oracle --minus    `WIDTH PREFIX LEAST OVERFLOW`, again and again;
//!                           answers what `width_minus` gives, or `narrow`.
#![allow(dead_code, unused_variables, irrefutable_let_patterns)]

use recording::{BTreeSet, Cell};
use std::io::{BufRead, Read};
use std::panic::{AssertUnwindSafe, catch_unwind};

// ---------------------------------------------------------------- stand-ins

/// Cell and BTreeSet that also count. RenderTable::new makes one Cell for each
/// filler (RenderTableCell::dummy) and one at its very end, and inserts every
/// entry's end in the original rows into its one BTreeSet.
mod recording {
    use std::cell::Cell as Plain;
    thread_local! {
        pub static CELLS: Plain<usize> = const { Plain::new(0) };
        pub static FARTHEST: Plain<usize> = const { Plain::new(0) };
    }
    #[derive(Clone, Debug)]
    pub struct Cell<T: Copy>(Plain<T>);
    impl<T: Copy> Cell<T> {
        pub fn new(v: T) -> Self {
            CELLS.set(CELLS.get() + 1);
            Cell(Plain::new(v))
        }
        pub fn get(&self) -> T {
            self.0.get()
        }
        pub fn set(&self, v: T) {
            self.0.set(v)
        }
    }
    pub struct BTreeSet(std::collections::BTreeSet<usize>);
    impl BTreeSet {
        pub fn new() -> Self {
            FARTHEST.set(0);
            BTreeSet(std::collections::BTreeSet::new())
        }
        pub fn insert(&mut self, v: usize) -> bool {
            FARTHEST.set(FARTHEST.get().max(v));
            self.0.insert(v)
        }
    }
    impl IntoIterator for BTreeSet {
        type Item = usize;
        type IntoIter = std::collections::btree_set::IntoIter<usize>;
        fn into_iter(self) -> Self::IntoIter {
            self.0.into_iter()
        }
    }
}

include!("standins.rs");

struct DomNode {
    line: usize,
    kind: String,
    n: i64,
    text: String,
    data: NodeData,
    children: RefCell<Vec<Handle>>,
}
type Handle = Rc<DomNode>;

// ------------------------------------------------------------- the cut text

include!(env!("GENERATED_RS"));
const GENERATED: &str = include_str!(env!("GENERATED_RS"));

// ---------------------------------------------------------- reading a sheet

/// The characters that docs/FORMAT.md's text bytes stand for.
fn text_of(bytes: &[u8]) -> String {
    bytes
        .iter()
        .map(|&b| match b {
            128 => '\u{301}',
            129 => '\u{e9}',
            130 => '\u{754c}',
            b => {
                assert!(b < 128, "a byte that docs/FORMAT.md refuses");
                b as char
            }
        })
        .collect()
}

struct Line {
    depth: usize,
    kind: String,
    n: i64,
    cols: String,
    rows: String,
    text: String,
}

fn number(field: &[u8]) -> i64 {
    std::str::from_utf8(field).unwrap().parse().unwrap()
}

/// wrap, raw, width and the lines; lines[i] is sheet line i + 1.
fn read_case(data: &[u8]) -> (usize, bool, usize, Vec<Line>) {
    let mut parts = data.split(|&b| b == b'\n');
    assert_eq!(parts.next().unwrap(), b"wrap raw width");
    let s: Vec<i64> = parts.next().unwrap().split(|&b| b == b' ').map(number).collect();
    assert_eq!(parts.next().unwrap(), b"depth kind n cols rows text");
    let mut raw_lines: Vec<&[u8]> = parts.collect();
    assert_eq!(raw_lines.pop().unwrap(), b"");
    let lines = raw_lines
        .iter()
        .map(|l| {
            let f: Vec<&[u8]> = l.splitn(6, |&b| b == b' ').collect();
            let word = |i: usize| String::from_utf8(f[i].to_vec()).unwrap();
            Line {
                depth: number(f[0]) as usize,
                kind: word(1),
                n: number(f[2]),
                cols: word(3),
                rows: word(4),
                text: text_of(f[5]),
            }
        })
        .collect();
    (s[0] as usize, s[1] != 0, s[2] as usize, lines)
}

/// The tree below lines[at]; with `shallow`, cells are left without content.
fn make_dom(lines: &[Line], at: usize, shallow: bool) -> Handle {
    let l = &lines[at];
    let attr = |name: &str, value: &str| Attribute {
        name: QualName {
            local: name.to_string(),
        },
        value: value.to_string(),
    };
    let attrs = if l.kind == "cell" {
        vec![attr("colspan", &l.cols), attr("rowspan", &l.rows)]
    } else {
        vec![]
    };
    let mut children = Vec::new();
    if !(shallow && l.kind == "cell") {
        for i in at + 1..lines.len() {
            if lines[i].depth <= l.depth {
                break;
            }
            if lines[i].depth == l.depth + 1 {
                children.push(make_dom(lines, i, shallow));
            }
        }
    }
    Rc::new(DomNode {
        line: at + 1,
        kind: l.kind.clone(),
        n: l.n,
        text: l.text.clone(),
        data: NodeData::Element {
            attrs: RefCell::new(attrs),
        },
        children: RefCell::new(children),
    })
}

type Step = TreeMapResult<'static, HtmlContext, RenderInput, RenderNode>;

/// One node of the document tree into the Rust's render tree.
fn process(input: RenderInput) -> Result<Step> {
    use RenderNodeInfo::*;
    let h = input.handle.clone();
    let style = ComputedStyle { line: h.line };
    let text = h.text.clone();
    let n = h.n;
    fn with(
        input: RenderInput,
        style: ComputedStyle,
        make: impl FnOnce(Vec<RenderNode>) -> RenderNodeInfo + 'static,
    ) -> Step {
        pending(input, move |_, cs| {
            Some(RenderNode::new_styled(make(cs), style))
        })
    }
    let finished = |info| TreeMapResult::Finished(RenderNode::new_styled(info, style.clone()));
    Ok(match h.kind.as_str() {
        "text" => finished(Text(text)),
        "img" => finished(Img(String::new(), text)),
        "svg" => finished(Svg(text)),
        "break" => finished(Break),
        "frag" => finished(FragStart(String::new())),
        "container" => with(input, style, Container),
        "link" => with(input, style, |cs| Link(String::new(), cs)),
        "em" => with(input, style, Em),
        "strong" => with(input, style, Strong),
        "strike" => with(input, style, Strikeout),
        "code" => with(input, style, Code),
        "block" => with(input, style, Block),
        "head" => with(input, style, move |cs| Header(n as usize, cs)),
        "div" => with(input, style, Div),
        "quote" => with(input, style, BlockQuote),
        "ul" => with(input, style, Ul),
        "ol" => with(input, style, move |cs| Ol(n, cs)),
        "dl" => with(input, style, Dl),
        "dt" => with(input, style, Dt),
        "dd" => with(input, style, Dd),
        "item" => with(input, style, ListItem),
        "sup" => with(input, style, Sup),
        "table" => table_to_render_tree(input, style, &mut io::sink()),
        "body" => tbody_to_render_tree(input, style, &mut io::sink()),
        "row" => tr_to_render_tree(input, style, &mut io::sink()),
        "cell" => td_to_render_tree(input, style, &mut io::sink()),
        other => panic!("kind {other}"),
    })
}

fn build(dom: Handle, context: &mut HtmlContext) -> RenderNode {
    tree_map_reduce(
        context,
        RenderInput::new(dom, Default::default()),
        |_, input| process(input),
    )
    .unwrap()
    .unwrap()
}

// ------------------------------------------------------- looking at the tree

fn content(info: &RenderNodeInfo) -> &[RenderNode] {
    use RenderNodeInfo::*;
    match info {
        Container(v) | Link(_, v) | Em(v) | Strong(v) | Strikeout(v) | Code(v) | Block(v)
        | Header(_, v) | Div(v) | BlockQuote(v) | Ul(v) | Ol(_, v) | Dl(v) | Dt(v) | Dd(v)
        | ListItem(v) | Sup(v) => v,
        _ => &[],
    }
}

/// Every line's estimate (index line - 1) and every table. Bodies and rows are
/// not in the Rust's tree: their estimates stay zero.
fn visit<'a>(
    node: &'a RenderNode,
    estimates: &mut [SizeEstimate],
    tables: &mut Vec<(usize, &'a RenderTable)>,
) {
    estimates[node.style.line - 1] = node.get_size_estimate();
    for child in content(&node.info) {
        visit(child, estimates, tables);
    }
    if let RenderNodeInfo::Table(t) = &node.info {
        tables.push((node.style.line, t));
        for row in t.rows() {
            for cell in row.cells() {
                assert_eq!(cell.is_dummy, cell.style.line == 0);
                if cell.style.line > 0 {
                    estimates[cell.style.line - 1] = cell.get_size_estimate();
                } else {
                    let e = cell.get_size_estimate();
                    assert!(e.size == 0 && e.min_width == 0 && e.prefix_size == 0);
                }
                for child in &cell.content {
                    visit(child, estimates, tables);
                }
            }
        }
    }
}

thread_local! {
    static PANIC_LINE: std::cell::Cell<usize> = const { std::cell::Cell::new(0) };
    static PANIC_FILE: RefCell<String> = const { RefCell::new(String::new()) };
}

/// 5, 6 or 7 for the table at lines[at], looked at by itself; 0 if none.
fn refusal_of(lines: &[Line], at: usize, context: &mut HtmlContext) -> usize {
    let depth = lines[at].depth;
    let count = |kind: &str, below: usize| {
        lines[at + 1..]
            .iter()
            .take_while(|l| l.depth > depth)
            .filter(|l| l.kind == kind && l.depth == depth + below)
            .count()
    };
    // The Rust drops a body without rows; docs/FORMAT.md refuses it with 4.
    let empty_bodies = (at + 1..lines.len())
        .take_while(|&i| lines[i].depth > depth)
        .filter(|&i| lines[i].kind == "body" && lines[i].depth == depth + 1)
        .filter(|&i| lines.get(i + 1).is_none_or(|l| l.depth <= depth + 1))
        .count();
    let bodies = count("body", 1) - empty_bodies;
    let (rows, cells) = (count("row", 2), count("cell", 3));
    let dom = make_dom(lines, at, true);
    let before = recording::CELLS.get();
    // A shallow table makes a Cell for each td (its cell), each RenderNode
    // (td, tr, tbody, table), each filler, and the RenderTable itself.
    let outcome = catch_unwind(AssertUnwindSafe(|| build(dom, context)));
    let farthest = recording::FARTHEST.get();
    let made = recording::CELLS.get() - before;
    let fixed = 2 * cells + rows + bodies + if outcome.is_ok() { 2 } else { 0 };
    let entries = made - fixed + cells;
    if let Ok(ref node) = outcome {
        // The recorded count is the true one.
        let RenderNodeInfo::Table(t) = &node.info else {
            panic!("no table")
        };
        let count: usize = t.rows().map(|r| r.cells().len()).sum();
        assert_eq!(count, entries);
    }
    if farthest > 4096 {
        5
    } else if entries > 8192 {
        6
    } else if outcome.is_err() {
        let text = GENERATED.lines().nth(PANIC_LINE.get() - 1).unwrap();
        assert!(
            text.contains("colmap.get(&nextpos).unwrap()"),
            "a panic elsewhere: {text}"
        );
        7
    } else {
        0
    }
}

// -------------------------------------------------------------- the answers

/// What the program `layout` prints for one table.
fn write_layout(out: &mut String, line: usize, table: &RenderTable, raw: bool, width: usize) {
    use std::fmt::Write;
    let mut renderer = TextRenderer {
        width,
        options: RenderOptions {
            raw,
            allow_width_overflow: false,
        },
    };
    let (vert, widths, table_width, rows) = render_table_tree_head(&mut renderer, table.clone());
    let way = if vert { 'v' } else { 'h' };
    writeln!(out, "table way cols wide").unwrap();
    writeln!(out, "{} {} {} {}", line, way, widths.len(), table_width).unwrap();
    writeln!(out, "column width").unwrap();
    for (i, w) in widths.iter().enumerate() {
        writeln!(out, "{} {}", i, w).unwrap();
    }
    writeln!(out, "row cell x width").unwrap();
    for row in rows {
        let RenderNodeInfo::TableRow(row, vert) = row.into_info() else {
            panic!("no row")
        };
        let row_line = row.style.line;
        for cell in row.into_cells(vert) {
            let RenderNodeInfo::TableCell(ref c) = cell.info else {
                panic!("no cell")
            };
            let (x, wide) = (c.x_pos.unwrap(), c.col_width.unwrap());
            writeln!(out, "{} {} {} {}", row_line, c.style.line, x, wide).unwrap();
        }
    }
}

/// The grid of one table: its entries, then where each row ends among them.
fn write_grid(out: &mut String, line: usize, table: &RenderTable) {
    use std::fmt::Write;
    writeln!(out, "grid cols\n{} {}", line, table.num_columns).unwrap();
    writeln!(out, "row cell first span").unwrap();
    for row in table.rows() {
        let mut first = 0;
        for cell in row.cells() {
            let (row_line, cell_line) = (row.style.line, cell.style.line);
            writeln!(out, "{} {} {} {}", row_line, cell_line, first, cell.colspan).unwrap();
            first += cell.colspan;
        }
    }
    writeln!(out, "row end").unwrap();
    let mut end = 0;
    for row in table.rows() {
        end += row.cells().len();
        writeln!(out, "{} {}", row.style.line, end).unwrap();
    }
}

fn answer(data: &[u8], full: bool) -> String {
    use std::fmt::Write;
    let (wrap, raw, width, lines) = read_case(data);
    let mut context = HtmlContext {
        min_wrap_width: wrap,
    };
    for at in 0..lines.len() {
        if lines[at].kind == "table" {
            let refusal = refusal_of(&lines, at, &mut context);
            if refusal > 0 {
                return format!("refusal line\n{} {}\n", refusal, at + 1);
            }
        }
    }
    let tree = build(make_dom(&lines, 0, false), &mut context);
    // Phase 1 of the Rust's render_tree_to_string.
    tree_map_reduce(&mut context, &tree, |context, node| {
        Ok(precalc_size_estimate(node, context, &Ours))
    })
    .unwrap();
    let mut estimates = vec![SizeEstimate::default(); lines.len()];
    let mut tables = Vec::new();
    visit(&tree, &mut estimates, &mut tables);
    tables.sort_by_key(|t| t.0);
    let mut out = String::new();
    for (line, table) in &tables {
        write_layout(&mut out, *line, table, raw, width);
    }
    if full {
        writeln!(out, "line size least prefix").unwrap();
        for (i, e) in estimates.iter().enumerate() {
            let (size, least, prefix) = (e.size, e.min_width, e.prefix_size);
            writeln!(out, "{} {} {} {}", i + 1, size, least, prefix).unwrap();
        }
        for (line, table) in &tables {
            write_grid(&mut out, *line, table);
        }
    }
    out
}

/// The Rust's estimate of one Text or Img node.
fn measure(data: &[u8], wrap: usize, img: bool) -> String {
    let text = text_of(data);
    let info = if img {
        RenderNodeInfo::Img(String::new(), text)
    } else {
        RenderNodeInfo::Text(text)
    };
    let context = HtmlContext {
        min_wrap_width: wrap,
    };
    let e = RenderNode::new(info).calc_size_estimate(&context, &Ours);
    format!("{} {} {}\n", e.size, e.min_width, e.prefix_size)
}

/// What a line passes on of its width, by its prefix and what it asks for.
fn minus(figures: &[usize]) -> String {
    let renderer = TextRenderer {
        width: figures[0],
        options: RenderOptions {
            raw: false,
            allow_width_overflow: figures[3] != 0,
        },
    };
    match renderer.width_minus(figures[1], figures[2]) {
        Ok(width) => format!("{}\n", width),
        Err(TooNarrow) => "narrow\n".to_string(),
    }
}

fn main() {
    let minus_asked = std::env::args().any(|a| a == "--minus");
    let full = std::env::args().any(|a| a == "--full");
    let text = std::env::args().any(|a| a == "--text");
    std::panic::set_hook(Box::new(|info| {
        let place = info.location().unwrap();
        PANIC_LINE.set(place.line() as usize);
        PANIC_FILE.with(|f| *f.borrow_mut() = place.file().to_string());
        if !place.file().ends_with("generated.rs") {
            eprintln!("{info}");
        }
    }));
    let stdin = io::stdin();
    let mut input = io::BufReader::new(stdin.lock());
    let mut output = io::BufWriter::new(io::stdout().lock());
    let mut head = String::new();
    loop {
        head.clear();
        if input.read_line(&mut head).unwrap() == 0 {
            break;
        }
        let words: Vec<&str> = head.split_ascii_whitespace().collect();
        if minus_asked {
            let figures: Vec<usize> = words.iter().map(|w| w.parse().unwrap()).collect();
            output.write_all(minus(&figures).as_bytes()).unwrap();
            continue;
        }
        assert_eq!(words[0], if text { "text" } else { "case" });
        let figures: Vec<usize> = words[1..].iter().map(|w| w.parse().unwrap()).collect();
        let mut data = vec![0; figures[0]];
        input.read_exact(&mut data).unwrap();
        if text {
            let reply = measure(&data, figures[1], figures[2] != 0);
            output.write_all(reply.as_bytes()).unwrap();
            continue;
        }
        let reply = match catch_unwind(|| answer(&data, full)) {
            Ok(reply) => reply,
            Err(_) => format!(
                "panic {} {}\n",
                PANIC_FILE.with(|f| f.borrow().clone()),
                PANIC_LINE.get()
            ),
        };
        write!(output, "out {}\n{}", reply.len(), reply).unwrap();
    }
    output.flush().unwrap();
}
