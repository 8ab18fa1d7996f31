//! The Rust side: html2text's own private functions and what stands around them.
//!
//! The file named by GENERATED_RS holds the functions, cut verbatim out of html2text's sources by oracle/extract.py, and oracle/standins.rs
//! stand-ins for what they lean on: error, style, context, decorator, renderer and document tree. Each has only what the cut functions look at,
//! so it costs the Rust less than the real thing. Cell, BTreeSet and HashMap are the standard ones, as in html2text. Here are
//! - the nodes of the document tree;
//! - `read` and `plant`, which make the document tree out of a sheet. They are the harness's own and no part of html2text: measured apart;
//! - the steps of html2text's work (`tree`, `grids`, `estimate`, `lay`, `place`), each one call of its functions, and the whole of it;
//! - `answers`, its figures in the form of our own, for the comparison.
#![allow(dead_code, unused_variables, irrefutable_let_patterns)]

use std::cell::Cell;
use std::collections::BTreeSet;

// ---------------------------------------------------------------- stand-ins

include!("../oracle/standins.rs");

/// A node of the document tree. The kind is a number, so that choosing the function for a node costs next to nothing.
pub struct DomNode {
    line: usize,
    kind: Kind,
    n: i64,
    text: String,
    data: NodeData,
    children: RefCell<Vec<Handle>>,
}
pub type Handle = Rc<DomNode>;

// ------------------------------------------------------------- the cut text

include!(env!("GENERATED_RS"));

// ------------------------------------- from a sheet to a document tree (ours)

#[derive(Clone, Copy, PartialEq)]
pub enum Kind {
    Text,
    Img,
    Svg,
    Break,
    Frag,
    Container,
    Link,
    Em,
    Strong,
    Strike,
    Code,
    Block,
    Head,
    Div,
    Quote,
    Ul,
    Ol,
    Dl,
    Dt,
    Dd,
    Item,
    Sup,
    Table,
    Body,
    Row,
    Cell,
}

const KINDS: [(&[u8], Kind); 26] = [
    (b"text", Kind::Text),
    (b"cell", Kind::Cell),
    (b"row", Kind::Row),
    (b"body", Kind::Body),
    (b"table", Kind::Table),
    (b"div", Kind::Div),
    (b"img", Kind::Img),
    (b"svg", Kind::Svg),
    (b"break", Kind::Break),
    (b"frag", Kind::Frag),
    (b"container", Kind::Container),
    (b"link", Kind::Link),
    (b"em", Kind::Em),
    (b"strong", Kind::Strong),
    (b"strike", Kind::Strike),
    (b"code", Kind::Code),
    (b"block", Kind::Block),
    (b"head", Kind::Head),
    (b"quote", Kind::Quote),
    (b"ul", Kind::Ul),
    (b"ol", Kind::Ol),
    (b"dl", Kind::Dl),
    (b"dt", Kind::Dt),
    (b"dd", Kind::Dd),
    (b"item", Kind::Item),
    (b"sup", Kind::Sup),
];

pub struct Line {
    pub depth: usize,
    pub kind: Kind,
    n: i64,
    cols: String,
    rows: String,
    text: String,
}

/// The characters that docs/FORMAT.md's text bytes stand for.
pub fn text_of(bytes: &[u8]) -> String {
    let letter = |b: &u8| match *b {
        128 => '\u{301}',
        129 => '\u{e9}',
        130 => '\u{754c}',
        b => b as char,
    };
    bytes.iter().map(letter).collect()
}

fn line_of(bytes: &[u8]) -> Line {
    let f: Vec<&[u8]> = bytes.splitn(6, |&b| b == b' ').collect();
    let word = |i: usize| std::str::from_utf8(f[i]).unwrap();
    Line {
        depth: word(0).parse().unwrap(),
        kind: KINDS.iter().find(|k| k.0 == f[1]).expect("a known kind").1,
        n: word(2).parse().unwrap(),
        cols: word(3).to_string(),
        rows: word(4).to_string(),
        text: text_of(f[5]),
    }
}

/// The lines of an accepted sheet; place i is line i + 1.
#[inline(never)]
pub fn read(sheet: &[u8]) -> Vec<Line> {
    let mut parts = sheet.split(|&b| b == b'\n');
    assert_eq!(parts.next().unwrap(), b"depth kind n cols rows text");
    let mut lines: Vec<&[u8]> = parts.collect();
    assert_eq!(lines.pop().unwrap(), b"");
    lines.into_iter().map(line_of).collect()
}

fn node_of(lines: &[Line], at: usize) -> DomNode {
    let l = &lines[at];
    let attr = |name: &str, value: &str| Attribute { name: QualName { local: name.to_string() }, value: value.to_string() };
    let cell = l.kind == Kind::Cell;
    let attrs = if cell { vec![attr("colspan", &l.cols), attr("rowspan", &l.rows)] } else { vec![] };
    DomNode {
        line: at + 1,
        kind: l.kind,
        n: l.n,
        text: l.text.clone(),
        data: NodeData::Element { attrs: RefCell::new(attrs) },
        children: RefCell::new(Vec::new()),
    }
}

/// The document tree of the lines, in one pass over them.
#[inline(never)]
pub fn plant(lines: &[Line]) -> Handle {
    let top = Rc::new(node_of(lines, 0));
    let mut path = vec![top.clone()];
    for at in 1..lines.len() {
        let node = Rc::new(node_of(lines, at));
        path.truncate(lines[at].depth);
        path[lines[at].depth - 1].children.borrow_mut().push(node.clone());
        path.push(node);
    }
    top
}

// ------------------------------------------------- html2text's work, by steps

type Step = TreeMapResult<'static, HtmlContext, RenderInput, RenderNode>;
type Laid = (bool, Vec<usize>, usize, Vec<RenderNode>);

// html2text's types are private to this file: the driver holds them closed.
pub struct Tree(RenderNode);
pub struct TableRows(Vec<Vec<RenderTableRow>>);
pub struct Tables(Vec<RenderTable>);
pub struct LaidTables(Vec<Laid>);
pub struct Placed(Vec<Vec<RenderNode>>);

fn parent(input: RenderInput, style: ComputedStyle, make: impl FnOnce(Vec<RenderNode>) -> RenderNodeInfo + 'static) -> Step {
    pending(input, move |_, children| Some(RenderNode::new_styled(make(children), style)))
}

/// One node of the document tree into html2text's render tree, as its own `process_dom_node` chooses by the element's name.
fn process(input: RenderInput) -> Result<Step> {
    use RenderNodeInfo::*;
    let handle = input.handle.clone();
    let style = ComputedStyle { line: handle.line };
    let n = handle.n;
    let text = || handle.text.clone();
    let leaf = |info| TreeMapResult::Finished(RenderNode::new_styled(info, style.clone()));
    Ok(match handle.kind {
        Kind::Text => leaf(Text(text())),
        Kind::Img => leaf(Img(String::new(), text())),
        Kind::Svg => leaf(Svg(text())),
        Kind::Break => leaf(Break),
        Kind::Frag => leaf(FragStart(String::new())),
        Kind::Container => parent(input, style, Container),
        Kind::Link => parent(input, style, |children| Link(String::new(), children)),
        Kind::Em => parent(input, style, Em),
        Kind::Strong => parent(input, style, Strong),
        Kind::Strike => parent(input, style, Strikeout),
        Kind::Code => parent(input, style, Code),
        Kind::Block => parent(input, style, Block),
        Kind::Head => parent(input, style, move |children| Header(n as usize, children)),
        Kind::Div => parent(input, style, Div),
        Kind::Quote => parent(input, style, BlockQuote),
        Kind::Ul => parent(input, style, Ul),
        Kind::Ol => parent(input, style, move |children| Ol(n, children)),
        Kind::Dl => parent(input, style, Dl),
        Kind::Dt => parent(input, style, Dt),
        Kind::Dd => parent(input, style, Dd),
        Kind::Item => parent(input, style, ListItem),
        Kind::Sup => parent(input, style, Sup),
        Kind::Table => table_to_render_tree(input, style, &mut io::sink()),
        Kind::Body => tbody_to_render_tree(input, style, &mut io::sink()),
        Kind::Row => tr_to_render_tree(input, style, &mut io::sink()),
        Kind::Cell => td_to_render_tree(input, style, &mut io::sink()),
    })
}

/// The render tree, with every table's grid in it (`RenderTable::new`).
#[inline(never)]
pub fn tree(dom: &Handle) -> Tree {
    let mut context = HtmlContext { min_wrap_width: 0 };
    let top = RenderInput::new(dom.clone(), Default::default());
    Tree(tree_map_reduce(&mut context, top, |_, input| process(input)).unwrap().unwrap())
}

/// The rows of every table as `RenderTable::new` takes them.
pub fn rows_of_tables(dom: &Handle) -> TableRows {
    let mut all = Vec::new();
    let mut todo = vec![dom.clone()];
    while let Some(node) = todo.pop() {
        if node.kind == Kind::Table {
            let bodies = node.children.borrow();
            let rows = bodies.iter().flat_map(|body| match tree(body).0.into_info() {
                RenderNodeInfo::TableBody(rows) => rows,
                _ => panic!("no body"),
            });
            all.push(rows.collect());
        }
        todo.extend(node.children.borrow().iter().cloned());
    }
    TableRows(all)
}

/// The grids alone.
#[inline(never)]
pub fn grids(rows: TableRows) -> Tables {
    Tables(rows.0.into_iter().map(RenderTable::new).collect())
}

/// The estimate of every node: the first phase of html2text's `render_tree_to_string`.
#[inline(never)]
pub fn estimate(tree: &Tree, wrap: u32) {
    let mut context = HtmlContext { min_wrap_width: wrap as usize };
    tree_map_reduce(&mut context, &tree.0, |context, node| Ok(precalc_size_estimate(node, context, &Ours))).unwrap();
}

/// The tree with its estimates.
#[inline(never)]
pub fn estimated(dom: &Handle, wrap: u32) -> Tree {
    let tree = tree(dom);
    estimate(&tree, wrap);
    tree
}

/// Way, column widths, table width and the rows that know them.
fn lay_one(table: RenderTable, raw: u32, width: u32) -> Laid {
    let mut renderer = TextRenderer { width: width as usize, options: RenderOptions { raw: raw == 1, allow_width_overflow: false } };
    render_table_tree_head(&mut renderer, table)
}

#[inline(never)]
pub fn lay(tables: Tables, raw: u32, width: u32) -> LaidTables {
    LaidTables(tables.0.into_iter().map(|t| lay_one(t, raw, width)).collect())
}

fn cells_of(row: RenderNode) -> Vec<RenderNode> {
    match row.into_info() {
        RenderNodeInfo::TableRow(row, vertical) => row.into_cells(vertical),
        _ => panic!("no row"),
    }
}

/// The printed cells of laid out tables, each with its place.
#[inline(never)]
pub fn place(laid: LaidTables) -> Placed {
    Placed(laid.0.into_iter().flat_map(|l| l.3).map(cells_of).collect())
}

/// Every table of an estimated tree.
pub fn tables(tree: &Tree, lines: usize) -> Tables {
    let mut found = Vec::new();
    visit(&tree.0, &mut vec![SizeEstimate::default(); lines], &mut found);
    Tables(found.into_iter().map(|t| t.1.clone()).collect())
}

/// The cell's figures are used, and its content handed on.
fn finish_cell(cell: RenderNode, sum: &mut usize, content: &mut Vec<RenderNode>) {
    let RenderNodeInfo::TableCell(cell) = cell.into_info() else { panic!("no cell") };
    *sum += cell.x_pos.unwrap() + cell.col_width.unwrap();
    content.extend(cell.content);
}

/// What laying out a document comes to: how many tables, their widths together, and a sum over all places.
pub struct Total {
    pub tables: u32,
    pub width: u32,
    pub places: usize,
}

/// From the document tree to the placed cells of every table. The render tree is used up and dropped on the way, as html2text does.
#[inline(never)]
pub fn layouts(dom: &Handle, wrap: u32, raw: u32, width: u32) -> Total {
    let mut total = Total { tables: 0, width: 0, places: 0 };
    let mut todo = vec![estimated(dom, wrap).0];
    while let Some(node) = todo.pop() {
        match node.into_info() {
            RenderNodeInfo::Table(table) => {
                let (_, _, own, rows) = lay_one(table, raw, width);
                total.tables += 1;
                total.width = total.width.wrapping_add(own as u32);
                for cell in rows.into_iter().flat_map(cells_of) {
                    finish_cell(cell, &mut total.places, &mut todo);
                }
            }
            other => other.extract_children(&mut todo),
        }
    }
    total
}

/// The same for one table, which stands in no other.
#[inline(never)]
pub fn layout(dom: &Handle, line: u32, wrap: u32, raw: u32, width: u32) -> Total {
    let mut total = Total { tables: 0, width: 0, places: 0 };
    let mut todo = vec![estimated(dom, wrap).0];
    while let Some(node) = todo.pop() {
        let asked = node.style.line == line as usize;
        match node.into_info() {
            RenderNodeInfo::Table(table) if asked => {
                let (_, _, own, rows) = lay_one(table, raw, width);
                total.tables += 1;
                total.width = own as u32;
                let mut content = Vec::new();
                for cell in rows.into_iter().flat_map(cells_of) {
                    finish_cell(cell, &mut total.places, &mut content);
                }
            }
            RenderNodeInfo::Table(_) => {}
            other => other.extract_children(&mut todo),
        }
    }
    total
}

/// One table, which stands in no other, at each of a list of widths: 1 if it goes down, its own width, how many of its entries are not printed. The
/// render tree and its estimates are made once; the table is copied for each width, since laying it out uses it up.
#[inline(never)]
pub fn window(dom: &Handle, lines: usize, line: u32, wrap: u32, raw: u32, widths: &[u32]) -> Vec<[u32; 3]> {
    let tree = estimated(dom, wrap);
    let mut found = Vec::new();
    visit(&tree.0, &mut vec![SizeEstimate::default(); lines], &mut found);
    let table = found.iter().find(|t| t.0 == line as usize).unwrap().1;
    let entries = table.rows().flat_map(|row| row.cells()).count();
    let at = |width: &u32| {
        let (down, _, own, rows) = lay_one(table.clone(), raw, *width);
        let printed: usize = rows.into_iter().map(|row| cells_of(row).len()).sum();
        [down as u32, own as u32, (entries - printed) as u32]
    };
    widths.iter().map(at).collect()
}

/// A text node, to be measured again and again.
pub fn text_node(text: &[u8]) -> Tree {
    Tree(RenderNode::new(RenderNodeInfo::Text(text_of(text))))
}

/// html2text's text loop. The node keeps its estimate, which is taken away first.
#[inline(never)]
pub fn measure(node: &Tree, wrap: u32) -> [u32; 3] {
    node.0.size_estimate.set(None);
    figures(node.0.calc_size_estimate(&HtmlContext { min_wrap_width: wrap as usize }, &Ours))
}

// ------------------------------------------------------------- its answers

fn figures(e: SizeEstimate) -> [u32; 3] {
    [e.size as u32, e.min_width as u32, e.prefix_size as u32]
}

fn content(info: &RenderNodeInfo) -> &[RenderNode] {
    use RenderNodeInfo::*;
    match info {
        Container(v)
        | Link(_, v)
        | Em(v)
        | Strong(v)
        | Strikeout(v)
        | Code(v)
        | Block(v)
        | Header(_, v)
        | Div(v)
        | BlockQuote(v)
        | Ul(v)
        | Ol(_, v)
        | Dl(v)
        | Dt(v)
        | Dd(v)
        | ListItem(v)
        | Sup(v) => v,
        _ => &[],
    }
}

/// Every line's estimate (place line - 1) and every table.
fn visit<'a>(node: &'a RenderNode, estimates: &mut [SizeEstimate], tables: &mut Vec<(usize, &'a RenderTable)>) {
    estimates[node.style.line - 1] = node.get_size_estimate();
    for child in content(&node.info) {
        visit(child, estimates, tables);
    }
    let RenderNodeInfo::Table(table) = &node.info else { return };
    tables.push((node.style.line, table));
    for cell in table.rows().flat_map(|row| row.cells()) {
        if cell.style.line > 0 {
            estimates[cell.style.line - 1] = cell.get_size_estimate();
        }
        for child in &cell.content {
            visit(child, estimates, tables);
        }
    }
}

/// One table in the form of our calls' answers.
pub struct TableAnswer {
    pub line: u32,
    pub columns: u32,
    /// cell line (0 for a filler), first column, span
    pub entries: Vec<[u32; 3]>,
    /// row line (0 for an extra row), entries up to and including it
    pub rows: Vec<[u32; 2]>,
    /// 0 sideways, 1 down
    pub way: u32,
    pub width: u32,
    pub widths: Vec<u32>,
    /// for each row its printed cells: cell line, x, width
    pub printed: Vec<Vec<[u32; 3]>>,
}

pub struct Answers {
    /// none for bodies and rows, which html2text has no estimate for
    pub estimates: Vec<Option<[u32; 3]>>,
    pub tables: Vec<TableAnswer>,
}

fn printed_cell(cell: RenderNode) -> [u32; 3] {
    let RenderNodeInfo::TableCell(cell) = cell.into_info() else { panic!("no cell") };
    [cell.style.line as u32, cell.x_pos.unwrap() as u32, cell.col_width.unwrap() as u32]
}

fn table_answer(line: usize, table: &RenderTable, raw: u32, width: u32) -> TableAnswer {
    let (mut entries, mut rows) = (Vec::new(), Vec::new());
    for row in table.rows() {
        let mut first = 0;
        for cell in row.cells() {
            entries.push([cell.style.line as u32, first, cell.colspan as u32]);
            first += cell.colspan as u32;
        }
        rows.push([row.style.line as u32, entries.len() as u32]);
    }
    let (down, widths, own, laid) = lay_one(table.clone(), raw, width);
    TableAnswer {
        line: line as u32,
        columns: table.num_columns as u32,
        entries,
        rows,
        way: down as u32,
        width: own as u32,
        widths: widths.into_iter().map(|w| w as u32).collect(),
        printed: laid.into_iter().map(|row| cells_of(row).into_iter().map(printed_cell).collect()).collect(),
    }
}

/// Every figure that html2text has for a sheet.
pub fn answers(lines: &[Line], wrap: u32, raw: u32, width: u32) -> Answers {
    let tree = estimated(&plant(lines), wrap);
    let mut estimates = vec![SizeEstimate::default(); lines.len()];
    let mut tables = Vec::new();
    visit(&tree.0, &mut estimates, &mut tables);
    tables.sort_by_key(|t| t.0);
    let known = |(l, e): (&Line, SizeEstimate)| if matches!(l.kind, Kind::Body | Kind::Row) { None } else { Some(figures(e)) };
    Answers {
        estimates: lines.iter().zip(estimates).map(known).collect(),
        tables: tables.into_iter().map(|(line, table)| table_answer(line, table, raw, width)).collect(),
    }
}
