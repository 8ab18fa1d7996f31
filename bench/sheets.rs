//! The sheets that are measured, made here from nothing. All are accepted: at most 65,536 bytes, 4,096 lines, depth 24, 4,096 positions, 8,192 entries.

pub struct Sheet {
    pub name: String,
    pub bytes: Vec<u8>,
    pub wrap: u32,
    pub width: u32,
    /// The table that is asked for where one is: it stands in no other.
    pub line: u32,
}

/// A sheet in the writing.
struct Draft {
    bytes: Vec<u8>,
    lines: u32,
}

impl Draft {
    fn new() -> Draft {
        Draft { bytes: b"depth kind n cols rows text\n".to_vec(), lines: 0 }
    }
    fn node(&mut self, depth: usize, kind: &str, n: i64, cols: usize, rows: usize, text: &str) {
        self.bytes.extend(format!("{depth} {kind} {n} {cols} {rows} {text}\n").bytes());
        self.lines += 1;
    }
    fn plain(&mut self, depth: usize, kind: &str) {
        self.node(depth, kind, 0, 0, 0, "");
    }
    fn cell(&mut self, depth: usize, cols: usize, rows: usize) {
        self.node(depth, "cell", 0, cols, rows, "");
    }
    fn text(&mut self, depth: usize, text: &str) {
        self.node(depth, "text", 0, 0, 0, text);
    }
    /// A table and its one body.
    fn table(&mut self, depth: usize) -> u32 {
        self.plain(depth, "table");
        self.plain(depth + 1, "body");
        self.lines - 1
    }
    fn done(self, name: &str, wrap: u32, width: u32, line: u32) -> Sheet {
        assert!(self.bytes.len() <= 65536 && self.lines <= 4096, "{name}: {} bytes, {} lines", self.bytes.len(), self.lines);
        Sheet { name: name.to_string(), bytes: self.bytes, wrap, width, line }
    }
}

/// The same numbers on every run.
struct Random(u64);

impl Random {
    fn new() -> Random {
        Random(12345678912345)
    }
    fn below(&mut self, n: u64) -> u64 {
        self.0 ^= self.0 << 13;
        self.0 ^= self.0 >> 7;
        self.0 ^= self.0 << 17;
        self.0 % n
    }
    /// 1 to longest characters, about one in six a space.
    fn words(&mut self, longest: u64) -> String {
        let count = 1 + self.below(longest);
        (0..count).map(|_| if self.below(6) == 0 { ' ' } else { 'x' }).collect()
    }
}

/// Texts have up to 24 characters where there is room for them, else 9 or 7: 4,096 lines leave 16 bytes for each line, 14 of them fields.
fn longest_text(cells: usize) -> u64 {
    match cells {
        0..=1000 => 24,
        1001..=1900 => 9,
        _ => 7,
    }
}

/// One table of rows x cells, each cell with a text or empty; with spans, one cell in eight has cols 2 and one in 24 rows 2.
fn flat(name: &str, rows: usize, cells: usize, texts: bool, spans: bool, width: u32) -> Sheet {
    let mut random = Random::new();
    let mut draft = Draft::new();
    draft.table(0);
    for r in 0..rows {
        draft.plain(2, "row");
        let mut c = 0;
        while c < cells {
            let cols = if spans && random.below(8) == 0 && c + 1 < cells { 2 } else { 1 };
            let hang = if spans && random.below(24) == 0 && r + 3 < rows { 2 } else { 1 };
            draft.cell(3, cols, hang);
            if texts {
                draft.text(4, &random.words(longest_text(rows * cells)));
            }
            c += cols;
        }
    }
    draft.done(name, 3, width, 1)
}

/// A page of 300 lines: a heading, a list, links, a quote, and a table of 22 x 6 with texts.
fn page() -> Sheet {
    let mut random = Random::new();
    let mut draft = Draft::new();
    draft.plain(0, "div");
    draft.node(1, "head", 2, 0, 0, "");
    draft.text(2, "Survey of the ground floor");
    draft.node(1, "ol", 1, 0, 0, "");
    draft.plain(2, "item");
    draft.text(3, "the walls, the doors and the windows");
    draft.plain(1, "quote");
    draft.plain(2, "link");
    draft.text(3, "as in the edition before");
    draft.plain(1, "break");
    let line = draft.table(1);
    for _ in 0..22 {
        draft.plain(3, "row");
        for _ in 0..6 {
            draft.cell(4, 1, 1);
            draft.text(5, &random.words(24));
        }
    }
    draft.node(1, "img", 0, 0, 0, "a plan");
    draft.text(1, "end");
    draft.done("300-lines", 3, 80, line)
}

/// Tables of one row beside each other, each empty or with one cell and a text.
fn small_tables(name: &str, count: usize, cell: bool) -> Sheet {
    let mut draft = Draft::new();
    let mut line = 0;
    draft.plain(0, "div");
    for _ in 0..count {
        line = draft.table(1);
        draft.plain(3, "row");
        if cell {
            draft.cell(4, 1, 1);
            draft.text(5, "a few");
        }
    }
    draft.done(name, 3, 80, line)
}

/// Chains of six tables, as many as the depth allows, each the one cell of the one before. The last one's cell has the largest depth and
/// is empty; the text stands in the cell above, before the last table.
fn chains(name: &str, count: usize) -> Sheet {
    let mut draft = Draft::new();
    let mut line = 0;
    draft.plain(0, "div");
    for _ in 0..count {
        line = draft.lines + 1;
        for k in 0..6 {
            if k == 5 {
                draft.text(1 + 4 * k, "some words here");
            }
            draft.table(1 + 4 * k);
            draft.plain(3 + 4 * k, "row");
            draft.cell(4 + 4 * k, 1, 1);
        }
    }
    draft.done(name, 3, 80, line)
}

/// A row of 1,000 cells, then rows of one cell over all of them.
fn wide_spans(name: &str, rows: usize) -> Sheet {
    let mut draft = Draft::new();
    draft.table(0);
    draft.plain(2, "row");
    for _ in 0..1000 {
        draft.cell(3, 1, 1);
    }
    for _ in 0..rows {
        draft.plain(2, "row");
        draft.cell(3, 1000, 1);
    }
    draft.done(name, 3, 65000, 1)
}

fn one_text(name: &str, text: &str) -> Sheet {
    let mut draft = Draft::new();
    draft.table(0);
    draft.plain(2, "row");
    draft.cell(3, 1, 1);
    draft.text(4, text);
    draft.done(name, 3, 80, 1)
}

/// 4,096 columns out of 193 lines: 63 cells of cols 64 hang through 64 rows, and row k moves them one further by a cell of cols k before them.
fn shifted(name: &str) -> Sheet {
    let mut draft = Draft::new();
    draft.table(0);
    for k in 1..=64 {
        draft.plain(2, "row");
        draft.cell(3, k, 1);
        if k == 1 {
            for _ in 0..63 {
                draft.cell(3, 64, 64);
            }
        }
    }
    draft.done(name, 3, 65535, 1)
}

/// 2 * pairs + 2 columns: cells of cols 2 hang into a second row, which moves them by one. As many as `filled` hold an img, which is 2 wider
/// than its text and so spares bytes; each gives half its size to two columns. The total of the columns' sizes goes with the draft.
fn paired_columns(pairs: usize, filled: usize) -> (Draft, u32) {
    let mut random = Random::new();
    let mut draft = Draft::new();
    let mut total = 0;
    draft.table(0);
    draft.plain(2, "row");
    draft.cell(3, 1, 1);
    for k in 0..pairs {
        draft.cell(3, 2, 2);
        if k < filled {
            let half = 1 + random.below(4) as usize;
            draft.node(4, "img", 0, 0, 0, &"x".repeat(2 * half - 2));
            total += 2 * half as u32;
        }
    }
    draft.plain(2, "row");
    draft.cell(3, 2, 1);
    (draft, total)
}

/// Groups of four rows: the first has four cells of rows 4 (the first `five` groups have five), the others are empty.
fn hanging_groups(name: &str, groups: usize, five: usize) -> Sheet {
    let mut draft = Draft::new();
    draft.table(0);
    for g in 0..groups {
        for r in 0..4 {
            draft.plain(2, "row");
            let cells = if r > 0 {
                0
            } else if g < five {
                5
            } else {
                4
            };
            for _ in 0..cells {
                draft.cell(3, 1, 4);
            }
        }
    }
    draft.done(name, 3, 80, 1)
}

/// A row of cells that hang through all rows; the others are empty.
fn curtain(name: &str, cells: usize, rows: usize) -> Sheet {
    let mut draft = Draft::new();
    draft.table(0);
    for r in 0..rows {
        draft.plain(2, "row");
        if r == 0 {
            for _ in 0..cells {
                draft.cell(3, 1, rows);
            }
        }
    }
    draft.done(name, 3, 80, 1)
}

/// What speed is measured on. Those of one series grow in one thing alone and carry its name before a colon.
pub fn all() -> Vec<Sheet> {
    let long = "word and more ".repeat(4600);
    let (columns, total) = paired_columns(2047, 2043);
    vec![
        flat("1x2", 1, 2, true, false, 9),
        flat("8x6", 8, 6, true, false, 80),
        page(),
        flat("texts:4x12", 4, 12, true, false, 160),
        flat("texts:8x12", 8, 12, true, false, 160),
        flat("texts:20x12", 20, 12, true, false, 160),
        flat("texts:40x12", 40, 12, true, false, 160),
        flat("texts:80x12", 80, 12, true, false, 160),
        flat("texts:150x12", 150, 12, true, false, 160),
        flat("178x11", 178, 11, true, false, 160),
        flat("150x12-spans", 150, 12, true, true, 160),
        flat("empty:8x12", 8, 12, false, false, 160),
        flat("empty:80x12", 80, 12, false, false, 160),
        flat("empty:300x12", 300, 12, false, false, 160),
        small_tables("tables:33", 33, false),
        small_tables("tables:333", 333, false),
        small_tables("tables:1365", 1365, false),
        small_tables("819-tables-of-a-cell", 819, true),
        chains("chains:15x6", 15),
        chains("chains:161x6", 161),
        flat("1x1900-at-7000", 1, 1900, true, false, 7000),
        flat("1x1900-at-65535", 1, 1900, true, false, 65535),
        wide_spans("spans-of-1000", 1540),
        one_text("one-text", &long),
        shifted("4096-columns-193-lines"),
        columns.done("4096-columns-4096-lines", 3, total + 4095, 1),
        curtain("curtain:16x64", 16, 64),
        curtain("curtain:64x64", 64, 64),
        curtain("curtain:128x64", 128, 64),
        hanging_groups("hanging:51", 51, 0),
        hanging_groups("hanging:255", 255, 0),
        hanging_groups("hanging:511", 511, 4),
    ]
}

/// One row of texts of the given sizes.
fn row_of(sizes: &[usize]) -> Draft {
    let mut draft = Draft::new();
    draft.table(0);
    draft.plain(2, "row");
    for size in sizes {
        draft.cell(3, 1, 1);
        draft.text(4, &"x".repeat(*size));
    }
    draft
}

/// A sheet at a width at which something has to be cut and at one at which nothing has: what lies between the two is the cutting.
pub struct Cutting {
    pub cuts: u32,
    pub tight: Sheet,
    pub loose: Sheet,
}

/// At a width of all sizes together every share is the size, and the gaps are what is too much.
fn cut_gaps(columns: u32, draft: impl Fn() -> (Draft, u32)) -> Cutting {
    let (tight, total) = draft();
    let (loose, _) = draft();
    let gaps = columns - 1;
    let name = |w: &str| format!("cut-{columns}-{w}");
    Cutting { cuts: gaps, tight: tight.done(&name("tight"), 3, total, 1), loose: loose.done(&name("loose"), 3, total + gaps, 1) }
}

fn random_sizes(columns: usize) -> Vec<usize> {
    let mut random = Random::new();
    (0..columns).map(|_| 3 + random.below(37) as usize).collect()
}

/// 11 columns that keep their least of 500, and one of 48,000 that gives way to them, one character at a time.
fn cut_long() -> Cutting {
    let mut sizes = vec![500; 11];
    sizes.insert(5, 48_000);
    let (total, width) = (53_500, 6_100);
    let taken = 48_000 * width / total + 11 * 500 + 11 - width;
    let sheet = |name: &str, width: u32| row_of(&sizes).done(name, 500, width, 1);
    Cutting { cuts: taken, tight: sheet("cut-12-long-tight", width), loose: sheet("cut-12-long-loose", total + 11) }
}

pub fn cuttings() -> Vec<Cutting> {
    let row = |columns: usize| {
        let sizes = random_sizes(columns);
        (row_of(&sizes), sizes.iter().sum::<usize>() as u32)
    };
    vec![cut_gaps(12, || row(12)), cut_long(), cut_gaps(300, || row(300)), cut_gaps(4000, || paired_columns(1999, 1999))]
}

/// Texts for the measure alone: words, and all sorts of bytes that a text may hold.
pub fn texts() -> Vec<(String, Vec<u8>)> {
    let mut random = Random::new();
    let mut texts = Vec::new();
    for size in [10, 300, 4_000, 65_536] {
        let letter = |r: &mut Random| if r.below(6) == 0 { b' ' } else { b'a' + r.below(26) as u8 };
        texts.push((format!("words:{size}"), (0..size).map(|_| letter(&mut random)).collect()));
    }
    texts.push(("all-bytes:65536".to_string(), (0..65_536).map(|_| random.below(131) as u8).collect()));
    texts
}
