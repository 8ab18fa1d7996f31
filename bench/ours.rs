//! Our side: the calls of libtables_c.a and the buffers that are lent to them.

#[repr(C)]
pub struct CheckResult {
    pub number: u32,
    pub line: u32,
}

#[repr(C)]
pub struct MeasureResult {
    pub number: u32,
    pub line: u32,
    pub size: u32,
    pub least: u32,
    pub prefix: u32,
}

#[repr(C)]
pub struct EstimatesResult {
    pub number: u32,
    pub line: u32,
    pub lines: u32,
}

#[repr(C)]
pub struct GridResult {
    pub number: u32,
    pub line: u32,
    pub rows: u32,
    pub entries: u32,
    pub columns: u32,
}

#[repr(C)]
pub struct LayoutResult {
    pub number: u32,
    pub line: u32,
    pub way: u32,
    pub columns: u32,
    pub width: u32,
}

#[repr(C)]
pub struct WindowResult {
    pub number: u32,
    pub line: u32,
    pub count: u32,
}

/// A lent slice crosses as a pointer and a length.
type Bytes = *const u8;
type Lent = *mut u32;

unsafe extern "C" {
    fn tables_check(sheet: Bytes, n: usize) -> CheckResult;
    fn tables_measure(text: Bytes, n: usize, wrap: u32, img: u32) -> MeasureResult;
    fn tables_estimates(
        sheet: Bytes,
        n: usize,
        wrap: u32,
        size: Lent,
        size_n: usize,
        least: Lent,
        least_n: usize,
        prefix: Lent,
        prefix_n: usize,
    ) -> EstimatesResult;
    fn tables_grid(
        sheet: Bytes,
        n: usize,
        line: u32,
        cell: Lent,
        cell_n: usize,
        first: Lent,
        first_n: usize,
        span: Lent,
        span_n: usize,
        row: Lent,
        row_n: usize,
        row_end: Lent,
        row_end_n: usize,
    ) -> GridResult;
    fn tables_layout(
        sheet: Bytes,
        n: usize,
        line: u32,
        wrap: u32,
        raw: u32,
        width: u32,
        column: Lent,
        column_n: usize,
        x: Lent,
        x_n: usize,
        wide: Lent,
        wide_n: usize,
    ) -> LayoutResult;
    fn tables_window(
        sheet: Bytes,
        n: usize,
        line: u32,
        wrap: u32,
        raw: u32,
        widths: *const u32,
        widths_n: usize,
        way: Lent,
        way_n: usize,
        wide: Lent,
        wide_n: usize,
        missing: Lent,
        missing_n: usize,
    ) -> WindowResult;
}

const LINES: usize = 4096;
const ENTRIES: usize = 8192;
/// The most widths of one call of `window`.
pub const WIDTHS: usize = 1024;

/// The least places that the calls ask for, and of a report of `window` those of the longest list. They are made of ones, so that every page is there before the first call.
pub struct Buffers {
    pub size: Vec<u32>,
    pub least: Vec<u32>,
    pub prefix: Vec<u32>,
    pub cell: Vec<u32>,
    pub first: Vec<u32>,
    pub span: Vec<u32>,
    pub row: Vec<u32>,
    pub row_end: Vec<u32>,
    pub column: Vec<u32>,
    pub x: Vec<u32>,
    pub wide: Vec<u32>,
    pub way: Vec<u32>,
    pub table_wide: Vec<u32>,
    pub missing: Vec<u32>,
}

impl Buffers {
    pub fn new() -> Buffers {
        let lines = || vec![1; LINES];
        let entries = || vec![1; ENTRIES];
        let widths = || vec![1; WIDTHS];
        Buffers {
            size: lines(),
            least: lines(),
            prefix: lines(),
            cell: entries(),
            first: entries(),
            span: entries(),
            row: lines(),
            row_end: lines(),
            column: lines(),
            x: entries(),
            wide: entries(),
            way: widths(),
            table_wide: widths(),
            missing: widths(),
        }
    }

    pub fn estimates(&mut self, sheet: &[u8], wrap: u32) -> EstimatesResult {
        let (s, l, p) = (&mut self.size, &mut self.least, &mut self.prefix);
        unsafe { tables_estimates(sheet.as_ptr(), sheet.len(), wrap, s.as_mut_ptr(), s.len(), l.as_mut_ptr(), l.len(), p.as_mut_ptr(), p.len()) }
    }

    pub fn grid(&mut self, sheet: &[u8], line: u32) -> GridResult {
        let (c, f, s, r, e) = (&mut self.cell, &mut self.first, &mut self.span, &mut self.row, &mut self.row_end);
        unsafe {
            tables_grid(
                sheet.as_ptr(),
                sheet.len(),
                line,
                c.as_mut_ptr(),
                c.len(),
                f.as_mut_ptr(),
                f.len(),
                s.as_mut_ptr(),
                s.len(),
                r.as_mut_ptr(),
                r.len(),
                e.as_mut_ptr(),
                e.len(),
            )
        }
    }

    pub fn layout(&mut self, sheet: &[u8], line: u32, wrap: u32, raw: u32, width: u32) -> LayoutResult {
        let (c, x, w) = (&mut self.column, &mut self.x, &mut self.wide);
        unsafe {
            tables_layout(
                sheet.as_ptr(),
                sheet.len(),
                line,
                wrap,
                raw,
                width,
                c.as_mut_ptr(),
                c.len(),
                x.as_mut_ptr(),
                x.len(),
                w.as_mut_ptr(),
                w.len(),
            )
        }
    }

    pub fn window(&mut self, sheet: &[u8], line: u32, wrap: u32, raw: u32, widths: &[u32]) -> WindowResult {
        let (a, w, m) = (&mut self.way, &mut self.table_wide, &mut self.missing);
        unsafe {
            tables_window(
                sheet.as_ptr(),
                sheet.len(),
                line,
                wrap,
                raw,
                widths.as_ptr(),
                widths.len(),
                a.as_mut_ptr(),
                a.len(),
                w.as_mut_ptr(),
                w.len(),
                m.as_mut_ptr(),
                m.len(),
            )
        }
    }
}

pub fn check(sheet: &[u8]) -> CheckResult {
    unsafe { tables_check(sheet.as_ptr(), sheet.len()) }
}

pub fn measure(text: &[u8], wrap: u32, img: bool) -> MeasureResult {
    unsafe { tables_measure(text.as_ptr(), text.len(), wrap, img as u32) }
}
