//! The calls of libtables_c.a, safe: a reference is never null and is aligned, and what is lent with `&mut` overlaps nothing, which is all that
//! they ask beside 1 MB of stack. What they answer, and what the refusals mean, stands in include/tables.h.

/// The least places of a lent buffer with one for each line or row, each entry, each column; those of `window` have one for each width.
pub const LINES: usize = 4096;
pub const ENTRIES: usize = 8192;
pub const COLUMNS: usize = 4096;

#[derive(Debug)]
pub struct Refusal {
    pub number: u32,
    pub line: u32,
}

/// Every result: the refusal, or 0 and 0, and then the figures of the call in the header's order.
#[repr(C)]
struct Answer<const N: usize> {
    number: u32,
    line: u32,
    figures: [u32; N],
}

impl<const N: usize> Answer<N> {
    fn result(self) -> Result<[u32; N], Refusal> {
        if self.number == 0 {
            Ok(self.figures)
        } else {
            Err(Refusal { number: self.number, line: self.line })
        }
    }
}

type In = *const u8;
type Listed = *const u32;
type Out = *mut u32;
extern "C" {
    fn tables_check(s: In, n: usize) -> Answer<0>;
    fn tables_measure(t: In, n: usize, wrap: u32, img: u32) -> Answer<3>;
    fn tables_estimates(s: In, n: usize, wrap: u32, a: Out, al: usize, b: Out, bl: usize, c: Out, cl: usize) -> Answer<1>;
    fn tables_grid(s: In, n: usize, line: u32, a: Out, al: usize, b: Out, bl: usize, c: Out, cl: usize, d: Out, dl: usize, e: Out, el: usize) -> Answer<3>;
    fn tables_layout(s: In, n: usize, line: u32, wrap: u32, raw: u32, width: u32, a: Out, al: usize, b: Out, bl: usize, c: Out, cl: usize) -> Answer<3>;
    fn tables_missing(s: In, n: usize, line: u32, wrap: u32, raw: u32, width: u32, a: Out, al: usize, b: Out, bl: usize) -> Answer<2>;
    fn tables_at(s: In, n: usize, line: u32, wrap: u32, raw: u32, width: u32, row: u32, x: u32) -> Answer<2>;
    fn tables_within(s: In, n: usize, line: u32, wrap: u32, raw: u32, width: u32, row: u32, from: u32, to: u32, a: Out, al: usize) -> Answer<1>;
    fn tables_joining(s: In, n: usize, line: u32, wrap: u32, raw: u32, width: u32, row: u32, x: u32) -> Answer<1>;
    fn tables_walk(s: In, n: usize, wrap: u32, raw: u32, width: u32, overflow: u32, a: Out, al: usize, b: Out, bl: usize) -> Answer<1>;
    fn tables_nested(s: In, n: usize, line: u32, wrap: u32, raw: u32, width: u32, overflow: u32, a: Out, al: usize, b: Out, bl: usize, c: Out, cl: usize) -> Answer<5>;
    fn tables_window(s: In, n: usize, line: u32, wrap: u32, raw: u32, w: Listed, wl: usize, a: Out, al: usize, b: Out, bl: usize, c: Out, cl: usize) -> Answer<1>;
    fn tables_spoken(s: In, n: usize, line: u32, entry: u32, w: In, wl: usize) -> Answer<3>;
    fn tables_joined_grid(s: In, n: usize, l: u32, r: u32, a: Out, al: usize, b: Out, bl: usize, c: Out, cl: usize, d: Out, dl: usize, e: Out, el: usize) -> Answer<3>;
    fn tables_joined_layout(s: In, n: usize, l: u32, r: u32, wrap: u32, raw: u32, width: u32, a: Out, al: usize, b: Out, bl: usize, c: Out, cl: usize) -> Answer<3>;
    fn tables_joined_spoken(s: In, n: usize, l: u32, r: u32, entry: u32, w: In, wl: usize) -> Answer<3>;
}

pub fn check(s: &[u8]) -> Result<[u32; 0], Refusal> {
    unsafe { tables_check(s.as_ptr(), s.len()) }.result()
}

/// size, least, prefix
pub fn measure(t: &[u8], wrap: u32, img: bool) -> Result<[u32; 3], Refusal> {
    unsafe { tables_measure(t.as_ptr(), t.len(), wrap, img as u32) }.result()
}

/// lines; lent: size, least, prefix
pub fn estimates(s: &[u8], wrap: u32, [a, b, c]: [&mut [u32]; 3]) -> Result<[u32; 1], Refusal> {
    unsafe { tables_estimates(s.as_ptr(), s.len(), wrap, a.as_mut_ptr(), a.len(), b.as_mut_ptr(), b.len(), c.as_mut_ptr(), c.len()) }.result()
}

/// rows, entries, columns; lent: cell, first, span, row, row_end
pub fn grid(s: &[u8], line: u32, [a, b, c, d, e]: [&mut [u32]; 5]) -> Result<[u32; 3], Refusal> {
    let (n, al, bl, cl, dl, el) = (s.len(), a.len(), b.len(), c.len(), d.len(), e.len());
    let (a, b, c, d, e) = (a.as_mut_ptr(), b.as_mut_ptr(), c.as_mut_ptr(), d.as_mut_ptr(), e.as_mut_ptr());
    unsafe { tables_grid(s.as_ptr(), n, line, a, al, b, bl, c, cl, d, dl, e, el) }.result()
}

/// way (0 sideways, 1 down), columns, width; settings: wrap, raw, width; lent: column, x, wide
pub fn layout(s: &[u8], line: u32, [wrap, raw, width]: [u32; 3], [a, b, c]: [&mut [u32]; 3]) -> Result<[u32; 3], Refusal> {
    let (al, bl, cl) = (a.len(), b.len(), c.len());
    let (a, b, c) = (a.as_mut_ptr(), b.as_mut_ptr(), c.as_mut_ptr());
    unsafe { tables_layout(s.as_ptr(), s.len(), line, wrap, raw, width, a, al, b, bl, c, cl) }.result()
}

/// count, columns; settings: wrap, raw, width; lent: entry, cause
pub fn missing(s: &[u8], line: u32, [wrap, raw, width]: [u32; 3], [a, b]: [&mut [u32]; 2]) -> Result<[u32; 2], Refusal> {
    unsafe { tables_missing(s.as_ptr(), s.len(), line, wrap, raw, width, a.as_mut_ptr(), a.len(), b.as_mut_ptr(), b.len()) }.result()
}

/// what (0 nothing, 1 gap, 2 cell), entry; settings: wrap, raw, width
pub fn at(s: &[u8], line: u32, [wrap, raw, width]: [u32; 3], row: u32, x: u32) -> Result<[u32; 2], Refusal> {
    unsafe { tables_at(s.as_ptr(), s.len(), line, wrap, raw, width, row, x) }.result()
}

/// count; settings: wrap, raw, width; stretch: from, to; lent: entry
pub fn within(s: &[u8], line: u32, [wrap, raw, width]: [u32; 3], row: u32, [from, to]: [u32; 2], a: &mut [u32]) -> Result<[u32; 1], Refusal> {
    unsafe { tables_within(s.as_ptr(), s.len(), line, wrap, raw, width, row, from, to, a.as_mut_ptr(), a.len()) }.result()
}

/// joint (0 plain, 1 up, 2 down, 3 both); settings: wrap, raw, width
pub fn joining(s: &[u8], line: u32, [wrap, raw, width]: [u32; 3], row: u32, x: u32) -> Result<[u32; 1], Refusal> {
    unsafe { tables_joining(s.as_ptr(), s.len(), line, wrap, raw, width, row, x) }.result()
}

/// lines; settings: wrap, raw, width; lent: given, wide
pub fn walk(s: &[u8], [wrap, raw, width]: [u32; 3], overflow: bool, [a, b]: [&mut [u32]; 2]) -> Result<[u32; 1], Refusal> {
    unsafe { tables_walk(s.as_ptr(), s.len(), wrap, raw, width, overflow as u32, a.as_mut_ptr(), a.len(), b.as_mut_ptr(), b.len()) }.result()
}

/// given, at, way (0 sideways, 1 down), columns, width; settings: wrap, raw, width; lent: column, x, wide
pub fn nested(s: &[u8], line: u32, [wrap, raw, width]: [u32; 3], overflow: bool, [a, b, c]: [&mut [u32]; 3]) -> Result<[u32; 5], Refusal> {
    let (al, bl, cl) = (a.len(), b.len(), c.len());
    let (a, b, c) = (a.as_mut_ptr(), b.as_mut_ptr(), c.as_mut_ptr());
    unsafe { tables_nested(s.as_ptr(), s.len(), line, wrap, raw, width, overflow as u32, a, al, b, bl, c, cl) }.result()
}

/// count; settings: wrap, raw; lent: way (0 sideways, 1 down), wide, missing, each with a place for each width
pub fn window(s: &[u8], line: u32, [wrap, raw]: [u32; 2], w: &[u32], [a, b, c]: [&mut [u32]; 3]) -> Result<[u32; 1], Refusal> {
    let (al, bl, cl) = (a.len(), b.len(), c.len());
    let (a, b, c) = (a.as_mut_ptr(), b.as_mut_ptr(), c.as_mut_ptr());
    unsafe { tables_window(s.as_ptr(), s.len(), line, wrap, raw, w.as_ptr(), w.len(), a, al, b, bl, c, cl) }.result()
}

/// the text that is spoken at a filler: a part of the sheet, or the whole wording
pub fn spoken<'a>(s: &'a [u8], line: u32, entry: u32, wording: &'a [u8]) -> Result<&'a [u8], Refusal> {
    let [of_sheet, from, length] = unsafe { tables_spoken(s.as_ptr(), s.len(), line, entry, wording.as_ptr(), wording.len()) }.result()?;
    Ok(if of_sheet == 1 { &s[from as usize..][..length as usize] } else { wording })
}

/// rows, entries, columns of two tables side by side; lent as those of `grid`
pub fn joined_grid(s: &[u8], [left, right]: [u32; 2], [a, b, c, d, e]: [&mut [u32]; 5]) -> Result<[u32; 3], Refusal> {
    let (n, al, bl, cl, dl, el) = (s.len(), a.len(), b.len(), c.len(), d.len(), e.len());
    let (a, b, c, d, e) = (a.as_mut_ptr(), b.as_mut_ptr(), c.as_mut_ptr(), d.as_mut_ptr(), e.as_mut_ptr());
    unsafe { tables_joined_grid(s.as_ptr(), n, left, right, a, al, b, bl, c, cl, d, dl, e, el) }.result()
}

/// way, columns, width of two tables side by side; settings and lent as those of `layout`
pub fn joined_layout(s: &[u8], [left, right]: [u32; 2], [wrap, raw, width]: [u32; 3], [a, b, c]: [&mut [u32]; 3]) -> Result<[u32; 3], Refusal> {
    let (al, bl, cl) = (a.len(), b.len(), c.len());
    let (a, b, c) = (a.as_mut_ptr(), b.as_mut_ptr(), c.as_mut_ptr());
    unsafe { tables_joined_layout(s.as_ptr(), s.len(), left, right, wrap, raw, width, a, al, b, bl, c, cl) }.result()
}

/// the text that is spoken at a filler of two tables side by side
pub fn joined_spoken<'a>(s: &'a [u8], [left, right]: [u32; 2], entry: u32, wording: &'a [u8]) -> Result<&'a [u8], Refusal> {
    let [of_sheet, from, length] = unsafe { tables_joined_spoken(s.as_ptr(), s.len(), left, right, entry, wording.as_ptr(), wording.len()) }.result()?;
    Ok(if of_sheet == 1 { &s[from as usize..][..length as usize] } else { wording })
}
