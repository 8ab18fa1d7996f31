//! Both sides in one process, on the same sheets: compared first, then measured.
//!
//!   driver compare            every figure of both sides on every sheet, `window` at 1,024 widths too; any difference ends the run
//!   driver times [NAME..]     compare, then warm times
//!   driver cold [NAME..]      with 64 MB walked before each call, and as the first call on a new stack
//!   driver window [NAME..]    compare, then warm times of `window` over lists of widths, and of what stands for it
//!   driver counts [NAME..]    one warm call of each, for valgrind --tool=callgrind --collect-atstart=no
//!   driver loop NAME CALL     one call again and again for two seconds, for a profiler
//!
//! NAMEs are sheets or texts; without any, all are taken (cold, window: a few). Lines of output, times in nanoseconds:
//!   sheet NAME lines bytes tables entries columns wrap width cuts
//!   warm|cold|stack NAME CALL TIME
//!   clock TIME                what an empty call is measured to take
//! A CALL is named side.what; report.py makes tables out of them.
mod ours;
mod rust_side;
mod sheets;

use ours::Buffers;
use rust_side::{Answers, Handle, Line};
use sheets::Sheet;
use std::hint::black_box;
use std::time::{Duration, Instant};

/// The settings' raw. Down the page there is less to do, on both sides.
const RAW: u32 = 0;

// ---------------------------------------------------------------- measuring

/// What is done around a measured call.
#[derive(Clone, Copy, PartialEq)]
enum Mode {
    Time,
    Cold,
    Count,
    Off,
}

struct Meter {
    mode: Mode,
    /// The time of the call before.
    taken: Duration,
    walk: Vec<u8>,
}

impl Meter {
    fn new(mode: Mode) -> Meter {
        let size = if mode == Mode::Cold { 64 << 20 } else { 0 };
        Meter { mode, taken: Duration::ZERO, walk: vec![1; size] }
    }

    /// Measures f alone: what is made before and what is dropped after it does not count.
    fn run<R>(&mut self, f: impl FnOnce() -> R) -> R {
        for i in (0..self.walk.len()).step_by(64) {
            self.walk[i] = self.walk[i].wrapping_add(1);
        }
        match self.mode {
            Mode::Off => f(),
            Mode::Count => {
                toggle_collect();
                let result = f();
                toggle_collect();
                result
            }
            Mode::Time | Mode::Cold => {
                let cpu = cpu_time();
                let start = Instant::now();
                let result = f();
                self.taken = start.elapsed();
                if self.taken > LONG {
                    self.taken = self.taken.min(cpu_time() - cpu);
                }
                result
            }
        }
    }
}

/// A call this long seldom runs through where others use the machine too, and the longer call, which is mostly the Rust's, would carry more of
/// their time. From here on the thread's own processor time counts; below, reading that clock would weigh too much.
const LONG: Duration = Duration::from_micros(200);

#[repr(C)]
struct Timespec {
    seconds: i64,
    nanoseconds: i64,
}

unsafe extern "C" {
    fn clock_gettime(clock: i32, time: *mut Timespec) -> i32;
    fn mallopt(parameter: i32, value: i32) -> i32;
}

/// Linux's CLOCK_THREAD_CPUTIME_ID.
const THREAD_CPU_TIME: i32 = 3;

fn cpu_time() -> Duration {
    let mut time = Timespec { seconds: 0, nanoseconds: 0 };
    let answer = unsafe { clock_gettime(THREAD_CPU_TIME, &mut time) };
    assert_eq!(answer, 0);
    Duration::new(time.seconds as u64, time.nanoseconds as u32)
}

/// A request to valgrind (the same instructions do nothing on a bare processor): see its valgrind.h.
fn valgrind_request(request: usize, argument: usize) {
    let arguments: [usize; 6] = [request, argument, 0, 0, 0, 0];
    unsafe {
        std::arch::asm!("rol rdi, 3", "rol rdi, 13", "rol rdi, 61", "rol rdi, 51", "xchg rbx, rbx",
            inout("rdx") 0usize => _, in("rax") arguments.as_ptr(), in("rdi") 0usize);
    }
}

fn toggle_collect() {
    valgrind_request(0x43540002, 0);
}

fn dump_counts(label: &str) {
    let label = format!("{label}\0");
    valgrind_request(0x43540003, label.as_ptr() as usize);
}

/// A call to be measured, with its preparations.
struct Call<'a> {
    name: &'static str,
    run: Box<dyn FnMut(&mut Meter) + 'a>,
}

fn call<'a>(name: &'static str, run: impl FnMut(&mut Meter) + 'a) -> Call<'a> {
    Call { name, run: Box::new(run) }
}

/// Warm: rounds over all calls, each called some milliseconds on end, so that a disturbance meets them alike. The least time counts.
fn warm_times(name: &str, calls: &mut [Call]) {
    let mut meter = Meter::new(Mode::Time);
    let mut least = vec![Duration::MAX; calls.len()];
    for _ in 0..9 {
        for (call, least) in calls.iter_mut().zip(&mut least) {
            let start = Instant::now();
            let mut k = 0;
            while k < 3 || (start.elapsed().as_millis() < 8 && k < 2000) {
                (call.run)(&mut meter);
                *least = meter.taken.min(*least);
                k += 1;
            }
        }
    }
    for (call, least) in calls.iter().zip(least) {
        println!("warm {name} {} {}", call.name, least.as_nanos());
    }
}

/// What an empty call is measured to take.
fn clock_cost() {
    let mut meter = Meter::new(Mode::Time);
    let empty = |_| {
        meter.run(|| black_box(0));
        meter.taken
    };
    println!("clock {}", (0..100_000).map(empty).min().unwrap().as_nanos());
}

fn median(mut times: Vec<Duration>) -> u128 {
    times.sort();
    times[times.len() / 2].as_nanos()
}

/// Caches cold: the median of 25 calls.
fn cold_times(name: &str, calls: &mut [Call]) {
    let mut meter = Meter::new(Mode::Cold);
    for call in calls {
        let timed = |_| {
            (call.run)(&mut meter);
            meter.taken
        };
        println!("cold {name} {} {}", call.name, median((0..25).map(timed).collect()));
    }
}

/// One warm call of each under callgrind.
fn count(name: &str, calls: &mut [Call]) {
    for call in calls {
        (call.run)(&mut Meter::new(Mode::Off));
        (call.run)(&mut Meter::new(Mode::Count));
        dump_counts(&format!("{name} {}", call.name));
    }
}

/// One call for two seconds.
fn repeat(sheet: &Sheet, name: &str) {
    let r = Ready::new(sheet);
    let mut buffers = [Buffers::new(), Buffers::new(), Buffers::new()];
    let mut calls = main_calls(&r, &mut buffers);
    let call = calls.iter_mut().find(|c| c.name == name).expect("a call's name");
    let start = Instant::now();
    while start.elapsed().as_secs() < 2 {
        (call.run)(&mut Meter::new(Mode::Off));
    }
}

// ------------------------------------------------------------ what is called

/// A sheet made ready for both sides.
struct Ready {
    bytes: Vec<u8>,
    line: u32,
    wrap: u32,
    width: u32,
    lines: Vec<Line>,
    dom: Handle,
}

impl Ready {
    fn new(sheet: &Sheet) -> Ready {
        let lines = rust_side::read(&sheet.bytes);
        let dom = rust_side::plant(&lines);
        Ready { bytes: sheet.bytes.clone(), line: sheet.line, wrap: sheet.wrap, width: sheet.width, lines, dom }
    }
}

/// The public calls, and what the Rust does for the same figures. Its document tree is there before and is not dropped in the measured time;
/// `rust.layout` and `rust.layouts` use up and drop the render tree, as html2text does, the others hand their result out. `rust.dropped` is
/// `rust.layout` with the document tree dropped as well.
fn main_calls<'a>(r: &'a Ready, buffers: &'a mut [Buffers; 3]) -> Vec<Call<'a>> {
    let [b0, b1, b2] = buffers;
    vec![
        call("ours.check", |m| drop(m.run(|| black_box(ours::check(black_box(&r.bytes)))))),
        call("ours.estimates", |m| drop(m.run(|| black_box(b0.estimates(black_box(&r.bytes), r.wrap))))),
        call("rust.estimates", |m| drop(m.run(|| black_box(rust_side::estimated(&r.dom, r.wrap))))),
        call("ours.grid", |m| drop(m.run(|| black_box(b1.grid(black_box(&r.bytes), r.line))))),
        call("rust.grid", |m| drop(m.run(|| black_box(rust_side::tree(&r.dom))))),
        call("ours.layout", |m| drop(m.run(|| black_box(b2.layout(black_box(&r.bytes), r.line, r.wrap, RAW, r.width))))),
        call("rust.layout", |m| drop(m.run(|| black_box(rust_side::layout(&r.dom, r.line, r.wrap, RAW, r.width))))),
        call("rust.layouts", |m| drop(m.run(|| black_box(rust_side::layouts(&r.dom, r.wrap, RAW, r.width))))),
        call("rust.dropped", move |m| {
            let dom = rust_side::plant(&r.lines);
            drop(m.run(move || {
                let total = black_box(rust_side::layout(&dom, r.line, r.wrap, RAW, r.width));
                drop(dom);
                total
            }))
        }),
    ]
}

/// The harness's reading and tree, and the Rust's steps one by one, without drops.
fn step_calls(r: &Ready) -> Vec<Call<'_>> {
    let tables = || rust_side::tables(&rust_side::estimated(&r.dom, r.wrap), r.lines.len());
    vec![
        call("harness.read", |m| drop(m.run(|| black_box(rust_side::read(black_box(&r.bytes)))))),
        call("harness.plant", |m| drop(m.run(|| black_box(rust_side::plant(black_box(&r.lines)))))),
        call("step.grids", |m| {
            let rows = rust_side::rows_of_tables(&r.dom);
            drop(m.run(|| black_box(rust_side::grids(rows))))
        }),
        call("step.estimates", |m| {
            let tree = rust_side::tree(&r.dom);
            m.run(|| rust_side::estimate(black_box(&tree), r.wrap))
        }),
        call("step.widths", move |m| {
            let tables = tables();
            drop(m.run(|| black_box(rust_side::lay(tables, RAW, r.width))))
        }),
        call("step.places", move |m| {
            let laid = rust_side::lay(tables(), RAW, r.width);
            drop(m.run(|| black_box(rust_side::place(laid))))
        }),
    ]
}

/// So many widths from 0 to 1,023, equally far apart.
fn widths(count: usize) -> Vec<u32> {
    (0..ours::WIDTHS as u32).step_by(ours::WIDTHS / count).collect()
}

/// The asked table at 1,024 widths: by one call of `window`, by as many calls of `layout`, and by the Rust, its render tree made once
/// (`rust.window`) or for each width anew (`rust.window-layouts`), as by a caller that keeps the document tree alone. With fewer widths to see
/// whether the time grows by the width.
fn window_calls<'a>(r: &'a Ready, buffers: &'a mut [Buffers; 3]) -> Vec<Call<'a>> {
    let [b0, b1, b2] = buffers;
    let (all, half, eighth) = (widths(ours::WIDTHS), widths(ours::WIDTHS / 2), widths(ours::WIDTHS / 8));
    let (by_layout, theirs, by_their_layout) = (all.clone(), all.clone(), all.clone());
    let mut one = Buffers::new();
    vec![
        call("ours.window", move |m| drop(m.run(|| black_box(b0.window(black_box(&r.bytes), r.line, r.wrap, RAW, &all))))),
        call("ours.window-512", move |m| drop(m.run(|| black_box(b1.window(black_box(&r.bytes), r.line, r.wrap, RAW, &half))))),
        call("ours.window-128", move |m| drop(m.run(|| black_box(b2.window(black_box(&r.bytes), r.line, r.wrap, RAW, &eighth))))),
        call("ours.window-layouts", move |m| {
            m.run(|| {
                for width in &by_layout {
                    black_box(one.layout(black_box(&r.bytes), r.line, r.wrap, RAW, *width));
                }
            })
        }),
        call("rust.window", move |m| drop(m.run(|| black_box(rust_side::window(&r.dom, r.lines.len(), r.line, r.wrap, RAW, &theirs))))),
        call("rust.window-layouts", move |m| {
            m.run(|| {
                for width in &by_their_layout {
                    black_box(rust_side::layout(&r.dom, r.line, r.wrap, RAW, *width));
                }
            })
        }),
    ]
}

const TEXT_WRAP: u32 = 3;

fn text_calls(name: &str, bytes: &[u8], run: fn(&str, &mut [Call])) {
    let node = rust_side::text_node(bytes);
    let mine = ours::measure(bytes, TEXT_WRAP, false);
    assert_eq!([mine.number, mine.line], [0, 0], "{name}");
    assert_eq!([mine.size, mine.least, mine.prefix], rust_side::measure(&node, TEXT_WRAP), "{name}");
    let mut calls = [
        call("ours.measure", |m| _ = m.run(|| black_box(ours::measure(black_box(bytes), TEXT_WRAP, false)))),
        call("rust.measure", |m| _ = m.run(|| black_box(rust_side::measure(black_box(&node), TEXT_WRAP)))),
    ];
    run(name, &mut calls);
}

// ---------------------------------------------------------------- comparing

fn compare_estimates(name: &str, r: &Ready, buffers: &mut Buffers, answers: &Answers) {
    let e = buffers.estimates(&r.bytes, r.wrap);
    assert_eq!([e.number, e.line, e.lines], [0, 0, r.lines.len() as u32], "{name}: estimates");
    for (i, theirs) in answers.estimates.iter().enumerate() {
        let mine = [buffers.size[i], buffers.least[i], buffers.prefix[i]];
        assert_eq!(mine, theirs.unwrap_or_default(), "{name}: estimate of line {}", i + 1);
    }
}

fn compare_table(name: &str, r: &Ready, buffers: &mut Buffers, theirs: &rust_side::TableAnswer) {
    let line = theirs.line;
    let g = buffers.grid(&r.bytes, line);
    assert_eq!([g.number, g.line], [0, 0], "{name}: grid of {line}");
    assert_eq!([g.rows, g.entries, g.columns], [theirs.rows.len() as u32, theirs.entries.len() as u32, theirs.columns], "{name}: grid of {line}");
    for (i, entry) in theirs.entries.iter().enumerate() {
        assert_eq!([buffers.cell[i], buffers.first[i], buffers.span[i]], *entry, "{name}: entry {i} of {line}");
    }
    for (i, row) in theirs.rows.iter().enumerate() {
        assert_eq!([buffers.row[i], buffers.row_end[i]], *row, "{name}: row {i} of {line}");
    }
    let l = buffers.layout(&r.bytes, line, r.wrap, RAW, r.width);
    assert_eq!([l.number, l.line], [0, 0], "{name}: layout of {line}");
    assert_eq!([l.way, l.columns, l.width], [theirs.way, theirs.columns, theirs.width], "{name}: layout of {line}");
    assert_eq!(buffers.column[..theirs.widths.len()], theirs.widths, "{name}: widths of {line}");
    let mut start = 0;
    for (row, printed) in theirs.rows.iter().zip(&theirs.printed) {
        let end = row[1] as usize;
        let mine: Vec<[u32; 3]> = (start..end).filter(|i| buffers.wide[*i] > 0).map(|i| [buffers.cell[i], buffers.x[i], buffers.wide[i]]).collect();
        // down the page the places are docs/FORMAT.md's own: each cell at 0, as wide as the page
        let theirs_placed: Vec<[u32; 3]> = printed.iter().map(|p| if theirs.way == 1 { [p[0], 0, r.width] } else { *p }).collect();
        assert_eq!(mine, theirs_placed, "{name}: places of {line}");
        start = end;
    }
}

/// Every figure that both sides have; then a line about the sheet.
fn compare(sheet: &Sheet, cuts: u32) {
    let name = &sheet.name;
    let r = Ready::new(sheet);
    let answers = rust_side::answers(&r.lines, r.wrap, RAW, r.width);
    let mut buffers = Buffers::new();
    let c = ours::check(&r.bytes);
    assert_eq!([c.number, c.line], [0, 0], "{name}: check");
    compare_estimates(name, &r, &mut buffers, &answers);
    for table in &answers.tables {
        compare_table(name, &r, &mut buffers, table);
    }
    let sum = answers.tables.iter().fold(0u32, |sum, t| sum.wrapping_add(t.width));
    let total = rust_side::layouts(&r.dom, r.wrap, RAW, r.width);
    assert_eq!([total.tables, total.width], [answers.tables.len() as u32, sum], "{name}: the Rust with itself");
    let asked = answers.tables.iter().find(|t| t.line == r.line).unwrap();
    assert_eq!(rust_side::layout(&r.dom, r.line, r.wrap, RAW, r.width).width, asked.width, "{name}: the Rust with itself");
    let entries: usize = answers.tables.iter().map(|t| t.entries.len()).sum();
    let columns = answers.tables.iter().map(|t| t.columns).max().unwrap();
    let (lines, bytes, tables) = (r.lines.len(), r.bytes.len(), answers.tables.len());
    println!("sheet {name} {lines} {bytes} {tables} {entries} {columns} {} {} {cuts}", r.wrap, r.width);
}

/// Every line of the report, against the Rust's layouts and our own.
fn compare_window(sheet: &Sheet) {
    let name = &sheet.name;
    let r = Ready::new(sheet);
    let (mut buffers, mut one) = (Buffers::new(), Buffers::new());
    let widths = widths(ours::WIDTHS);
    let w = buffers.window(&r.bytes, r.line, r.wrap, RAW, &widths);
    assert_eq!([w.number, w.line, w.count], [0, 0, widths.len() as u32], "{name}: window");
    let theirs = rust_side::window(&r.dom, r.lines.len(), r.line, r.wrap, RAW, &widths);
    for (i, (&width, theirs)) in widths.iter().zip(theirs).enumerate() {
        assert_eq!([buffers.way[i], buffers.table_wide[i], buffers.missing[i]], theirs, "{name}: window at {width}");
        let l = one.layout(&r.bytes, r.line, r.wrap, RAW, width);
        assert_eq!([buffers.way[i], buffers.table_wide[i]], [l.way, l.width], "{name}: window and layout at {width}");
    }
}

// -------------------------------------------------------------------- modes

/// glibc gives the top of the heap back where a large tree is dropped, and the next call pays for the pages again: by where things happen to lie,
/// the Rust then takes up to 1.7 times as long. Here the heap is kept, and threads share it: the best case for the Rust, and a steady one.
fn keep_heap() {
    const TRIM_THRESHOLD: i32 = -1;
    const TOP_PAD: i32 = -2;
    const MMAP_THRESHOLD: i32 = -3;
    const ARENA_MAX: i32 = -8;
    for (parameter, value) in [(TRIM_THRESHOLD, 1 << 30), (TOP_PAD, 64 << 20), (MMAP_THRESHOLD, 32 << 20), (ARENA_MAX, 1)] {
        assert_eq!(unsafe { mallopt(parameter, value) }, 1);
    }
}

/// Every sheet with the number of characters to be cut where that is the point of it.
fn all_sheets() -> Vec<(Sheet, u32)> {
    let plain = sheets::all().into_iter().map(|s| (s, 0));
    let cut = sheets::cuttings().into_iter().flat_map(|c| [(c.tight, c.cuts), (c.loose, 0)]);
    plain.chain(cut).collect()
}

fn measure_window(sheet: &Sheet) {
    let r = Ready::new(sheet);
    let mut buffers = [Buffers::new(), Buffers::new(), Buffers::new()];
    warm_times(&sheet.name, &mut window_calls(&r, &mut buffers));
}

fn measure_sheet(sheet: &Sheet, run: fn(&str, &mut [Call])) {
    let r = Ready::new(sheet);
    let mut buffers = [Buffers::new(), Buffers::new(), Buffers::new()];
    run(&sheet.name, &mut main_calls(&r, &mut buffers));
    if !sheet.name.starts_with("cut-") {
        run(&sheet.name, &mut step_calls(&r));
    }
}

/// The first call on a new stack: pages that no call has touched yet. The median of 15 threads.
fn stack_times(sheet: &Sheet) {
    let count = main_calls(&Ready::new(sheet), &mut [Buffers::new(), Buffers::new(), Buffers::new()]).len();
    for k in 0..count {
        let once = || {
            let r = Ready::new(sheet);
            let mut buffers = [Buffers::new(), Buffers::new(), Buffers::new()];
            let mut calls = main_calls(&r, &mut buffers);
            let mut meter = Meter::new(Mode::Time);
            (calls[k].run)(&mut meter);
            (calls[k].name, meter.taken)
        };
        let threads =
            (0..15).map(|_| std::thread::scope(|s| std::thread::Builder::new().stack_size(8 << 20).spawn_scoped(s, once).unwrap().join().unwrap()));
        let (names, times): (Vec<_>, Vec<_>) = threads.unzip();
        println!("stack {} {} {}", sheet.name, names[0], median(times));
    }
}

/// Where cold caches and new stacks are measured unless sheets are named.
const COLD: [&str; 7] = ["1x2", "8x6", "300-lines", "texts:150x12", "tables:1365", "one-text", "hanging:511"];

/// Where `window` is measured unless sheets are named: three sizes, and a series that grows in rows.
const WINDOW: [&str; 6] = ["8x6", "texts:20x12", "texts:40x12", "texts:80x12", "texts:150x12", "1x1900-at-7000"];

fn main() {
    keep_heap();
    let mut arguments = std::env::args().skip(1);
    let mode = arguments.next().unwrap_or_default();
    let names: Vec<String> = arguments.collect();
    if let ("loop", [sheet, call]) = (mode.as_str(), names.as_slice()) {
        let sheets = all_sheets();
        return repeat(&sheets.iter().find(|s| s.0.name == *sheet).expect("a sheet's name").0, call);
    }
    let few: Option<&[&str]> = match mode.as_str() {
        "cold" => Some(&COLD),
        "window" => Some(&WINDOW),
        _ => None,
    };
    let asked = |name: &str| if names.is_empty() { few.is_none_or(|few| few.contains(&name)) } else { names.iter().any(|n| n == name) };
    if mode == "window" {
        clock_cost();
        for (sheet, cuts) in all_sheets().iter().filter(|s| asked(&s.0.name)) {
            compare(sheet, *cuts);
            compare_window(sheet);
            measure_window(sheet);
        }
        return;
    }
    let run = match mode.as_str() {
        "compare" => |_: &str, _: &mut [Call]| {},
        "times" => warm_times,
        "cold" => cold_times,
        "counts" => count,
        _ => {
            eprintln!("driver compare|times|cold|counts|window [NAME..], driver loop NAME CALL");
            std::process::exit(2)
        }
    };
    if mode == "times" {
        clock_cost();
    }
    for (sheet, cuts) in all_sheets().iter().filter(|s| asked(&s.0.name)) {
        if mode != "counts" {
            compare(sheet, *cuts);
        }
        if mode == "compare" {
            compare_window(sheet);
        }
        if mode != "compare" {
            measure_sheet(sheet, run);
        }
        if mode == "cold" {
            stack_times(sheet);
        }
    }
    for (name, bytes) in sheets::texts().iter().filter(|t| asked(&t.0)) {
        text_calls(name, bytes, run);
    }
}
