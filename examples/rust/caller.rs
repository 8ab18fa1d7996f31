// A caller in Rust: takes the name of an input as `layout` reads it, settings and a sheet, and shows what the calls say of its first table.
mod tables;

fn show(settings: [u32; 3], sheet: &[u8]) -> Result<(), tables::Refusal> {
    let [mut size, mut least, mut prefix, mut row, mut row_end] = [[0; tables::LINES]; 5];
    let [mut cell, mut first, mut span, mut x, mut wide, mut entry] = [[0; tables::ENTRIES]; 6];
    let [mut column, mut cause] = [[0; tables::COLUMNS]; 2];
    tables::check(sheet)?;
    println!("check: accepted");
    let [s, l, p] = tables::measure(b" a  b ", settings[0], false)?;
    println!("measure \" a  b \": size {s}, least {l}, prefix {p}");
    let [lines] = tables::estimates(sheet, settings[0], [&mut size, &mut least, &mut prefix])?;
    println!("estimates: {lines} lines; line 1 has size {}, least {}, prefix {}", size[0], least[0], prefix[0]);
    let is_table = |line: &[u8]| line.split(|b| *b == b' ').nth(1) == Some(b"table");
    let line = sheet.split(|b| *b == b'\n').position(is_table).unwrap_or(0) as u32;
    let [rows, entries, columns] = tables::grid(sheet, line, [&mut cell, &mut first, &mut span, &mut row, &mut row_end])?;
    println!("grid of line {line}: {rows} rows, {entries} entries, {columns} columns");
    let [way, columns, width] = tables::layout(sheet, line, settings, [&mut column, &mut x, &mut wide])?;
    println!("layout: {}, {columns} columns, {width} wide", if way == 1 { "down" } else { "sideways" });
    for i in 0..columns as usize {
        println!("column {i}: width {}", column[i]);
    }
    let mut i = 0;
    for r in 0..rows as usize {
        while i < row_end[r] as usize {
            println!("row {}, cell {}: x {}, width {}", row[r], cell[i], x[i], wide[i]);
            i += 1;
        }
    }
    let [count, columns] = tables::missing(sheet, line, settings, [&mut entry, &mut cause])?;
    println!("missing: {count} entries");
    for i in 0..count as usize {
        println!("entry {} is missing", entry[i]);
    }
    for i in 0..columns as usize {
        println!("column {i}: cause {}", cause[i]);
    }
    let [what, cell] = tables::at(sheet, line, settings, 0, 7)?;
    let [cells] = tables::within(sheet, line, settings, 0, [0, settings[2]], &mut entry)?;
    let [joint] = tables::joining(sheet, line, settings, 0, 6)?;
    println!("row 0: at 7 {what}, entry {cell}; within 0 to {} {cells} cells; joining at 6 {joint}", settings[2]);
    let [mut given, mut line_wide] = [[0; tables::LINES]; 2];
    let [lines] = tables::walk(sheet, settings, false, [&mut given, &mut line_wide])?;
    let with: u32 = given.iter().sum();
    println!("walk: {lines} lines, {with} with a width; line {lines} is {} wide", line_wide[lines as usize - 1]);
    let [given, at, way, columns, width] = tables::nested(sheet, line, settings, false, [&mut column, &mut x, &mut wide])?;
    println!("nested: given {given}, at {at}, {}, {columns} columns, {width} wide", if way == 1 { "down" } else { "sideways" });
    let widths = [0, 5, 6, 40];
    let [mut ways, mut totals, mut counts] = [[0; 4]; 3];
    let [lines] = tables::window(sheet, line, [settings[0], settings[1]], &widths, [&mut ways, &mut totals, &mut counts])?;
    println!("window: {lines} widths");
    for i in 0..lines as usize {
        println!("at {}: {}, {} wide, {} missing", widths[i], if ways[i] == 1 { "down" } else { "sideways" }, totals[i], counts[i]);
    }
    match tables::spoken(sheet, line, 0, b"blank") {
        Ok(text) => println!("spoken at entry 0: {} bytes", text.len()),
        Err(refusal) => println!("spoken at entry 0: refusal {}, line {}", refusal.number, refusal.line),
    }

    // the table beside itself
    let both = [line, line];
    let mut cell = [0; tables::ENTRIES];
    let [rows, entries, columns] = tables::joined_grid(sheet, both, [&mut cell, &mut first, &mut span, &mut row, &mut row_end])?;
    println!("joined with itself: {rows} rows, {entries} entries, {columns} columns");
    let [way, columns, width] = tables::joined_layout(sheet, both, settings, [&mut column, &mut x, &mut wide])?;
    println!("joined layout: {}, {columns} columns, {width} wide", if way == 1 { "down" } else { "sideways" });
    match tables::joined_spoken(sheet, both, 0, b"blank") {
        Ok(text) => println!("joined, spoken at entry 0: {} bytes", text.len()),
        Err(refusal) => println!("joined, spoken at entry 0: refusal {}, line {}", refusal.number, refusal.line),
    }
    Ok(())
}

fn main() {
    let input = std::fs::read(std::env::args().nth(1).expect("usage: caller INPUT")).expect("the input can be read");
    let [_, settings, sheet] = input.splitn(3, |b| *b == b'\n').collect::<Vec<_>>()[..] else { panic!("the input begins with the settings") };
    let settings: Vec<u32> = String::from_utf8_lossy(settings).split(' ').map(|n| n.parse().expect("a setting is a number")).collect();
    if let Err(refusal) = show(settings.try_into().expect("three settings"), sheet) {
        println!("refusal {}, line {}", refusal.number, refusal.line);
        std::process::exit(1);
    }
}
