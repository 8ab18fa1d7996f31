// spoken.rs: the table in line 1 of an input, entry by entry: of a cell its line, of a filler the text that is spoken at it, or the wording given. The
// input is settings and a sheet, as `layout` reads it; no setting counts.
#[path = "../rust/tables.rs"]
#[allow(dead_code)]
mod tables;

fn show(sheet: &[u8], wording: &[u8]) -> Result<(), tables::Refusal> {
    let [mut cell, mut first, mut span] = [[0; tables::ENTRIES]; 3];
    let [mut row, mut row_end] = [[0; tables::LINES]; 2];
    let [_, entries, _] = tables::grid(sheet, 1, [&mut cell, &mut first, &mut span, &mut row, &mut row_end])?;
    for entry in 0..entries {
        match cell[entry as usize] {
            0 => println!("entry {entry}: a filler, spoken: {}", String::from_utf8_lossy(tables::spoken(sheet, 1, entry, wording)?)),
            line => println!("entry {entry}: the cell in line {line}"),
        }
    }
    Ok(())
}

fn main() {
    let words: Vec<String> = std::env::args().collect();
    let [_, input, wording] = &words[..] else { panic!("usage: spoken INPUT WORDING") };
    let input = std::fs::read(input).expect("the input can be read");
    let [_, _, sheet] = input.splitn(3, |b| *b == b'\n').collect::<Vec<_>>()[..] else { panic!("the input begins with the settings") };
    if let Err(refusal) = show(sheet, wording.as_bytes()) {
        println!("refusal {}, line {}", refusal.number, refusal.line);
        std::process::exit(1);
    }
}
