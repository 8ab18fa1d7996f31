// window.rs: the table in line 1 of an input, at the widths FIRST to LAST by STEP, in one call: which way it goes, how wide it is, how many entries
// are missing. The input is settings and a sheet, as `layout` reads it; of the settings wrap and raw count.
#[path = "../rust/tables.rs"]
#[allow(dead_code)]
mod tables;

fn show(sheet: &[u8], settings: [u32; 2], widths: &[u32]) -> Result<(), tables::Refusal> {
    let [mut way, mut wide, mut missing] = [(); 3].map(|_| vec![0; widths.len()]);
    let [count] = tables::window(sheet, 1, settings, widths, [&mut way, &mut wide, &mut missing])?;
    println!("width way wide missing");
    for i in 0..count as usize {
        println!("{} {} {} {}", widths[i], if way[i] == 1 { 'v' } else { 'h' }, wide[i], missing[i]);
    }
    Ok(())
}

fn main() {
    let words: Vec<String> = std::env::args().collect();
    let [_, input, first, last, step] = &words[..] else { panic!("usage: window INPUT FIRST LAST STEP") };
    let input = std::fs::read(input).expect("the input can be read");
    let [_, settings, sheet] = input.splitn(3, |b| *b == b'\n').collect::<Vec<_>>()[..] else { panic!("the input begins with the settings") };
    let number = |word: &str| word.parse::<u32>().expect("a number");
    let settings: Vec<u32> = String::from_utf8_lossy(settings).split(' ').map(number).collect();
    let widths: Vec<u32> = (number(first)..=number(last)).step_by(number(step) as usize).collect();
    if let Err(refusal) = show(sheet, [settings[0], settings[1]], &widths) {
        println!("refusal {}, line {}", refusal.number, refusal.line);
        std::process::exit(1);
    }
}
