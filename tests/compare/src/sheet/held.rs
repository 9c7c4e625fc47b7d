//! The program `sheet` held against the second implementation: each file is written to a fresh folder as `use.bin`, the
//! program is run there, and what it prints is compared.

use super::case::Sheet;
use super::{figures, files, named, text, REFUSALS};
use crate::process::{contents, first_line, write, Program};
use crate::report::Progress;
use crate::subject::{Tally, Which};
use std::path::Path;

/// Holds the program at a path: the named sheets and as many files of the seed as there are lists, or that of the one
/// list and nothing else. With `keep`, every folder stays.
pub fn hold_all(path: &Path, keep: bool, which: &Which) -> Result<Tally, String> {
    let program = Program::new(path, keep, "--sheet")?;
    println!("seed {}, {}", which.seed, program.name());
    let mut sum = Tally::default();
    if which.only.is_none() {
        for sheet in named::all() {
            sum.add(&hold_named(&program, &sheet)?);
        }
    }
    let numbers = which.numbers();
    let progress = Progress::new(numbers.end - numbers.start, "sheets");
    for number in numbers {
        sum.add(&hold_number(&program, which.seed, number)?);
        progress.at(sum.sheets);
    }
    Ok(sum)
}

/// Holds a named sheet.
fn hold_named(program: &Program, sheet: &Sheet) -> Result<Tally, String> {
    let told = |told| format!("named sheet \"{}\": {told}", sheet.name());
    Ok(Tally { named: 1, ..hold(program, "sheet", &sheet.file).map_err(told)? })
}

/// Holds file `number` of a seed.
fn hold_number(program: &Program, seed: u64, number: u64) -> Result<Tally, String> {
    let (kind, bytes) = files::file(seed, number);
    let again = format!("to run it again: compare --seed {seed} --only {number}");
    let told = |told| format!("sheet {number} of seed {seed} ({kind}): {told}\n{again}");
    Ok(Tally { sheets: 1, ..hold(program, &format!("sheet-{number}"), &Some(bytes)).map_err(told)? })
}

/// Holds one file, which must stay as it is, and counts its number.
fn hold(program: &Program, label: &str, file: &Option<Vec<u8>>) -> Result<Tally, String> {
    program.in_folder(label, |folder| {
        write(folder, "use.bin", file)?;
        let printed = program.execute(folder)?;
        if let Some(told) = first_line(&text(file.as_deref()), &printed) {
            return Err(told);
        }
        if contents(folder, "use.bin")? == *file {
            return Ok(());
        }
        Err("use.bin was changed".to_string())
    })?;
    let mut tally = Tally::default();
    let met = figures(file.as_deref()).err().and_then(|number| REFUSALS.iter().position(|&refusal| refusal == number));
    tally.reports[met.map_or(0, |place| place + 1)] += 1;
    Ok(tally)
}
