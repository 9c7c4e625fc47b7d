//! Sheets that are wrong, each in a way of its own: the named sheets find every one of them, and so do files from a seed.

use super::{figures, files, named, text, MOST};
use crate::process::first_line;
use crate::record::{joined, Record, LENGTH};

/// What a wrong program prints of a file.
type Way = (&'static str, fn(&[u8]) -> String);

/// What is refused, and in which order.
static REFUSED: [Way; 25] = [
    ("a total is not tested", |file| loose(file, |_| true, |_| true)),
    ("22 for a total of 2^64 - 1", |file| instead(file, |bytes| total(bytes) == u128::from(u64::MAX), "22\n")),
    ("22 for a figure of a line alone", |file| {
        let over = |line: u8| total_of(file, |record| record.line == line) >> 64 > 0;
        if figures(Some(file)) == Err(22) && !(0..8).any(over) {
            loose(file, |_| true, |_| true)
        } else {
            right(file)
        }
    }),
    ("a total is tested at the last record alone", |file| {
        let last = file.len().saturating_sub(LENGTH);
        let over = (total(&file[..last]) as u64).checked_add(total(&file[last..]) as u64).is_none();
        loose(file, |_| false, if over { |_| false } else { |_| true })
    }),
    ("22 for every figure over 2^63", |file| instead(file, |bytes| total(bytes) >> 63 > 0, "22\n")),
    ("22 before 21", |file| instead_of(21, file, |bytes| total(bytes) >> 64 > 0, "22\n")),
    ("22 before 21, where it is met first", |file| {
        let so_far = |at: usize| total(&file[..LENGTH * at]) >> 64 > 0;
        let met = (0..file.len() / LENGTH).take_while(|&at| known(&file[LENGTH * at..])).any(|at| so_far(at + 1));
        instead_of(21, file, |_| met, "22\n")
    }),
    ("22 before 20", |file| instead_of(20, file, |bytes| total(bytes) >> 64 > 0, "22\n")),
    ("21 before 20", |file| instead_of(20, file, |bytes| !bytes.chunks_exact(LENGTH).all(known), "21\n")),
    ("21 by a torn record before 20", |file| instead_of(20, file, |bytes| bytes.len() > 10 && bytes[10] > 7, "21\n")),
    ("a record of no bytes is not judged", |file| loose(file, |record| record.bytes == 0, |_| false)),
    ("the last record is not judged", |file| match file.len().checked_sub(LENGTH) {
        Some(at) if figures(Some(&file[..at])).is_ok() => loose(file, |_| true, |_| false),
        _ => right(file),
    }),
    ("the first record is judged alone", |file| match file.get(..LENGTH).map(known) {
        Some(true) => loose(file, |_| true, |_| false),
        _ => right(file),
    }),
    ("line 8 is taken", |file| loose(file, |record| record.line == 8 && cipher(record), |_| false)),
    ("every line is taken", |file| loose(file, cipher, |_| false)),
    ("the line by its lowest four bits", |file| {
        loose(file, |record| record.line % 16 < 8 && cipher(record), |_| false)
    }),
    ("cipher 0 is taken", |file| loose(file, |record| record.cipher == 0 && record.line < 8, |_| false)),
    ("cipher 7 is taken", |file| loose(file, |record| record.cipher == 7 && record.line < 8, |_| false)),
    ("cipher 255 is taken", |file| loose(file, |record| record.cipher == 255 && record.line < 8, |_| false)),
    ("every cipher is taken", |file| loose(file, |record| record.line < 8, |_| false)),
    ("a torn record is left out", |file| right(&file[..file.len() / LENGTH * LENGTH])),
    ("a longer file is cut", |file| right(&file[..file.len().min(MOST)])),
    ("4,097 records are taken", |file| match file.len() {
        40_970 => loose(&file[..MOST], |_| false, |_| false),
        _ => right(file),
    }),
    ("4,096 records are too many", |file| instead(file, |bytes| bytes.len() == MOST, "20\n")),
    ("nothing to report on is 20", |file| instead(file, |bytes| bytes.is_empty(), "20\n")),
];

/// What the figures are.
static FIGURES: [Way; 14] = [
    ("the ciphers a row on", |file| changed(file, |figures| figures[8..14].rotate_right(1))),
    ("the lines a row on", |file| changed(file, |figures| figures[..8].rotate_right(1))),
    ("the ciphers before the lines", |file| changed(file, |figures| figures[..14].rotate_left(8))),
    ("the total first", |file| changed(file, |figures| figures.rotate_right(1))),
    ("the last line first", |file| changed(file, |figures| figures[..8].reverse())),
    ("both ciphers of SNOW 2.0 as one", |file| {
        changed(file, |figures| figures[10] += std::mem::take(&mut figures[11]))
    }),
    ("the total is the last cipher's", |file| changed(file, |figures| figures[14] = figures[13])),
    ("the total of the lines and of the ciphers", |file| {
        changed(file, |figures| figures[14] = figures[14].wrapping_mul(2))
    }),
    ("figures of 32 bits", |file| {
        changed(file, |figures| figures.iter_mut().for_each(|figure| *figure &= 0xFFFF_FFFF))
    }),
    ("the last record is not counted", |file| counted(file, |at, all| at + 1 < all)),
    ("the first record is not counted", |file| counted(file, |at, _| at > 0)),
    ("records are counted and not their bytes", |file| read(file, |record| Record { bytes: 1, ..record })),
    ("the lowest byte first", |file| read(file, |record| Record { bytes: record.bytes.swap_bytes(), ..record })),
    ("the lower word first", |file| read(file, |record| Record { bytes: record.bytes.rotate_left(32), ..record })),
];

/// What is printed.
static PRINTED: [Way; 11] = [
    ("a zero in front", |file| right(file).lines().map(|line| format!("0{line}\n")).collect()),
    ("no digit for zero", |file| {
        right(file).lines().map(|line| if line == "0" { "\n".into() } else { format!("{line}\n") }).collect()
    }),
    ("twenty digits each", |file| right(file).lines().map(|line| format!("{line:0>20}\n")).collect()),
    ("a space before each", |file| right(file).lines().map(|line| format!(" {line}\n")).collect()),
    ("all in one line", |file| right(file).trim_end().replace('\n', " ") + "\n"),
    ("no newline at the end", |file| right(file).trim_end().to_string()),
    ("no figure of the last line", |file| lines(file, |lines| drop(lines.remove(7)))),
    ("a figure of cipher 0", |file| lines(file, |lines| lines.insert(8, "0".into()))),
    ("a figure of cipher 7", |file| lines(file, |lines| lines.insert(14, "0".into()))),
    ("no total", |file| lines(file, |lines| drop(lines.pop()))),
    ("figures behind the number of a refusal", |file| match figures(Some(file)) {
        Err(number) => format!("{number}\n{}", "0\n".repeat(15)),
        Ok(_) => right(file),
    }),
];

/// What is printed where there is no file.
static ABSENT: [(&str, &str); 3] =
    [("an absent file is refused", "20\n"), ("nothing is printed", ""), ("one figure is printed", "0\n")];

fn right(file: &[u8]) -> String {
    text(Some(file))
}

/// The records of a file, as far as they are whole.
fn records(file: &[u8]) -> Vec<Record> {
    file.chunks_exact(LENGTH).map(Record::read).collect()
}

fn total_of(file: &[u8], of: impl Fn(&Record) -> bool) -> u128 {
    records(file).iter().filter(|record| of(record)).map(|record| u128::from(record.bytes)).sum()
}

fn total(file: &[u8]) -> u128 {
    total_of(file, |_| true)
}

fn cipher(record: &Record) -> bool {
    (1..=6).contains(&record.cipher)
}

/// Whether the record at the start of some bytes is of a line and a cipher that there are.
fn known(bytes: &[u8]) -> bool {
    bytes.len() >= LENGTH && Record::read(bytes).line < 8 && cipher(&Record::read(bytes))
}

/// What is right, or another text where the sheet is reported and something holds of the file.
fn instead(file: &[u8], so: fn(&[u8]) -> bool, other: &str) -> String {
    if figures(Some(file)).is_ok() && so(file) {
        other.to_string()
    } else {
        right(file)
    }
}

/// The same where the sheet is refused with this number.
fn instead_of(number: u8, file: &[u8], so: impl Fn(&[u8]) -> bool, other: &str) -> String {
    if figures(Some(file)) == Err(number) && so(file) {
        other.to_string()
    } else {
        right(file)
    }
}

/// The sheet of a file that is refused with 21 or 22: records that are taken though they are unknown count for the total
/// and for no figure that there isn't, and a total that passes is what is left of it in 64 bits.
fn loose(file: &[u8], taken: fn(&Record) -> bool, passes: fn(u128) -> bool) -> String {
    let all = records(file);
    let unknown = all.iter().any(|record| !known(&record.written()) && !taken(record));
    let whole = file.len().is_multiple_of(LENGTH) && file.len() <= MOST;
    if !whole || unknown || total(file) >> 64 > 0 && !passes(total(file)) {
        return right(file);
    }
    let sum = |of: &dyn Fn(&Record) -> bool| total_of(file, of) as u64;
    let lines = (0..8).map(|line| sum(&|record| record.line == line));
    let ciphers = (1..=6).map(|cipher| sum(&|record| record.cipher == cipher));
    lines.chain(ciphers).chain([sum(&|_| true)]).map(|figure| format!("{figure}\n")).collect()
}

/// The sheet with other figures.
fn changed(file: &[u8], change: fn(&mut Vec<u64>)) -> String {
    match figures(Some(file)) {
        Ok(mut figures) => {
            change(&mut figures);
            figures.iter().map(|figure| format!("{figure}\n")).collect()
        }
        Err(_) => right(file),
    }
}

/// The sheet with other lines.
fn lines(file: &[u8], change: fn(&mut Vec<String>)) -> String {
    let mut lines: Vec<String> = right(file).lines().map(String::from).collect();
    if figures(Some(file)).is_ok() {
        change(&mut lines);
    }
    lines.iter().map(|line| format!("{line}\n")).collect()
}

/// The sheet of some of the records.
fn counted(file: &[u8], keep: fn(usize, usize) -> bool) -> String {
    let all = records(file);
    let kept: Vec<Record> = (0..).zip(&all).filter(|&(at, _)| keep(at, all.len())).map(|(_, record)| *record).collect();
    if figures(Some(file)).is_ok() {
        right(&joined(&kept))
    } else {
        right(file)
    }
}

/// The sheet of records that are read wrongly.
fn read(file: &[u8], of: fn(Record) -> Record) -> String {
    let other: Vec<Record> = records(file).into_iter().map(of).collect();
    if figures(Some(file)).is_ok() {
        right(&joined(&other))
    } else {
        right(file)
    }
}

/// Asserts that some of the files tell each way, and that none tells what is right.
fn find_every_one(files: &[Vec<u8>]) {
    let tells = |wrong: fn(&[u8]) -> String| {
        files.iter().any(|file| first_line(&right(file), wrong(file).as_bytes()).is_some())
    };
    assert!(!tells(right));
    for (name, wrong) in REFUSED.iter().chain(&FIGURES).chain(&PRINTED) {
        assert!(tells(*wrong), "{name}");
    }
}

#[test]
fn the_sheet_of_no_file_finds_every_wrong_one() {
    let sheets = named::all();
    let absent = sheets.iter().filter(|sheet| sheet.file.is_none());
    assert_eq!(absent.count(), 1);
    for (name, printed) in ABSENT {
        assert!(first_line(&text(None), printed.as_bytes()).is_some(), "{name}");
    }
}

#[test]
fn named_sheets_find_every_wrong_sheet() {
    find_every_one(&named::all().into_iter().filter_map(|sheet| sheet.file).collect::<Vec<_>>());
}

#[test]
fn files_from_a_seed_find_every_wrong_sheet() {
    find_every_one(&(0..500).map(|number| files::file(1, number).1).collect::<Vec<_>>());
}
