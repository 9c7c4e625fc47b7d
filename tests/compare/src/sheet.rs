//! What the program `sheet` means: the records of `use.bin` taken to the figures of a sheet or to the number of a
//! refusal. The program is held against it with named sheets and with files from a seed.

pub mod case;
pub mod files;
pub mod held;
pub mod named;
#[cfg(test)]
mod wrong;

use crate::cipher::{by_number, LAST};
use crate::record::{Record, LENGTH};

/// A sheet takes so many bytes of records.
pub const MOST: usize = 40_960;

/// The numbers that a sheet is refused with, in the order in which they are judged.
pub const REFUSALS: [u8; 3] = [20, 21, 22];

/// The figures of a file: bytes for each line, for each cipher and in all; or the number of the first refusal that
/// applies. An absent file is none.
pub fn figures(file: Option<&[u8]>) -> Result<Vec<u64>, u8> {
    let bytes = file.unwrap_or(&[]);
    if !bytes.len().is_multiple_of(LENGTH) || bytes.len() > MOST {
        return Err(20);
    }
    let records: Vec<Record> = bytes.chunks(LENGTH).map(Record::read).collect();
    if records.iter().any(|record| record.line > 7 || by_number(record.cipher).is_none()) {
        return Err(21);
    }
    let total = records.iter().map(|record| u128::from(record.bytes)).sum::<u128>();
    if total >= 1 << 64 {
        return Err(22);
    }
    let sum = |of: &dyn Fn(&Record) -> bool| records.iter().filter(|r| of(r)).map(|r| r.bytes).sum::<u64>();
    let lines = (0..8).map(|line| sum(&|record| record.line == line));
    let ciphers = (1..=LAST).map(|cipher| sum(&|record| record.cipher == cipher));
    Ok(lines.chain(ciphers).chain([sum(&|_| true)]).collect())
}

/// What the program prints: a line for each figure, or the number of the refusal.
pub fn text(file: Option<&[u8]>) -> String {
    match figures(file) {
        Ok(figures) => figures.iter().map(|figure| format!("{figure}\n")).collect(),
        Err(number) => format!("{number}\n"),
    }
}

#[cfg(test)]
mod tests {
    use super::*;
    use crate::record::joined;

    #[test]
    fn figures_are_sums_over_their_records() {
        let of = |line, cipher, bytes| Record { line, cipher, bytes };
        let records = [of(0, 1, 5), of(7, 6, 1 << 40), of(0, 6, 7), of(3, 2, 0)];
        let wanted = "12\n0\n0\n0\n0\n0\n0\n1099511627776\n5\n0\n0\n0\n0\n1099511627783\n1099511627788\n";
        assert_eq!(text(Some(&joined(&records))), wanted);
        assert_eq!((text(None), text(Some(&[]))), ("0\n".repeat(15), "0\n".repeat(15)));
    }

    #[test]
    fn the_first_refusal_is_given() {
        let full = [0, 1, 255, 255, 255, 255, 255, 255, 255, 255];
        let one = [0, 1, 0, 0, 0, 0, 0, 0, 0, 1];
        let odd = [8, 1, 0, 0, 0, 0, 0, 0, 0, 0];
        assert_eq!(figures(Some(&full)).unwrap()[14], u64::MAX);
        assert_eq!(figures(Some(&[full, one].concat())), Err(22));
        assert_eq!(figures(Some(&[full, one, odd].concat())), Err(21));
        assert_eq!(figures(Some(&[&[full, one, odd].concat()[..], &[0]].concat())), Err(20));
        assert!(figures(Some(&one.repeat(4_096))).is_ok());
        assert_eq!(figures(Some(&one.repeat(4_097))), Err(20));
    }
}
