//! Named sheets: files with what the program prints of them written down beside them. What is written down is held of
//! the second implementation, and the program is held against that.

use super::case::Sheet;
use super::MOST;
use crate::cipher::LAST;
use crate::record::{joined, Record, LENGTH};

/// All named sheets.
pub fn all() -> Vec<Sheet> {
    let figures = [nothing(), each(), many(), places(), digits(), totals()];
    let refused = [lengths(), unknown(), last_unknown(), overflows(), order()];
    figures.into_iter().chain(refused).flatten().collect()
}

/// Holds all of them of the second implementation; tells how many there are, or the first that fails.
pub fn check() -> Result<usize, String> {
    let sheets = all();
    sheets.iter().try_for_each(Sheet::check)?;
    Ok(sheets.len())
}

fn record(line: u8, cipher: u8, bytes: u64) -> Record {
    Record { line, cipher, bytes }
}

/// The figures of records that have one line and one cipher, from what they come to.
fn alone(line: u8, cipher: u8, bytes: u64) -> [u64; 15] {
    let mut figures = [0; 15];
    for place in [usize::from(line), 7 + usize::from(cipher), 14] {
        figures[place] = bytes;
    }
    figures
}

/// As many records as a sheet takes, all alike.
fn full(bytes: u64) -> Vec<Record> {
    vec![record(1, 2, bytes); MOST / LENGTH]
}

/// Files without a byte to report on.
fn nothing() -> Vec<Sheet> {
    let zeros = "0\n0\n0\n0\n0\n0\n0\n0\n0\n0\n0\n0\n0\n0\n0\n";
    let empty = (1..=LAST).flat_map(|cipher| (0..8).map(move |line| record(line, cipher, 0))).collect::<Vec<_>>();
    vec![
        Sheet::of("no use.bin", None, zeros),
        Sheet::of("an empty use.bin", Some(Vec::new()), zeros),
        Sheet::of("a record of no bytes for each line and cipher", Some(joined(&empty)), zeros),
        Sheet::of("4,096 records of no bytes", Some(joined(&full(0))), zeros),
    ]
}

/// A record for each line and each cipher, alone and together.
fn each() -> Vec<Sheet> {
    let pairs = || (0..8).flat_map(|line| (1..=LAST).map(move |cipher| (line, cipher)));
    let single = |(line, cipher): (u8, u8)| {
        let bytes = 100 * u64::from(line) + u64::from(cipher);
        Sheet::new(format!("line {line}, cipher {cipher}"), &[record(line, cipher, bytes)], alone(line, cipher, bytes))
    };
    // Line i has 10^i bytes with each cipher; of its own, cipher c has 10^8 more for c records on line 0.
    let powers: Vec<Record> = pairs().map(|(line, cipher)| record(line, cipher, 10_u64.pow(line.into()))).collect();
    let more = (1..=LAST).flat_map(|cipher| vec![record(0, cipher, 100_000_000); cipher.into()]);
    let together: Vec<Record> = powers.iter().copied().chain(more).collect();
    let lines = [2_100_000_006, 60, 600, 6_000, 60_000, 600_000, 6_000_000, 60_000_000];
    let ciphers = [111_111_111, 211_111_111, 311_111_111, 411_111_111, 511_111_111, 611_111_111];
    let figures: Vec<u64> = lines.into_iter().chain(ciphers).chain([2_166_666_666]).collect();
    let figures: [u64; 15] = figures.try_into().expect("fifteen figures");
    let backwards: Vec<Record> = together.iter().rev().copied().collect();
    let both = [("one behind the other", together), ("the last first", backwards)];
    let both = both.map(|(how, records)| Sheet::new(format!("each line and each cipher, {how}"), &records, figures));
    pairs().map(single).chain(both).collect()
}

/// As many records as a sheet takes, one fewer, and two.
fn many() -> Vec<Sheet> {
    let of = |records: &[Record], bytes: u64| {
        Sheet::new(format!("{} records of {} bytes", records.len(), records[0].bytes), records, alone(1, 2, bytes))
    };
    let last = [&full(0)[1..], &[record(7, 6, 9)]].concat();
    let first = [&[record(7, 6, 9)], &full(0)[1..]].concat();
    vec![
        of(&full(3)[..2], 6),
        of(&full(3)[1..], 12_285),
        of(&full(3), 12_288),
        of(&full(1 << 51), 1 << 63),
        Sheet::new("4,096 records, the last of nine bytes", &last, alone(7, 6, 9)),
        Sheet::new("4,096 records, the first of nine bytes", &first, alone(7, 6, 9)),
    ]
}

/// Each byte of the count by itself.
fn places() -> Vec<Sheet> {
    let of = |place: usize| {
        let mut bytes = [3, 5, 0, 0, 0, 0, 0, 0, 0, 0];
        bytes[2 + place] = 0xA5;
        let figure = 0xA5_u64 << (8 * (7 - place));
        let printed: String = alone(3, 5, figure).map(|figure| format!("{figure}\n")).concat();
        Sheet::of(format!("byte {place} of the count"), Some(bytes.to_vec()), printed)
    };
    (0..8).map(of).collect()
}

/// Figures of one digit to twenty: on both sides of each power of ten.
fn digits() -> Vec<Sheet> {
    let powers = (1..=19).map(|digits| 10_u64.pow(digits));
    let of = |figure: u64| Sheet::new(format!("a figure of {figure}"), &[record(2, 4, figure)], alone(2, 4, figure));
    powers.flat_map(|power| [power - 1, power, power + 1]).map(of).collect()
}

/// Totals up to 2^64 - 1, on one line or on several.
fn totals() -> Vec<Sheet> {
    let most = u64::MAX;
    let part = most / 4_096;
    let parts = [vec![record(1, 2, part); 4_095], vec![record(1, 2, most - 4_095 * part)]].concat();
    let halves = [record(0, 1, 1 << 63), record(7, 6, (1 << 63) - 1)];
    let mut figures = [0; 15];
    (figures[0], figures[8], figures[7], figures[13], figures[14]) = (1 << 63, 1 << 63, most >> 1, most >> 1, most);
    vec![
        Sheet::new("2^64 - 2 bytes", &[record(5, 3, most - 1)], alone(5, 3, most - 1)),
        Sheet::new("2^64 - 1 bytes", &[record(5, 3, most)], alone(5, 3, most)),
        Sheet::new("2^64 - 1 bytes and none", &[record(5, 3, most), record(5, 3, 0)], alone(5, 3, most)),
        Sheet::new("2^64 - 2 bytes and one", &[record(5, 3, most - 1), record(5, 3, 1)], alone(5, 3, most)),
        Sheet::new("one byte and 2^64 - 2", &[record(5, 3, 1), record(5, 3, most - 1)], alone(5, 3, most)),
        Sheet::new("2^64 - 1 bytes by two lines and ciphers", &halves, figures),
        Sheet::new("2^64 - 1 bytes by 4,096 records", &parts, alone(1, 2, most)),
    ]
}

/// Number 20: lengths that are no multiple of ten, and those over 40,960.
fn lengths() -> Vec<Sheet> {
    let known = |length: usize| {
        let mut bytes = joined(&full(3)).repeat(length / MOST + 1);
        bytes.truncate(length);
        bytes
    };
    let torn = (1..10).chain(11..20).chain([40_951, 40_955, 40_959]);
    let longer = [40_961, 40_962, 40_965, 40_969, 40_970, 40_971, 40_980, 45_050, 65_530, 65_536, 81_920, 300_000];
    let of = |length: usize| Sheet::refused(format!("{length} bytes"), known(length), 20);
    torn.chain(longer).map(of).collect()
}

/// Number 21: each line and each cipher that there isn't.
fn unknown() -> Vec<Sheet> {
    let of = |what: String, line: u8, cipher: u8| Sheet::refused(what, joined(&[record(line, cipher, 1)]), 21);
    let lines = (8..=255).map(|line| of(format!("line {line}"), line, 1));
    let ciphers = [0].into_iter().chain(LAST + 1..=255).map(|cipher| of(format!("cipher {cipher}"), 0, cipher));
    let both =
        [(8, 0), (8, 7), (255, 255)].map(|(line, cipher)| of(format!("line {line}, cipher {cipher}"), line, cipher));
    lines.chain(ciphers).chain(both).collect()
}

/// Number 21: such a record among others, first, in the middle and last, and of no bytes.
fn last_unknown() -> Vec<Sheet> {
    let of = |place: usize, line: u8, cipher: u8, bytes: u64| {
        let mut records = full(3);
        records[place] = record(line, cipher, bytes);
        Sheet::refused(format!("line {line}, cipher {cipher}, {bytes} bytes in place {place}"), joined(&records), 21)
    };
    let each = [(8, 2), (1, 0), (1, 7)];
    let places = [0, 1, 2_048, 4_094, 4_095];
    let all = places
        .into_iter()
        .flat_map(|place| each.map(|(line, cipher)| [0, 5].map(|bytes| (place, line, cipher, bytes))));
    all.flatten().map(|(place, line, cipher, bytes)| of(place, line, cipher, bytes)).collect()
}

/// Number 22: totals of 2^64 and more, on one line or on several, and such that 64 bits would have come round.
fn overflows() -> Vec<Sheet> {
    let (most, half) = (u64::MAX, 1 << 63);
    let of = |name: &str, records: &[Record]| Sheet::refused(name, joined(records), 22);
    vec![
        of("2^64 - 1 bytes and one", &[record(5, 3, most), record(5, 3, 1)]),
        of("one byte and 2^64 - 1", &[record(5, 3, 1), record(5, 3, most)]),
        of("2^64 - 1 bytes and one, by two lines", &[record(5, 3, most), record(6, 3, 1)]),
        of("2^64 - 1 bytes and one, by two ciphers", &[record(5, 3, most), record(5, 4, 1)]),
        of("2^64 - 1 bytes and one, by two lines and ciphers", &[record(0, 1, most), record(7, 6, 1)]),
        of("2^63 bytes twice", &[record(5, 3, half), record(5, 3, half)]),
        of("2^63 bytes three times", &[record(5, 3, half), record(6, 4, half), record(7, 5, half)]),
        of("2^64 - 1 bytes twice", &[record(5, 3, most), record(6, 4, most)]),
        of("2^63 bytes, none and 2^63", &[record(5, 3, half), record(6, 4, 0), record(7, 5, half)]),
        of("4,096 records of 2^52 bytes", &full(1 << 52)),
        of("4,096 records of 2^53 bytes", &full(1 << 53)),
        of("4,096 records of 2^64 - 1 bytes", &full(most)),
        of("the last of 4,096 records is one byte too many", &one_too_many()),
    ]
}

/// 4,096 records of 2^64 bytes in all, the last of one.
fn one_too_many() -> Vec<Record> {
    let part = u64::MAX / 4_095;
    let first = u64::MAX - 4_094 * part;
    [vec![record(0, 1, first)], vec![record(1, 2, part); 4_094], vec![record(2, 3, 1)]].concat()
}

/// The order: 20 before 21 before 22, whichever stands first in the file.
fn order() -> Vec<Sheet> {
    let (most, line, cipher) = (record(1, 1, u64::MAX), record(8, 1, 1), record(1, 0, 1));
    let with = |mut bytes: Vec<u8>, more: &[u8]| {
        bytes.extend(more);
        bytes
    };
    let long = |place: usize, odd: Record| {
        let mut records = [full(0), full(0)[..1].to_vec()].concat();
        records[place] = odd;
        joined(&records)
    };
    let wrong = |records: &[Record]| joined(records);
    vec![
        Sheet::refused("a line that there isn't behind 2^64 bytes", wrong(&[most, most, line]), 21),
        Sheet::refused("a cipher that there isn't behind 2^64 bytes", wrong(&[most, most, cipher]), 21),
        Sheet::refused("a line that there isn't before 2^64 bytes", wrong(&[line, most, most]), 21),
        Sheet::refused("a line that there isn't among 2^64 bytes", wrong(&[most, line, most]), 21),
        Sheet::refused("2^64 bytes only with a line that there isn't", wrong(&[most, line]), 21),
        Sheet::refused("a line that there isn't and a byte more", with(wrong(&[line]), &[0]), 20),
        Sheet::refused("a cipher that there isn't and nine bytes more", with(wrong(&[cipher]), &[0; 9]), 20),
        Sheet::refused("a part of a record, its line one that there isn't", with(wrong(&[most]), &[8, 0]), 20),
        Sheet::refused("2^64 bytes and a byte more", with(wrong(&[most, most]), &[1]), 20),
        Sheet::refused(
            "2^64 bytes, a line that there isn't and a byte more",
            with(wrong(&[most, most, line]), &[1]),
            20,
        ),
        Sheet::refused("4,097 records, the first of a line that there isn't", long(0, line), 20),
        Sheet::refused("4,097 records, the last of a cipher that there isn't", long(4_096, cipher), 20),
        Sheet::refused("4,097 records of 2^64 bytes and more", joined(&vec![most; 4_097]), 20),
    ]
}

#[cfg(test)]
mod tests {
    use super::*;
    use std::collections::HashSet;

    #[test]
    fn sheets_hold_and_have_names_of_their_own() {
        assert_eq!(check(), Ok(722));
        let sheets = all();
        let names: HashSet<&str> = sheets.iter().map(Sheet::name).collect();
        assert_eq!(names.len(), sheets.len());
    }
}
