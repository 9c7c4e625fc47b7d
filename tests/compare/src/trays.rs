//! Key trays: records of several makes, and which of them a cipher can be opened with.

use crate::cipher::by_number;
use crate::command::{padded, RECORD};
use crate::machine::TRAY;
use crate::random::Random;

/// A record: mostly a key of 16 bytes and zeros, else one of 32, a blank one, a short one, one byte alone, or one with
/// a stray byte.
pub fn record(random: &mut Random) -> Vec<u8> {
    let mut record = random.bytes(RECORD);
    match random.between(0, 19) {
        0..=9 => record[16..].fill(0),
        10..=13 => (),
        14 => record.fill(0),
        15 => record[8..].fill(0),
        16 => record = padded(&random.alone(16), RECORD),
        17 => record = random.alone(RECORD),
        _ => {
            record[16..].fill(0);
            let place = random.size(16, RECORD - 1);
            record[place] = random.odd_byte();
        }
    }
    record
}

/// A tray of `count` records.
pub fn records(random: &mut Random, count: usize) -> Vec<u8> {
    (0..count).flat_map(|_| record(random)).collect()
}

/// A tray of any allowed length; now and then it is empty or has all 256 records.
pub fn any(random: &mut Random) -> Vec<u8> {
    let count = match random.between(0, 19) {
        0 => 0,
        1 => 256,
        2 => random.size(17, 255),
        _ => random.size(1, 16),
    };
    records(random, count)
}

/// A tray of up to eight records, the first of which serves every cipher.
pub fn useful(random: &mut Random) -> Vec<u8> {
    let more = random.size(0, 7);
    let mut tray = padded(&random.bytes(16), RECORD);
    tray.extend(records(random, more));
    tray
}

/// Such a tray with one record after it that has a stray byte beyond a key of 16, at a place that `which` names.
pub fn with_stray(random: &mut Random, which: usize) -> Vec<u8> {
    let key = random.bytes(16);
    let stray = stray(random, which, &key);
    [useful(random), stray].concat()
}

/// Such a tray with two records after it that begin with 16 zeros: one with a stray byte beyond them, and a blank one.
pub fn with_blank(random: &mut Random, which: usize) -> Vec<u8> {
    let stray = stray(random, which, &[0; 16]);
    [useful(random), stray, vec![0; RECORD]].concat()
}

/// A record of a key of 16 bytes with a stray byte beyond it.
fn stray(random: &mut Random, which: usize, key: &[u8]) -> Vec<u8> {
    let mut record = padded(key, RECORD);
    record[random.place(which, 16, RECORD - 1)] = random.odd_byte();
    record
}

/// A tray whose length number 9 refuses.
pub fn bad_length(random: &mut Random) -> Vec<u8> {
    let length = match random.between(0, 5) {
        0 => random.size(1, RECORD - 1),
        1 => RECORD * random.size(1, 255) + random.size(1, RECORD - 1),
        2 => TRAY + RECORD * random.size(1, 100),
        3 => TRAY + 1,
        4 => TRAY - 1,
        _ => random.pick(&[TRAY + RECORD, 16_384, 20_000]),
    };
    random.bytes(length)
}

/// The key numbers that open a line with this cipher; none if the tray's length is refused.
pub fn keys(tray: &[u8], cipher: u8) -> Vec<u8> {
    numbers(tray, cipher, false, false)
}

/// The key numbers whose record has a stray byte for this cipher or has none, and a key that is blank or one that
/// isn't; none if the tray's length is refused.
pub fn numbers(tray: &[u8], cipher: u8, stray: bool, blank: bool) -> Vec<u8> {
    if !tray.len().is_multiple_of(RECORD) || tray.len() > TRAY {
        return Vec::new();
    }
    let length = by_number(cipher).map_or(RECORD, |c| c.shape().key);
    let zero = |bytes: &[u8]| bytes.iter().all(|&byte| byte == 0);
    let wanted = |record: &[u8]| zero(&record[..length]) == blank && zero(&record[length..]) != stray;
    let numbered = tray.chunks_exact(RECORD).zip(0..=255u8);
    numbered.filter(|(record, _)| wanted(record)).map(|(_, number)| number).collect()
}
