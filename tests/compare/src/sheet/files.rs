//! Files of records from a seed. File k of a seed is the same whichever files are made before it.

use super::MOST;
use crate::cipher::LAST;
use crate::lists;
use crate::program;
use crate::random::Random;
use crate::record::{joined, Record, LENGTH};

/// File `number` of `seed`, and what it is. Of ten in a row, two are what runs of command lists leave, two have a few
/// records and many, two have a total beside 2^64, one has a record that is unknown, one has another length, one has two
/// faults at once, and one is any bytes.
pub fn file(seed: u64, number: u64) -> (&'static str, Vec<u8>) {
    let mut random = Random::new(seed, number);
    match number % 10 {
        0 | 1 => ("what runs leave", left(&mut random, seed)),
        2 => ("a few records", few(&mut random)),
        3 => ("many records", many(&mut random)),
        4 | 5 => ("a total beside 2^64", joined(&beside(&mut random))),
        6 => ("an unknown record", unknown(few(&mut random), &mut random)),
        7 => ("another length", other_length(few(&mut random), &mut random)),
        8 => ("two faults", two_faults(&mut random)),
        _ => {
            let length = LENGTH * random.size(1, 3);
            ("any bytes", random.bytes(length))
        }
    }
}

/// What runs of some command lists of the seed append, one behind the other.
fn left(random: &mut Random, seed: u64) -> Vec<u8> {
    let lists: Vec<u64> = (0..random.size(1, 6)).map(|_| random.between(0, 9_999)).collect();
    let mut bytes = Vec::new();
    for number in lists {
        let appended = joined(&program::run(&lists::list(seed, number).files).records);
        if bytes.len() + appended.len() <= MOST {
            bytes.extend(appended);
        }
    }
    bytes
}

/// A record of a line and a cipher that there are.
fn known(random: &mut Random, bytes: u64) -> Record {
    Record { line: random.between(0, 7) as u8, cipher: random.between(1, LAST.into()) as u8, bytes }
}

/// So many records of any size whose total is below 2^64.
fn records(random: &mut Random, count: usize) -> Vec<Record> {
    let mut left = u64::MAX;
    let mut records = Vec::new();
    for _ in 0..count {
        let bytes = (random.draw() >> random.between(0, 63)).min(left);
        left -= bytes;
        records.push(known(random, bytes));
    }
    records
}

fn few(random: &mut Random) -> Vec<u8> {
    let count = random.size(0, 40);
    joined(&records(random, count))
}

/// Up to as many as a sheet takes, often just as many.
fn many(random: &mut Random) -> Vec<u8> {
    let any = random.size(1_000, MOST / LENGTH);
    let count = random.pick(&[MOST / LENGTH, any]);
    let small = (0..count).map(|_| random.draw() >> random.between(12, 63)).collect::<Vec<_>>();
    joined(&small.into_iter().map(|bytes| known(random, bytes)).collect::<Vec<_>>())
}

/// Records with a total of 2^64 - 1, of 2^64, or a little less or more.
fn beside(random: &mut Random) -> Vec<Record> {
    let little = u128::from(random.between(2, 1 << 20));
    let near = [(1 << 64) - 1, 1 << 64, (1 << 64) - little, (1 << 64) + little];
    let mut left: u128 = random.pick(&near);
    let mut records = Vec::new();
    while left > 0 {
        let most = left.min(u64::MAX.into()) as u64;
        let bytes = if random.chance(20) { most } else { random.between(0, most) };
        left -= u128::from(bytes);
        records.push(known(random, bytes));
    }
    records
}

/// The bytes with one record, or one more, whose line or cipher there isn't.
fn unknown(mut bytes: Vec<u8>, random: &mut Random) -> Vec<u8> {
    let any = [random.between(8, 255) as u8, random.between(u64::from(LAST) + 1, 255) as u8];
    let odd = [(0, 8), (0, 255), (0, any[0]), (1, 0), (1, LAST + 1), (1, 255), (1, any[1])];
    let (place, byte) = random.pick(&odd);
    if bytes.is_empty() {
        bytes = known(random, 1).written().to_vec();
    }
    let last = bytes.len() / LENGTH - 1;
    let which = random.size(0, 2);
    let at = LENGTH * random.place(which, 0, last);
    bytes[at + place] = byte;
    bytes
}

/// The bytes with some more or fewer, or so often that they are too many.
fn other_length(mut bytes: Vec<u8>, random: &mut Random) -> Vec<u8> {
    if random.chance(50) {
        let more = random.size(1, LENGTH - 1);
        bytes.extend(random.bytes(more));
        return bytes;
    }
    let any = random.size(MOST + 1, 2 * MOST);
    let length = random.pick(&[MOST + 1, MOST + LENGTH, any]);
    let one = known(random, 1).written();
    bytes.extend(one.repeat(length / LENGTH + 1));
    bytes.truncate(length.max(MOST + 1));
    bytes
}

/// An unknown record beside a total over 2^64, or another length beside either.
fn two_faults(random: &mut Random) -> Vec<u8> {
    let over = [&beside(random)[..], &[known(random, u64::MAX), known(random, 1)]].concat();
    let (over, which) = (joined(&over), random.between(0, 2));
    match which {
        0 => unknown(over, random),
        1 => other_length(over, random),
        _ => {
            let bytes = unknown(few(random), random);
            other_length(bytes, random)
        }
    }
}

#[cfg(test)]
mod tests {
    use super::*;
    use crate::sheet::figures;

    #[test]
    fn each_number_is_met_in_forty_files() {
        let mut met = [0; 4];
        for number in 0..40 {
            let (_, bytes) = file(5, number);
            met[figures(Some(&bytes)).map_or_else(|number| usize::from(number) - 19, |_| 0)] += 1;
        }
        assert!(met.iter().all(|&count| count > 0), "{met:?}");
    }

    #[test]
    fn kinds_are_what_they_are_called() {
        for number in 0..200 {
            let (kind, bytes) = file(3, number);
            let got = figures(Some(&bytes)).err();
            match kind {
                "what runs leave" | "a few records" | "many records" => assert_eq!(got, None, "{number}"),
                "an unknown record" => assert_eq!(got, Some(21), "{number}"),
                "another length" => assert_eq!(got, Some(20), "{number}"),
                "two faults" => assert!([Some(20), Some(21)].contains(&got), "{number}"),
                _ => (),
            }
        }
    }

    #[test]
    fn files_follow_from_seed_and_number() {
        let (alone, again) = (file(9, 12), (file(9, 11), file(9, 12)).1);
        assert_eq!(alone, again);
        assert_ne!(alone, file(10, 12));
    }
}
