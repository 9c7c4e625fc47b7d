//! Keystreams of annex C for the cases: two of 32 bytes or more for each cipher, and what opens a line with them,
//! loads and starts it, or changes a line's key to theirs.

use crate::annex::{self, Row};
use crate::cipher::{by_number, LAST};
use crate::command::{self, padded, IV, RECORD};

/// A keystream of annex C with its key and IV as a command holds them.
pub struct Published {
    pub cipher: u8,
    pub key: Vec<u8>,
    pub iv: Vec<u8>,
    pub stream: Vec<u8>,
}

impl Published {
    /// The keystream of a row; nothing if the row has other fields.
    pub fn of(row: &Row) -> Option<Published> {
        let [key, iv, stream] = row.bytes.as_slice() else {
            return None;
        };
        Some(Published { cipher: row.cipher, key: padded(key, RECORD), iv: padded(iv, IV), stream: stream.clone() })
    }

    /// Command 02 for the line.
    pub fn open(&self, line: u8) -> Vec<u8> {
        command::open_own(line, self.cipher, &self.key, &self.iv)
    }

    /// Command 01 for the line, with the key of this number.
    pub fn open_tray(&self, line: u8, number: u8) -> Vec<u8> {
        command::open_tray(line, self.cipher, number, &self.iv)
    }

    /// Command 08 for the line, with the key of this number.
    pub fn load(&self, line: u8, number: u8) -> Vec<u8> {
        command::load(line, self.cipher, number)
    }

    /// Command 09 for the line.
    pub fn start(&self, line: u8) -> Vec<u8> {
        command::start(line, &self.iv)
    }

    /// Command 07 for the line, with the key of this number and from this position on.
    pub fn change(&self, line: u8, number: u8, position: u64) -> Vec<u8> {
        command::change_key(line, number, &self.iv, position)
    }

    /// Whether the key is all zero.
    pub fn blank(&self) -> bool {
        self.key.iter().all(|&byte| byte == 0)
    }

    pub fn name(&self) -> &'static str {
        name(self.cipher)
    }

    pub fn unit(&self) -> usize {
        unit(self.cipher)
    }
}

/// For each cipher the last keystream of annex C that has 32 bytes or more and a key that isn't all zero.
pub fn each() -> Vec<Published> {
    pairs().into_iter().map(|[last, _]| last).collect()
}

/// For each cipher the last two such keystreams, the last one first.
pub fn pairs() -> Vec<[Published; 2]> {
    let rows = annex::keystreams();
    let last = |cipher: u8| {
        let fits = |p: &Published| p.cipher == cipher && p.stream.len() >= 32 && !p.blank();
        let mut found = rows.iter().rev().filter_map(Published::of).filter(fits);
        Some([found.next()?, found.next()?])
    };
    (1..=LAST).filter_map(last).collect()
}

/// The unit of a cipher, in bytes.
pub fn unit(cipher: u8) -> usize {
    by_number(cipher).map_or(1, |c| c.shape().unit)
}

pub fn name(cipher: u8) -> &'static str {
    match cipher {
        1 => "ZUC",
        2 => "Rabbit",
        3 => "SNOW 2.0 with 16 key bytes",
        4 => "SNOW 2.0 with 32 key bytes",
        5 => "KCipher-2",
        6 => "MUGI",
        _ => "no cipher",
    }
}

/// Some bytes that aren't all alike.
pub fn text(length: usize) -> Vec<u8> {
    (0..length).map(|i| (i * 31 + i / 256 + 7) as u8).collect()
}

#[cfg(test)]
mod tests {
    use super::*;

    #[test]
    fn each_cipher_has_two() {
        assert!(pairs().iter().map(|[p, _]| p.cipher).eq(1..=LAST));
        for [one, other] in pairs() {
            assert_eq!(one.cipher, other.cipher);
            assert_ne!((one.key, one.iv), (other.key, other.iv));
            assert_ne!(one.stream, other.stream);
        }
    }
}
