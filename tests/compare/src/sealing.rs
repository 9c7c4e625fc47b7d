//! Sealed records: MULTI-S01 (6.2.3) over any of the ciphers, and what the pair that seals and opens them answers.

use crate::cipher::{by_number, Cipher};
use crate::command::{self, padded, IV, RECORD};
use crate::field64::{inverse, times};
use crate::hex;
use crate::keys;
use std::iter;

/// The bytes of a block, and of a redundancy.
pub const BLOCK: usize = 8;

/// The longest message, and what sealing adds to a message: two blocks.
pub const MESSAGE: usize = 16_384;
pub const ADDED: usize = 2 * BLOCK;

/// So many blocks are tried for the multiplier.
pub const TRIES: usize = 4_096;

/// The numbers that the pair refuses with, in the order in which they are judged.
pub const REFUSALS: [u8; 6] = [23, 4, 7, 16, 12, 24];

/// What a call of the pair answers: 0 or a refusal, or 255 where an array hasn't its length.
pub const CODES: [u8; 8] = [0, 255, 23, 4, 7, 16, 12, 24];

/// Which of the pair.
#[derive(Clone, Copy, Debug, PartialEq, Eq)]
pub enum Way {
    Seal,
    Open,
}

/// What both ends of a record must have the same of.
#[derive(Clone, Debug, PartialEq, Eq)]
pub struct Terms {
    pub cipher: u8,
    pub key: [u8; RECORD],
    pub iv: [u8; IV],
    pub redundancy: [u8; BLOCK],
}

impl Terms {
    /// The message sealed or opened, for an out of `room` bytes; or the number of the first refusal that applies.
    pub fn answer(&self, way: Way, text: &[u8], room: usize) -> Result<Vec<u8>, u8> {
        let message = match way {
            Way::Seal => Some(text.len()),
            Way::Open => text.len().checked_sub(ADDED),
        };
        let message = message.filter(|length| *length <= MESSAGE && length.is_multiple_of(BLOCK)).ok_or(23)?;
        let written = if way == Way::Seal { message + ADDED } else { message };
        let cipher = self.admitted(written, room)?;
        let keystream = blocks_of(cipher, &self.key, &self.iv);
        let redundancy = u64::from_be_bytes(self.redundancy);
        let worked = match way {
            Way::Seal => sealed(keystream, redundancy, &read(text)),
            Way::Open => opened(keystream, redundancy, &read(text)),
        };
        worked.map(|blocks| write(&blocks)).ok_or(24)
    }

    /// A sealing of a message with other ends, for terms that are admitted: these go into the padding and into the
    /// redundancy.
    pub fn forged(&self, message: &[u8], padding: u64, redundancy: u64) -> Option<Vec<u8>> {
        let mut z = blocks_of(by_number(self.cipher)?, &self.key, &self.iv);
        let (a, message) = (multiplier(&mut z)?, read(message));
        let z: Vec<u64> = z.take(message.len() + 3).collect();
        let ends = [z[message.len() + 2] ^ padding, u64::from_be_bytes(self.redundancy) ^ redundancy];
        Some(write(&chained(a, &z, &[&message[..], &ends].concat())))
    }

    /// The cipher, past the checks of an open with its own key and of the room for what is written.
    fn admitted(&self, written: usize, room: usize) -> Result<&'static dyn Cipher, u8> {
        let cipher = by_number(self.cipher).ok_or(4)?;
        let open = command::open_own(0, self.cipher, &self.key, &self.iv);
        let refusals =
            [(7, keys::stray(cipher, &open, &[])), (16, keys::blank(cipher, &open, &[])), (12, room < written)];
        refusals.iter().find(|(_, applies)| *applies).map_or(Ok(cipher), |(number, _)| Err(*number))
    }
}

/// The blocks of a string of bytes, the first byte of each highest.
fn read(bytes: &[u8]) -> Vec<u64> {
    bytes.chunks(BLOCK).map(|block| block.iter().fold(0, |x, &byte| (x << 8) | u64::from(byte))).collect()
}

fn write(blocks: &[u64]) -> Vec<u8> {
    blocks.iter().flat_map(|block| block.to_be_bytes()).collect()
}

/// Z_0, Z_1, .. of a key and an IV: the bytes of the keystream, eight to a block.
fn blocks_of(cipher: &'static dyn Cipher, key: &[u8], iv: &[u8]) -> impl Iterator<Item = u64> {
    let shape = cipher.shape();
    let mut state = cipher.init(&key[..shape.key], &iv[..shape.iv]);
    let unit = move || {
        let unit = cipher.strm(&state);
        cipher.next(&mut state);
        unit
    };
    let mut bytes = iter::repeat_with(unit).flatten();
    iter::repeat_with(move || bytes.by_ref().take(BLOCK).fold(0, |x, byte| (x << 8) | u64::from(byte)))
}

/// Step 1 of b) and of c): Z_t, after which the keystream goes on with Z_(t+1); none if no block that is tried will do.
fn multiplier(z: &mut impl Iterator<Item = u64>) -> Option<u64> {
    z.take(TRIES).find(|&block| block != 0)
}

/// Out of 6.2.3 b): C_0 to C_(u+1) of P_0 to P_(u-1).
pub fn sealed(mut z: impl Iterator<Item = u64>, redundancy: u64, message: &[u64]) -> Option<Vec<u64>> {
    let a = multiplier(&mut z)?;
    let z: Vec<u64> = z.take(message.len() + 3).collect();
    Some(chained(a, &z, &[message, &[z[message.len() + 2], redundancy]].concat()))
}

/// Step 5 of b): each C_i is the product of Z_t and W_i, which is P_i with Z_(t+i+1) added, with W_(i-1) added.
fn chained(a: u64, z: &[u64], p: &[u64]) -> Vec<u64> {
    let w: Vec<u64> = p.iter().zip(z).map(|(p, z)| p ^ z).collect();
    let before = [&[0], &w[..]].concat();
    w.iter().zip(before).map(|(&w, before)| times(a, w) ^ before).collect()
}

/// Its inverse, 6.2.3 c): P_0 to P_(v-3) of C_0 to C_(v-1), or none for "reject".
pub fn opened(mut z: impl Iterator<Item = u64>, redundancy: u64, sealed: &[u64]) -> Option<Vec<u64>> {
    let a = multiplier(&mut z)?;
    let (v, reciprocal) = (sealed.len(), inverse(a));
    let z: Vec<u64> = z.take(v + 1).collect();
    let mut before = 0;
    let block = |(c, z): (&u64, &u64)| {
        before = times(reciprocal, c ^ before);
        before ^ z
    };
    let mut p: Vec<u64> = sealed.iter().zip(&z).map(block).collect();
    let genuine = p[v - 2] == z[v] && p[v - 1] == redundancy;
    p.truncate(v - 2);
    genuine.then_some(p)
}

/// Checks what is written down below; tells how many cases hold, or the first that doesn't.
pub fn check() -> Result<usize, String> {
    let cases = [by_hand(), behind_zeros(), written_down()].concat();
    for (name, holds) in &cases {
        if !holds {
            return Err(format!("sealing fails: {name}"));
        }
    }
    Ok(cases.len())
}

/// A case's name, and whether it holds.
type Held = (String, bool);

/// A message that is sealed to blocks, and opened again.
fn both(z: &[u64], redundancy: u64, message: &[u64], wanted: &[u64]) -> bool {
    let endless = || z.iter().copied().chain(iter::repeat(0));
    sealed(endless(), redundancy, message).as_deref() == Some(wanted)
        && opened(endless(), redundancy, wanted).as_deref() == Some(message)
}

/// Prepared streams whose products are worked out by hand: multipliers 1, x and x^63.
fn by_hand() -> Vec<Held> {
    const TOP: u64 = 1 << 63;
    vec![
        // W is 5 ^ 3, 20 ^ 9, 0 ^ 12.
        ("multiplier 1".into(), both(&[1, 3, 9, 12, 20], 0, &[5], &[6, 29 ^ 6, 12 ^ 29])),
        // W is 0 ^ 6, 7 ^ 5: the padding is the third block behind the multiplier.
        ("no message".into(), both(&[1, 6, 5, 0], 7, &[], &[6, 2 ^ 6])),
        // W is x^63, x^2 + 1, x^63 + x: the product with x of the first and of the last is reduced.
        ("multiplier x".into(), both(&[2, 1, 4, 2, 1], TOP, &[TOP ^ 1], &[0x1B, 10 ^ TOP, 0x1B ^ 4 ^ 5])),
        // W is x, 1, x^2 + x, and x^63 x^2 is x^5 + x^4 + x^2 + x.
        ("multiplier x^63".into(), both(&[TOP, 0, 0, 6, 1], 0, &[2], &[0x1B, TOP ^ 2, 0x36 ^ 0x1B ^ 1])),
    ]
}

/// Keystreams that begin with zeros: the multiplier is the first block that isn't 0, if it is one of the first 4,096.
fn behind_zeros() -> Vec<Held> {
    let (stream, message): (Vec<u64>, Vec<u64>) = ((9..).step_by(5).take(21).collect(), (100..117).collect());
    let wanted = sealed(stream.iter().copied(), 3, &message).unwrap_or_default();
    let late = |zeros: usize| [vec![0; zeros], stream.clone()].concat();
    let accepted = [0, 1, 2, 63, 4_095].map(|zeros| {
        (format!("{zeros} blocks of zeros before the multiplier"), both(&late(zeros), 3, &message, &wanted))
    });
    let refused = [4_096, 4_097, 9_000].map(|zeros| {
        let z = || late(zeros).into_iter();
        let none = sealed(z(), 3, &message).is_none() && opened(z(), 3, &wanted).is_none();
        (format!("{zeros} blocks of zeros"), none)
    });
    [&accepted[..], &refused].concat()
}

/// Messages with their sealed texts: cipher, key, IV, redundancy, message, sealed text. The first two are those that the
/// program `vectors` prints.
const WRITTEN_DOWN: [(u8, &str, &str, &str, &str, &str); 3] = [
    (
        1,
        "3d4c4be96a82fdaeb58f641db17b455b",
        "84319aa8de6915ca1f6bda6bfbd8c766",
        "0001020304050607",
        "526f6f6d203431322c2031372063616c6c732c2039305045",
        "ca564b0311346058d3b1ca2bd6603d8032347e1833216cd1b0d57ef1280b5243b6771d08b06bfd75",
    ),
    (
        2,
        "000102030405060708090a0b0c0d0e0f",
        "0001020304050607",
        "0001020304050607",
        "526f6f6d203431322c2031372063616c6c732c2039305045",
        "224504bf70b69ab98a10d37b9e288d3c76c0f73940d3339c1fc0c4bfe431594c84f04fbf43441521",
    ),
    (
        2,
        "0102030405060708090a0b0c0d0e0f10",
        "0001020304050607",
        "0001020304050607",
        "4142434445464748",
        "1f3af3fd59d60b848ecd6cfa442c25aacafaf7b4237993e0",
    ),
];

/// Each of them sealed and opened.
fn written_down() -> Vec<Held> {
    let field = |digits: &str, length: usize| padded(&hex::read(digits).unwrap_or_default(), length);
    let array = "as long as it was padded to";
    let held = |(cipher, key, iv, redundancy, message, sealed): (u8, &str, &str, &str, &str, &str)| {
        let terms = Terms {
            cipher,
            key: field(key, RECORD).try_into().expect(array),
            iv: field(iv, IV).try_into().expect(array),
            redundancy: field(redundancy, BLOCK).try_into().expect(array),
        };
        let (message, sealed) = (field(message, message.len() / 2), field(sealed, sealed.len() / 2));
        let seals = terms.answer(Way::Seal, &message, sealed.len()).as_deref() == Ok(&sealed);
        let opens = terms.answer(Way::Open, &sealed, message.len()).as_deref() == Ok(&message);
        (format!("cipher {cipher} with key {key}"), seals && opens)
    };
    WRITTEN_DOWN.into_iter().map(held).collect()
}

#[cfg(test)]
mod tests {
    use super::*;

    fn terms(cipher: u8) -> Terms {
        let shape = by_number(cipher).unwrap().shape();
        let whole = |length: usize, field: usize| padded(&vec![0x35; length], field);
        Terms {
            cipher,
            key: whole(shape.key, RECORD).try_into().unwrap(),
            iv: whole(shape.iv, IV).try_into().unwrap(),
            redundancy: *b"ward 7\0\0",
        }
    }

    #[test]
    fn its_own_check_passes() {
        assert_eq!(check(), Ok(15));
    }

    #[test]
    fn what_is_sealed_is_opened() {
        for terms in (1..=6).map(terms) {
            for length in [0, 8, 80, 1_000, MESSAGE] {
                let message: Vec<u8> = (0..=250).cycle().take(length).collect();
                let sealed = terms.answer(Way::Seal, &message, length + ADDED).unwrap();
                assert_eq!(sealed.len(), length + ADDED);
                assert_eq!(terms.answer(Way::Open, &sealed, length), Ok(message));
            }
        }
    }

    #[test]
    fn another_redundancy_padding_or_block_is_24() {
        let terms = terms(5);
        let sealed = terms.answer(Way::Seal, &[1; 24], 40).unwrap();
        let other = Terms { redundancy: [0; BLOCK], ..terms.clone() };
        assert_eq!(other.answer(Way::Open, &sealed, 40), Err(24));
        for place in 0..40 {
            let mut changed = sealed.clone();
            changed[place] ^= 1;
            assert_eq!(terms.answer(Way::Open, &changed, 40), Err(24));
        }
        let forged = |padding, redundancy| terms.forged(&[1; 24], padding, redundancy).unwrap();
        assert_eq!(forged(0, 0), sealed);
        for (padding, redundancy) in [(1, 0), (0, 1), (1, 1)] {
            assert_eq!(terms.answer(Way::Open, &forged(padding, redundancy), 24), Err(24));
        }
    }

    #[test]
    fn refusals_come_in_their_order() {
        let mut all = Terms { cipher: 9, key: [0; RECORD], iv: [0; IV], redundancy: [0; BLOCK] };
        all.key[31] = 1;
        assert_eq!(all.answer(Way::Seal, &[0; 7], 0), Err(23));
        assert_eq!(all.answer(Way::Open, &[0; 8], 0), Err(23));
        assert_eq!(all.answer(Way::Seal, &[0; MESSAGE + 8], 0), Err(23));
        assert_eq!(all.answer(Way::Open, &[0; MESSAGE + ADDED + 8], 0), Err(23));
        assert_eq!(all.answer(Way::Seal, &[0; 8], 0), Err(4));
        all.cipher = 1;
        assert_eq!(all.answer(Way::Seal, &[0; 8], 0), Err(7));
        all.key[31] = 0;
        assert_eq!(all.answer(Way::Open, &[0; 24], 0), Err(16));
        all.key[15] = 1;
        assert_eq!(all.answer(Way::Open, &[0; 24], 7), Err(12));
        assert_eq!(all.answer(Way::Open, &[0; 24], 8), Err(24));
        assert_eq!(all.answer(Way::Seal, &[0; 8], 23), Err(12));
        assert!(all.answer(Way::Seal, &[0; 8], 24).is_ok());
    }
}
