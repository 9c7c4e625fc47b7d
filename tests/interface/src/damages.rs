//! Every kind of damage that 255 names, but those of a change that waits, of a loaded line and of the parks. Whatever else is wrong with a
//! call, its code is 255, and nothing changes.

use crate::base::{open_lines, IDLE, MUGI, RABBIT, ZUC};
use crate::change::{hold_all, Change};
use compare::cipher::{by_number, LAST};
use compare::subject::Tally;
use compare::words::{LINE, STATE, STATE_WORDS};
use compare::zuc::TOP;

/// Holds the linked card on all damages, each on every line.
pub fn hold() -> Result<Tally, String> {
    let groups = [modes(), ciphers(), positions(), cells(), carries(), unused(), idle()];
    let all: Vec<Change> = groups.into_iter().flatten().collect();
    hold_all(&all, true)
}

/// The places of a line's head.
pub const MODE: usize = 0;
pub const CIPHER: usize = 1;
pub const HIGH: usize = 2;
pub const LOW: usize = 3;

/// The lines that are open, with their ciphers.
fn open() -> impl Iterator<Item = (u8, u8)> {
    open_lines().map(|(what, cipher, _)| (what, cipher))
}

/// One change for each of these words in a place.
pub fn each(name: &str, what: u8, place: usize, words: &[u32]) -> Vec<Change> {
    words.iter().map(|&word| Change::new(format!("{name} {word:x}"), what, &[(place, word)])).collect()
}

/// An open line whose mode is idle, loaded, or none; 101 has the mode of an open line for its lowest byte.
fn modes() -> Vec<Change> {
    let of = |(what, cipher)| {
        each(&format!("open line, cipher {cipher}, mode"), what, MODE, &[0, 2, 3, 255, 256, 0x101, 1 << 31, u32::MAX])
    };
    open().flat_map(of).collect()
}

/// An open line whose cipher is none; one has the line's own for its lowest byte.
fn ciphers() -> Vec<Change> {
    let of = |(what, cipher)| {
        let (own, none) = (u32::from(cipher), u32::from(LAST) + 1);
        let words = [0, none, none + 1, 254, 255, 256, 256 + own, own << 24, u32::MAX];
        each(&format!("open line, cipher {cipher} made"), what, CIPHER, &words)
    };
    open().flat_map(of).collect()
}

/// An open line whose position is over 2^36.
fn positions() -> Vec<Change> {
    let of = |(what, cipher)| {
        let pairs = [(16, 1), (16, u32::MAX), (17, 0), (32, 0), (1 << 31, 0), (u32::MAX, u32::MAX)];
        pairs.map(|(high, low)| {
            let name = format!("open line, cipher {cipher}, position {high:x} {low:x}");
            Change::new(name, what, &[(HIGH, high), (LOW, low)])
        })
    };
    open().flat_map(of).collect()
}

/// Each cell of ZUC as 0, as 2^31 and with all bits set.
fn cells() -> Vec<Change> {
    let of = |cell: usize| each(&format!("ZUC, A{cell} is"), ZUC, STATE + cell, &[0, TOP + 1, u32::MAX]);
    (0..16).flat_map(of).collect()
}

/// Rabbit's carry, which is the top byte of its word, over 1.
fn carries() -> Vec<Change> {
    each("Rabbit, the carry's word is", RABBIT, STATE + 16, &[2, 3, 128, 255].map(|carry| carry << 24))
}

/// Each word behind a state, the rest of the word that Rabbit's carry is in, and MUGI's words, which leave none unused,
/// under every other cipher.
fn unused() -> Vec<Change> {
    let rest = [1, 0x0000_0100, 0x0001_0000, 0x0100_0001, 0x01FF_FFFF];
    let mut all = each("Rabbit, the carry's word is", RABBIT, STATE + 16, &rest);
    all.extend(each("MUGI's words under cipher", MUGI, CIPHER, &[1, 2, 3, 4, 5]));
    for (what, cipher) in open() {
        let used = by_number(cipher).map_or(STATE_WORDS, |c| c.shape().state.div_ceil(4));
        for word in used..STATE_WORDS {
            all.extend(each(&format!("cipher {cipher}, word {word} is"), what, STATE + word, &[1, 1 << 31]));
        }
    }
    all
}

/// An idle line with a mode, a cipher, a position or a word.
fn idle() -> Vec<Change> {
    let mut all = each("idle line, mode", IDLE, MODE, &[1, 2, 255, 256, 1 << 31, u32::MAX]);
    all.extend(each("idle line, cipher", IDLE, CIPHER, &[1, 2, 3, 4, 5, 6, 7, 255, 256, u32::MAX]));
    all.extend((HIGH..LINE).flat_map(|place| {
        let name = format!("idle line, word {place} is");
        each(&name, IDLE, place, &[1, u32::MAX])
    }));
    all
}
