//! Loaded lines, put into the words of a card: those that 255 is said of, and those that a card may hold, which calls go
//! on from.

use crate::base::{open_lines, FAR, IDLE, KCIPHER2, LATE, MUGI, RABBIT, WAITING, ZUC};
use crate::change::{hold_all, Change};
use crate::damages::{CIPHER, HIGH, LOW, MODE};
use compare::cipher::LAST;
use compare::subject::Tally;
use compare::words::{DUE, LINE, START, STATE, STATE_WORDS};

/// The mode of a loaded line.
const LOADED: u32 = 2;

/// Holds the linked card on loaded lines that no card may hold, each on every line.
pub fn damaged() -> Result<Tally, String> {
    let heads = [modes(), ciphers(), positions()];
    let kept = [blank(), carries(), padding(), waiting(), left_over()];
    let all: Vec<Change> = heads.into_iter().chain(kept).flatten().collect();
    hold_all(&all, true)
}

/// Holds the linked card on loaded lines that are just well formed, each on every line.
pub fn well_formed() -> Result<Tally, String> {
    let all: Vec<Change> = [keys(), states(), bits(), in_place_of_others()].into_iter().flatten().collect();
    hold_all(&all, false)
}

/// The ciphers that keep a key, with the number of its words.
const KEYS: [(u8, usize); 5] = [(1, 4), (3, 4), (4, 8), (5, 4), (6, 4)];

/// Every cipher, with the words that it keeps; Rabbit's carry, which is a word more, isn't counted.
fn every() -> impl Iterator<Item = (u8, usize)> {
    KEYS.into_iter().chain([(2, 16)])
}

/// All the words of a loaded line: of what it keeps, so many are alike, the others are 0.
fn line(cipher: u8, count: usize, word: u32) -> Vec<(usize, u32)> {
    let head = [LOADED, cipher.into(), 0, 0].into_iter();
    let kept = (0..STATE_WORDS).map(|place| if place < count { word } else { 0 });
    let none = [0; LINE - DUE];
    head.chain(kept).chain(none).enumerate().collect()
}

/// Such a line, in the place of the idle one, with some words that are others.
fn loaded(name: impl Into<String>, (cipher, count): (u8, usize), others: &[(usize, u32)]) -> Change {
    Change::new(name, IDLE, &[&line(cipher, count, 0x0102_0304), others].concat())
}

/// Idle, or no mode at all; some have the mode of a loaded line for their lowest byte or their highest.
fn modes() -> Vec<Change> {
    let of = |(cipher, count)| {
        [0, 3, 4, 255, 256, 0x102, 2 << 24, (1 << 31) + 2, u32::MAX].map(|mode| {
            loaded(format!("loaded line, cipher {cipher}, mode {mode:x}"), (cipher, count), &[(MODE, mode)])
        })
    };
    let open = loaded("ZUC's key on an open line", (1, 4), &[(MODE, 1)]);
    every().flat_map(of).chain([open]).collect()
}

/// A cipher that is none; one has the line's own for its lowest byte.
fn ciphers() -> Vec<Change> {
    let of = |(cipher, count): (u8, usize)| {
        let (own, none) = (u32::from(cipher), u32::from(LAST) + 1);
        [0, none, none + 1, 254, 255, 256, 256 + own, own << 24, u32::MAX].map(|number| {
            loaded(format!("loaded line, cipher {cipher} made {number:x}"), (cipher, count), &[(CIPHER, number)])
        })
    };
    every().flat_map(of).collect()
}

/// A position that isn't 0.
fn positions() -> Vec<Change> {
    let of = |(cipher, count)| {
        [(0, 1), (0, u32::MAX), (1, 0), (16, 0), (16, 1), (1 << 31, 0), (u32::MAX, u32::MAX)].map(|(high, low)| {
            let name = format!("loaded line, cipher {cipher}, position {high:x} {low:x}");
            loaded(name, (cipher, count), &[(HIGH, high), (LOW, low)])
        })
    };
    every().flat_map(of).collect()
}

/// A key of zeros, alone and with a word behind it.
fn blank() -> Vec<Change> {
    let of = |(cipher, count): (u8, usize)| {
        let alone = loaded(format!("cipher {cipher}, a key of zeros"), (cipher, 0), &[]);
        let behind =
            loaded(format!("cipher {cipher}, a word behind a key of zeros"), (cipher, 0), &[(STATE + count, 1)]);
        [alone, behind]
    };
    KEYS.into_iter().flat_map(of).collect()
}

/// The word of Rabbit's carry: over 1 in its top byte, or not 0 in the others.
fn carries() -> Vec<Change> {
    let words = [2 << 24, 3 << 24, 128 << 24, 255 << 24, 1, 0x0100, 0x0001_0000, 0x0100_0001, 0x01FF_FFFF, u32::MAX];
    words.map(|word| loaded(format!("Rabbit, the carry's word is {word:x}"), (2, 16), &[(STATE + 16, word)])).into()
}

/// Each word behind what is kept.
fn padding() -> Vec<Change> {
    let of = |(cipher, count): (u8, usize)| {
        let used = if cipher == 2 { count + 1 } else { count };
        (used..STATE_WORDS).map(move |word| {
            let other = [(STATE + word, 1 << (word % 32))];
            loaded(format!("cipher {cipher}, word {word} of what is kept"), (cipher, count), &other)
        })
    };
    every().flat_map(of).collect()
}

/// Each word of a change that waits, by a key of 32 bytes and by Rabbit; and changes that could wait on an open line.
fn waiting() -> Vec<Change> {
    let words = |(cipher, count)| {
        (DUE..LINE).map(move |place| {
            let name = format!("loaded line, cipher {cipher}, word {place} of a change");
            loaded(name, (cipher, count), &[(place, 1 << (place % 32))])
        })
    };
    let whole: Vec<(usize, u32)> = [(DUE + 1, 9)].into_iter().chain((0..18).map(|word| (START + word, 1))).collect();
    let change = |(cipher, count)| loaded(format!("loaded line, cipher {cipher}, a change"), (cipher, count), &whole);
    [(4, 8), (2, 16)].into_iter().flat_map(words).chain(every().map(change)).collect()
}

/// Open lines that are made loaded with their states left: all but Rabbit's, which is one that a load could keep.
fn left_over() -> Vec<Change> {
    let of = |(what, cipher, _)| {
        let head = [(MODE, LOADED), (HIGH, 0), (LOW, 0)];
        let other = |word: u32| Change::new(format!("cipher {cipher}, loaded with a state"), what, &[(MODE, word)]);
        let kept = Change::new(format!("cipher {cipher}, loaded at byte 0 with a state"), what, &head);
        [Some(other(LOADED)), (what != RABBIT).then_some(kept)].into_iter().flatten()
    };
    open_lines().flat_map(of).collect()
}

/// Keys whose words are alike, and keys with one word alone.
fn keys() -> Vec<Change> {
    let of = |(cipher, count): (u8, usize)| {
        let alike = [1, 0x8000_0000, u32::MAX].map(|word| {
            Change::new(format!("cipher {cipher}, key words of {word:x}"), IDLE, &line(cipher, count, word))
        });
        let alone = (0..count).flat_map(move |place| {
            [1, 0x0001_0000, 1 << 31].map(|word| {
                let name = format!("cipher {cipher}, key word {place} alone is {word:x}");
                loaded(name, (cipher, 0), &[(STATE + place, word)])
            })
        });
        alike.into_iter().chain(alone)
    };
    KEYS.into_iter().flat_map(of).collect()
}

/// States of Rabbit, the one of zeros too, with both carries.
fn states() -> Vec<Change> {
    let of = |word: u32, carry: u32| {
        let words = [line(2, 16, word), vec![(STATE + 16, carry << 24)]].concat();
        Change::new(format!("Rabbit, words of {word:x} and carry {carry}"), IDLE, &words)
    };
    [0, 1, 0x8000_0000, u32::MAX].into_iter().flat_map(|word| [of(word, 0), of(word, 1)]).collect()
}

/// Rabbit's words, one alone.
fn bits() -> Vec<Change> {
    let of =
        |place: usize| loaded(format!("Rabbit, word {place} alone"), (2, 0), &[(STATE + place, 1 << (place % 32))]);
    (0..16).map(of).collect()
}

/// Loaded lines where open ones stood; Rabbit's open line made a loaded one; and what a loaded line keeps as the state of an
/// open one, but for ZUC, whose cells would be 0.
fn in_place_of_others() -> Vec<Change> {
    let lines = [ZUC, RABBIT, WAITING, FAR, KCIPHER2, MUGI, LATE];
    let of = |(cipher, count): (u8, usize)| {
        lines.map(|what| {
            let name = format!("cipher {cipher}, loaded in the place of line {what}");
            Change::new(name, what, &line(cipher, count, 0x0506_0708))
        })
    };
    let rabbit = Change::new("Rabbit's open line made loaded", RABBIT, &[(MODE, LOADED), (HIGH, 0), (LOW, 0)]);
    let open = |(cipher, count): (u8, usize)| {
        loaded(format!("cipher {cipher}, what a load keeps on an open line"), (cipher, count), &[(MODE, 1)])
    };
    every().flat_map(of).chain([rabbit]).chain(every().filter(|&(cipher, _)| cipher != 1).map(open)).collect()
}
