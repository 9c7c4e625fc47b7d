//! Damaged lists: other lists with bits flipped, bytes replaced, lost or added, or an end cut off.

use crate::program::Files;
use crate::random::Random;
use crate::{changing, loading, odd, plain};

/// Any list but one at the files' limits, damaged in one to five places.
pub fn list(mut random: Random) -> Files {
    let inner = Random::new(random.draw(), 0);
    let mut files = match random.between(0, 9) {
        0..=2 => plain::list(inner),
        3 | 4 => plain::far(inner),
        5 | 6 => changing::list(inner),
        7 | 8 => loading::list(inner),
        _ => odd::single(inner, random.pick(&[3, 5, 6, 7, 8, 10, 13, 14, 16, 17, 18, 19])),
    };
    for _ in 0..random.size(1, 5) {
        let file = match random.between(0, 9) {
            0 => &mut files.tray,
            1 => &mut files.data,
            _ => &mut files.cmd,
        };
        if let Some(bytes) = file {
            hurt(&mut random, bytes);
        }
    }
    files
}

/// Damages a file in one place; an empty one stays as it is.
fn hurt(random: &mut Random, bytes: &mut Vec<u8>) {
    if bytes.is_empty() {
        return;
    }
    let place = random.size(0, bytes.len() - 1);
    match random.between(0, 9) {
        0..=5 => bytes[place] ^= 1 << random.between(0, 7),
        6 => bytes[place] = random.byte(),
        7 => {
            bytes.remove(place);
        }
        8 => bytes.insert(place, random.byte()),
        _ => bytes.truncate(place),
    }
}
