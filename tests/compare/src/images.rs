//! Images that no park of the list has written: well-formed ones at chosen positions, and ones that number 8
//! refuses. The well-formed ones, but those of `image`, are of no park: line 0 and number 0, in whose place a caller puts
//! the park that is wanted.

use crate::cipher::{by_number, LAST};
use crate::command::{of_park, padded, Park, IMAGE, LINE_AT, STATE_AT};
use crate::machine::END;
use crate::random::Random;
use crate::{zeros, zuc};

/// An image of its parts, with zeros after the state.
pub fn image(cipher: u8, position: u64, (line, number): Park, state: &[u8]) -> Vec<u8> {
    padded(&[&[cipher], &position.to_be_bytes()[..], &[line], &number.to_be_bytes(), state].concat(), IMAGE)
}

/// No park: no image with it is taken up.
pub const NO_PARK: Park = (0, 0);

/// A well-formed image of any cipher, mostly at a position where something can go wrong.
pub fn elsewhere(random: &mut Random) -> Vec<u8> {
    let position = position(random);
    at(random, position)
}

/// A well-formed image of any cipher at a position.
pub fn at(random: &mut Random, position: u64) -> Vec<u8> {
    let cipher = random.between(1, LAST.into()) as u8;
    known(random, cipher, position)
}

/// A position up to 2^36: small, anywhere, or near a power of two.
pub fn position(random: &mut Random) -> u64 {
    let near = |random: &mut Random, place: u64| place + random.between(0, 80) - 40;
    match random.between(0, 9) {
        0 => random.between(0, 40),
        1 | 2 => near(random, 1 << 32),
        3 => near(random, 1 << 31),
        4 => near(random, 1 << 35),
        5 | 6 => near_end(random),
        7 => random.between(1 << 32, END),
        _ => random.between(0, END),
    }
}

/// A position at most a few frames before 2^36; often 2^36 itself or the byte before.
pub fn near_end(random: &mut Random) -> u64 {
    match random.between(0, 5) {
        0 => END,
        1 => END - 1,
        2 => END - random.between(2, 16),
        _ => END - random.between(0, 300),
    }
}

/// State bytes that an image of the cipher may hold: mostly any, at times all the least or all the greatest.
fn state(random: &mut Random, cipher: u8) -> Vec<u8> {
    let length = by_number(cipher).map_or(0, |c| c.shape().state);
    let mut bytes = match random.between(0, 9) {
        0 => vec![0; length],
        1 => vec![0xFF; length],
        _ => random.bytes(length),
    };
    match cipher {
        1 => mend_cells(random, &mut bytes),
        2 => bytes[64] &= 1,
        _ => (),
    }
    bytes
}

/// Takes ZUC's cells into their range, and at times makes the next feedback 0 before it is mended.
fn mend_cells(random: &mut Random, state: &mut [u8]) {
    let mut cells = [0; 16];
    for (cell, bytes) in cells.iter_mut().zip(state.chunks_exact(4)) {
        let word = bytes.iter().fold(0, |w, &byte| (w << 8) | u32::from(byte));
        *cell = (word & zuc::TOP).max(1);
    }
    if random.chance(40) {
        zeros::cells(&mut cells);
    }
    for (cell, bytes) in cells.iter().zip(state.chunks_exact_mut(4)) {
        bytes.copy_from_slice(&cell.to_be_bytes());
    }
}

/// How many reasons number 8 has to refuse an image, as told apart here.
pub const FAULTS: usize = 17;

/// An image of a park that number 8 refuses, for the reason `index` counted round: the cipher's number, the position, the
/// bytes after the state, a ZUC cell, Rabbit's carry or the line. The next time round the place of the fault is another.
pub fn bad(random: &mut Random, index: usize, park: Park) -> Vec<u8> {
    let line = match index % FAULTS {
        14 => 8,
        15 => park.0 + 8 * random.between(1, 31) as u8,
        16 => random.between(8, 255) as u8,
        _ => return of_park(&bad_contents(random, index), park),
    };
    with(of_park(&elsewhere(random), park), LINE_AT, line)
}

/// One for any reason but the line.
fn bad_contents(random: &mut Random, index: usize) -> Vec<u8> {
    let (position, which) = (position(random), index / FAULTS);
    let any = random.between(u64::from(LAST) + 2, 255) as u8;
    match index % FAULTS {
        0 => with(at(random, position), 0, 0),
        1 => with(at(random, position), 0, LAST + 1),
        2 => with(at(random, position), 0, any),
        3 => at(random, END + 1),
        4 => {
            let near = END + random.between(2, 100);
            let position = random.pick(&[near, 1 << 37, u64::MAX]);
            at(random, position)
        }
        5 => {
            let high = u64::from(any) << random.between(37, 56);
            at(random, (position % END) | high)
        }
        6 => bad_padding(random, position, 0),
        7 => bad_padding(random, position, 1),
        8 => bad_padding(random, position, 2),
        9 => bad_cell(random, position, which, 0),
        10 => bad_cell(random, position, which, zuc::TOP + 1),
        11 => bad_cell(random, position, which, u32::MAX),
        12 => with(known(random, 2, position), STATE_AT + 64, 2),
        _ => with(known(random, 2, position), STATE_AT + 64, any),
    }
}

/// The image with one byte replaced.
fn with(mut image: Vec<u8>, place: usize, byte: u8) -> Vec<u8> {
    image[place] = byte;
    image
}

/// A well-formed image of one cipher.
pub fn known(random: &mut Random, cipher: u8, position: u64) -> Vec<u8> {
    let state = state(random, cipher);
    image(cipher, position, NO_PARK, &state)
}

/// A byte other than 0 after the state. MUGI's state leaves no room for one.
fn bad_padding(random: &mut Random, position: u64, which: usize) -> Vec<u8> {
    let cipher = random.between(1, 5) as u8;
    let first = STATE_AT + by_number(cipher).map_or(0, |c| c.shape().state);
    let place = random.place(which, first, IMAGE - 1);
    let byte = random.odd_byte();
    with(known(random, cipher, position), place, byte)
}

/// An image of ZUC with this word for one of its cells.
fn bad_cell(random: &mut Random, position: u64, which: usize, cell: u32) -> Vec<u8> {
    let mut image = known(random, 1, position);
    let place = STATE_AT + 4 * random.place(which, 0, 15);
    image[place..place + 4].copy_from_slice(&cell.to_be_bytes());
    image
}

#[cfg(test)]
mod tests {
    use super::*;
    use crate::command::resume;
    use crate::machine::Machine;
    use crate::parks::Parks;

    /// The code of a resume on a card that holds number 7 of line 1.
    fn code(image: &[u8]) -> u8 {
        let mut machine = Machine::with(Parks::of([9; 8], [0, 7, 0, 0, 0, 0, 0, 0]).unwrap());
        machine.call(&resume(3, image), &[], &[], &mut []).code
    }

    #[test]
    fn images_are_taken_and_bad_ones_refused() {
        let mut random = Random::new(1, 1);
        for index in 0..600 {
            let good = elsewhere(&mut random);
            assert_eq!([(1, 7), (1, 0), (2, 7)].map(|park| code(&of_park(&good, park))), [0, 14, 14]);
            assert_eq!([(1, 7), (1, 0)].map(|park| code(&bad(&mut random, index, park))), [8, 8]);
        }
    }
}
