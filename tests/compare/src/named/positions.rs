//! Positions by images that are altered to have them: the last byte before 2^36 and the end itself, and positions about
//! 2^32, where the position goes on and the keystream is that of the same state at a small position.

use super::published::{name, unit};
use super::{altered, published, Case};
use crate::cipher::LAST;
use crate::command::{self, numbered, IMAGE, STATE_AT};
use crate::images;
use crate::machine::END;

pub fn cases() -> Vec<Case> {
    let each = |cipher: u8| [last_bytes(cipher), end(cipher), far(cipher)].into_iter().flatten();
    (1..=LAST).flat_map(each).collect()
}

/// A state with few bits set, and the last four bytes of its unit, worked out by hand. ZUC with cells of 1: W is
/// X0 = 00000001, X3 is 00010000. Rabbit with X6 alone: its high and low half are the last two parts, low byte first.
/// SNOW 2.0 with s0 alone gives s0; KCipher-2 with A4 alone gives it as the low word, MUGI the low half of a2.
fn state(cipher: u8) -> (Vec<u8>, [u8; 4]) {
    let word = [0xA1, 0xB2, 0xC3, 0xD4];
    let alone = |place: usize, length: usize| {
        let mut bytes = vec![0; length];
        bytes[4 * place..4 * place + 4].copy_from_slice(&word);
        bytes
    };
    match cipher {
        1 => ([[0, 0, 0, 1].repeat(16), vec![0; 8]].concat(), [0, 1, 0, 1]),
        2 => (alone(6, 65), [0xD4, 0xC3, 0xB2, 0xA1]),
        5 => (alone(4, 80), word),
        6 => (alone(5, 152), word),
        _ => (alone(0, 72), word),
    }
}

/// The last four bytes before 2^36 of a line that is there by an image of that state.
pub fn last_four(cipher: u8) -> [u8; 4] {
    state(cipher).1
}

/// An image of the cipher with that state at a position, of the first park of line 3.
pub fn image(cipher: u8, position: u64) -> Vec<u8> {
    images::image(cipher, position, (3, 1), &state(cipher).0)
}

/// A case that resumes on line 3 at a position and goes on with counts there.
fn from(position: u64, cipher: u8, what: &str, counts: &[u16], end: &str) -> Case {
    let mut commands = altered::resumed(3, &image(cipher, position));
    commands.extend(counts.iter().map(|&count| command::crypt(3, count)));
    Case::new(format!("{}: {what}", name(cipher)), &commands, end).data(vec![0; 40])
}

/// What such a case writes, with these bytes after the resume.
fn after(bytes: &[u8]) -> Vec<u8> {
    [&altered::written((3, 1)), bytes].concat()
}

/// The bytes before 2^36.
fn last_bytes(cipher: u8) -> Vec<Case> {
    let four = state(cipher).1;
    vec![
        from(END - 1, cipher, "n = 2^36 - 1 with count 1", &[1], "end 4 0").out(&after(&four[3..])),
        from(END - 1, cipher, "n = 2^36 - 1 with count 2", &[2], "end 3 13").out(&after(&[])),
        from(END - 1, cipher, "n = 2^36 - 1 with count 65,535", &[u16::MAX], "end 3 13").out(&after(&[])),
        from(END - 1, cipher, "n = 2^36 - 1 with counts 0, 1, 0, 1", &[0, 1, 0, 1], "end 6 13").out(&after(&four[3..])),
        from(END - 4, cipher, "n = 2^36 - 4 with count 4", &[4], "end 4 0").out(&after(&four)),
        from(END - 4, cipher, "n = 2^36 - 4 with counts 1, 2, 2", &[1, 2, 2], "end 5 13").out(&after(&four[..3])),
        from(END - 40, cipher, "n = 2^36 - 40 with counts 40, 0, 1", &[40, 0, 1], "end 5 13"),
        from(END - 40, cipher, "n = 2^36 - 40 with count 41", &[41], "end 3 13").out(&after(&[])),
    ]
}

/// 2^36 itself, by an altered image and by one that a park wrote there.
fn end(cipher: u8) -> Vec<Case> {
    let four = state(cipher).1;
    let head = [&[cipher, 0, 0, 0, 0x10], &[0; 4][..], &[3, 0, 0, 0, 2]].concat();
    let frame = vec![command::crypt(3, 1), command::park(3)];
    let commands = [altered::resumed(3, &image(cipher, END - 1)), frame].concat();
    let parked = Case::new(format!("{}: parked at 2^36", name(cipher)), &commands, "end 5 0").data(vec![0; 1]);
    let park = vec![command::park(3), command::crypt(3, 0)];
    let again = [altered::resumed(3, &image(cipher, END)), park].concat();
    let again = Case::new(format!("{}: parked as resumed at 2^36", name(cipher)), &again, "end 4 6");
    vec![
        from(END, cipher, "n = 2^36 with count 0", &[0, 0], "end 5 0").out(&after(&[])),
        from(END, cipher, "n = 2^36 with count 1", &[1], "end 3 13").out(&after(&[])),
        parked.part(IMAGE, &four[3..]).part(IMAGE + 1, &head),
        again.out(&after(&numbered(&image(cipher, END), 2))),
    ]
}

/// Positions whose low 32 bits are few, none or about to run over.
fn far(cipher: u8) -> Vec<Case> {
    let places = [(1 << 32) - 38, (1 << 32) - 3, 1 << 32, (1 << 32) + 5, (1 << 33) + 1, (1 << 35) + 6, END - 37];
    places.iter().map(|&position| beside_a_small_one(cipher, position)).collect()
}

/// 37 bytes in three frames from a position, parked; and the same from the place that it has within a unit.
fn beside_a_small_one(cipher: u8, position: u64) -> Case {
    let small = position % unit(cipher) as u64;
    let on = |line: u8, from: u64| {
        let frames = [5, 1, 31].map(|count| command::crypt(line, count));
        [altered::resumed(line, &image(cipher, from)), frames.into(), vec![command::park(line)]].concat()
    };
    let text = published::text(37).repeat(2);
    let name = format!("{}: on from n = {position}", name(cipher));
    let case = Case::new(name, &[on(0, position), on(1, small)].concat(), "end 14 0").data(text);
    let head = |from: u64, line: u8| [&[cipher], &(from + 37).to_be_bytes()[..], &[line, 0, 0, 0, 2]].concat();
    let (parked, second) = (IMAGE + 37, 2 * IMAGE + 37);
    let case = case.part(parked, &head(position, 0)).part(second + parked, &head(small, 1));
    let state = parked + STATE_AT;
    case.same(IMAGE..parked, second + IMAGE..second + parked).same(state..second, second + state..2 * second)
}
