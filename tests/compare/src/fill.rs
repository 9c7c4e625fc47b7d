//! Lists that fill out: frames and parks until few bytes are left, so that number 12 is met, and frames and images
//! that just fit.

use crate::builder::Builder;
use crate::cipher::LAST;
use crate::command::{self, IMAGE};
use crate::plain;
use crate::program::{Files, READ};
use crate::random::Random;
use crate::trays;

/// So many bytes of data are kept for the end of the list.
const KEPT: usize = 700;

/// An open from the tray and a park.
const ROOM: usize = 22;

/// A list that fills out to the last bytes and then asks for more.
pub fn list(mut random: Random) -> Files {
    let tray = trays::useful(&mut random);
    let data = random.bytes(READ);
    let mut b = Builder::new(random, tray, data);
    match b.random.between(0, 2) {
        0 => fill(&mut b, 0),
        1 => exact_frame(&mut b),
        _ => exact_image(&mut b),
    }
    let line = line(&mut b);
    let left = b.out_left();
    if b.random.chance(50) && left < b.data_left() {
        let count = b.random.size(left + 1, b.data_left());
        b.put(&command::crypt(line, count as u16));
    } else {
        b.put(&command::park(line));
    }
    b.files()
}

/// Leaves `least` bytes of out and fewer than an image has besides, and keeps some data. The tray must have a key
/// for every cipher.
pub fn fill(b: &mut Builder, least: usize) {
    if b.random.chance(60) {
        let line = line(b);
        let count = b.data_left().saturating_sub(KEPT);
        b.put(&command::crypt(line, count as u16));
    }
    while b.out_left() >= least + IMAGE && b.room() >= ROOM {
        let line = line(b);
        b.put(&command::park(line));
    }
}

/// An open line; one is opened from the tray if there is none.
pub fn line(b: &mut Builder) -> u8 {
    if let Some(&line) = b.open_lines().first() {
        return line;
    }
    let line = b.random.between(0, 7) as u8;
    let cipher = b.random.between(1, LAST.into()) as u8;
    let numbers = trays::keys(b.tray(), cipher);
    let number = b.random.pick(&numbers);
    let iv = plain::iv(&mut b.random, cipher);
    b.put(&command::open_tray(line, cipher, number, &iv));
    line
}

/// Fills out, the last bytes by a frame that takes all that are left, and adds a frame of 0 bytes.
fn exact_frame(b: &mut Builder) {
    fill(b, 0);
    let line = line(b);
    let count = b.out_left();
    b.put(&command::crypt(line, count as u16));
    b.put(&command::crypt(line, 0));
}

/// Fills out, the last bytes by an image that takes all that are left.
fn exact_image(b: &mut Builder) {
    fill(b, IMAGE);
    let line = line(b);
    let spare = b.out_left() - IMAGE;
    b.put(&command::crypt(line, spare as u16));
    b.put(&command::park(line));
}

#[cfg(test)]
mod tests {
    use super::*;
    use crate::program::{self, OUT};

    #[test]
    fn lists_end_with_12_and_some_have_filled_out() {
        let mut filled = 0;
        for number in 0..12 {
            let files = list(Random::new(3, number));
            let run = program::run(&files);
            assert_eq!(run.calls.last().map(|(_, answer)| answer.code), Some(12));
            filled += usize::from(run.out.len() == OUT);
        }
        assert!(filled > 0);
    }
}
