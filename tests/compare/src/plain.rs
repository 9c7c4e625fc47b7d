//! Well-formed lists: all ciphers, keys from the tray and from commands, frames of odd lengths on several lines in
//! turn, changes of key, parks and resumes, and lines that are loaded and started.

use crate::builder::Builder;
use crate::cipher::{by_number, LAST};
use crate::command::{self, of_park, padded, park_of, IMAGE, IV, RECORD};
use crate::images;
use crate::ledger::Fate;
use crate::program::{Files, READ};
use crate::random::Random;
use crate::{changing, loading, trays, zeros};

/// A list of accepted commands.
pub fn list(mut random: Random) -> Files {
    let tray = trays::any(&mut random);
    let length = data_length(&mut random);
    let data = random.bytes(length);
    let count = match random.between(0, 9) {
        0 => random.size(0, 3),
        1 => random.size(60, 250),
        _ => random.size(4, 60),
    };
    let mut b = Builder::new(random, tray, data);
    steps(&mut b, count);
    b.files()
}

/// A list about positions: images altered to others, near 2^32 and 2^36, with frames up to the end and parks there.
/// About half of these lists end with a frame past the end.
pub fn far(mut random: Random) -> Files {
    let tray = trays::any(&mut random);
    let data = random.bytes(2_000);
    let mut b = Builder::new(random, tray, data);
    for line in 0..b.random.size(1, 8) as u8 {
        let image = images::elsewhere(&mut b.random);
        altered(&mut b, line, &image);
        crypt(&mut b, line);
    }
    let count = b.random.size(2, 40);
    steps(&mut b, count);
    let most = usize::from(u16::MAX);
    let near: Vec<u8> = b.open_lines().into_iter().filter(|&line| b.line_left(line) < most).collect();
    if !near.is_empty() && b.random.chance(60) {
        let line = b.random.pick(&near);
        let least = b.line_left(line) + 1;
        let any = b.random.size(least, most);
        let count = b.random.pick(&[least, any]) as u16;
        b.put(&command::crypt(line, count));
    }
    b.files()
}

/// How long the data file is: empty, short, long, as long as is read, or longer.
pub fn data_length(random: &mut Random) -> usize {
    match random.between(0, 9) {
        0 => 0,
        1 => random.size(1, 100),
        2 | 3 => random.size(4_000, READ),
        4 => READ,
        5 => random.size(READ + 1, READ + 2_000),
        _ => random.size(100, 4_000),
    }
}

/// Adds up to `count` accepted commands; fewer if the file is full.
pub fn steps(b: &mut Builder, count: usize) {
    for _ in 0..count {
        if b.room() < command::resume(0, &[0; IMAGE]).len() {
            return;
        }
        step(b);
    }
}

fn step(b: &mut Builder) {
    let (idle, loaded, open) = (b.idle_lines(), b.loaded_lines(), b.open_lines());
    let choice = b.random.between(0, 99);
    if !loaded.is_empty() && (idle.is_empty() && open.is_empty() || b.random.chance(15)) {
        let line = b.random.pick(&loaded);
        loading::start_or_close(b, line);
        return;
    }
    if open.is_empty() || (!idle.is_empty() && choice < 30) {
        let line = b.random.pick(&idle);
        if choice < 18 {
            resume(b, line);
        } else if choice > 26 {
            loading::load_line(b, line);
        } else {
            open_line(b, line);
        }
        return;
    }
    let line = b.random.pick(&open);
    let waits = b.waiting(line).is_some();
    match choice {
        72..=79 if !waits && changing::change(b, line) => true,
        80..=95 if !waits && b.out_left() >= IMAGE => b.put(&command::park(line)),
        0..=90 => crypt(b, line),
        _ => b.put(&command::close(line)),
    };
}

/// Opens an idle line with any cipher.
pub fn open_line(b: &mut Builder, line: u8) -> bool {
    let cipher = b.random.between(1, LAST.into()) as u8;
    open_with(b, line, cipher)
}

/// Opens an idle line with a cipher, from the tray where it has a key for it, at times by a load and a start, or with a
/// key of the command's own.
pub fn open_with(b: &mut Builder, line: u8, cipher: u8) -> bool {
    let keys = trays::keys(b.tray(), cipher);
    if !keys.is_empty() && b.random.chance(60) {
        let number = b.random.pick(&keys);
        let iv = iv(&mut b.random, cipher);
        if b.random.chance(25) {
            return b.put(&command::load(line, cipher, number)) && b.put(&command::start(line, &iv));
        }
        return b.put(&command::open_tray(line, cipher, number, &iv));
    }
    let (key, iv) = if cipher == 1 && b.random.chance(10) {
        let (key, iv) = zeros::key_and_iv(&mut b.random);
        (padded(&key, RECORD), iv)
    } else {
        (key(&mut b.random, cipher), iv(&mut b.random, cipher))
    };
    b.put(&command::open_own(line, cipher, &key, &iv))
}

/// An idle line; one is closed if there is none.
pub fn idle_line(b: &mut Builder) -> u8 {
    let lines = b.idle_lines();
    if lines.is_empty() {
        let line = b.random.between(0, 7) as u8;
        b.put(&command::close(line));
        return line;
    }
    b.random.pick(&lines)
}

/// Resumes on an idle line, with the line and the number of a park that is held: mostly the image as its park wrote it,
/// else what another park wrote or an image from elsewhere. Where no park is held, opens the line.
pub fn resume(b: &mut Builder, line: u8) -> bool {
    let held = b.images(Fate::Held);
    if held.is_empty() {
        return open_line(b, line);
    }
    let own = b.random.pick(&held);
    let image = match b.random.between(0, 9) {
        0..=5 => own.clone(),
        6 => b.random.pick(&b.all_images()),
        _ => images::elsewhere(&mut b.random),
    };
    b.put(&command::resume(line, &of_park(&image, park_of(&own))))
}

/// Resumes an image on an idle line in the place of a parked one, as one of that park.
pub fn altered(b: &mut Builder, line: u8, image: &[u8]) -> bool {
    let held = held_image(b);
    b.put(&command::resume(line, &of_park(image, park_of(&held))))
}

/// The image of a park that is held; a call is parked for it where there is none. There must be room for that in out.
pub fn held_image(b: &mut Builder) -> Vec<u8> {
    if b.images(Fate::Held).is_empty() {
        park_one(b);
    }
    let held = b.images(Fate::Held);
    b.random.pick(&held)
}

/// Opens an idle line and parks it.
pub fn park_one(b: &mut Builder) -> bool {
    let line = idle_line(b);
    open_line(b, line) && b.put(&command::park(line))
}

/// Enciphers a frame on an open line, as long as data, out and the line's position allow.
pub fn crypt(b: &mut Builder, line: u8) -> bool {
    let most = b.data_left().min(b.out_left()).min(b.line_left(line));
    let count = frame(&mut b.random, most);
    b.put(&command::crypt(line, count as u16))
}

/// The length of a frame, at most `most` and at most 65,535: mostly short and odd, at times 0 or all there is.
pub fn frame(random: &mut Random, most: usize) -> usize {
    let wanted = match random.between(0, 19) {
        0 | 1 => 0,
        2..=9 => random.size(1, 20),
        10..=15 => random.size(1, 170),
        16 | 17 => random.size(1, 1_000),
        18 => random.pick(&[4, 8, 16, 32, 160]),
        _ => most,
    };
    wanted.min(most).min(usize::from(u16::MAX))
}

/// A key of the cipher's length with zeros after it, as command 02 has it; at times one byte of it alone isn't 0.
pub fn key(random: &mut Random, cipher: u8) -> Vec<u8> {
    let length = by_number(cipher).map_or(RECORD, |c| c.shape().key);
    padded(&operand(random, length, Random::alone), RECORD)
}

/// An IV of the cipher's length with zeros after it; at times all zero.
pub fn iv(random: &mut Random, cipher: u8) -> Vec<u8> {
    let length = by_number(cipher).map_or(IV, |c| c.shape().iv);
    padded(&operand(random, length, |_, length| vec![0; length]), IV)
}

/// Mostly any bytes, at times all ff or as `least` has them.
fn operand(random: &mut Random, length: usize, least: fn(&mut Random, usize) -> Vec<u8>) -> Vec<u8> {
    match random.between(0, 19) {
        0 | 1 => least(random, length),
        2 => vec![0xFF; length],
        _ => random.bytes(length),
    }
}

#[cfg(test)]
mod tests {
    use super::*;
    use crate::program;

    #[test]
    fn well_formed_lists_are_accepted_throughout() {
        for number in 0..60 {
            let files = list(Random::new(5, number));
            assert!(program::run(&files).calls.iter().all(|(_, answer)| answer.code == 0));
        }
    }

    #[test]
    fn lists_about_positions_are_accepted_but_for_a_last_13() {
        let mut last_codes = Vec::new();
        for number in 0..60 {
            let files = far(Random::new(5, number));
            let mut codes: Vec<u8> = program::run(&files).calls.iter().map(|(_, answer)| answer.code).collect();
            last_codes.extend(codes.pop());
            assert!(codes.iter().all(|&code| code == 0));
        }
        assert!(last_codes.iter().all(|&code| code == 0 || code == 13));
        assert!(last_codes.contains(&0) && last_codes.contains(&13));
    }
}
