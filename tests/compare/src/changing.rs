//! Lists about changes of key: on lines of every cipher, opened and resumed, due at once, within a frame and at its end,
//! at positions up to 2^36, dropped by a close, and followed by parks.

use crate::builder::Builder;
use crate::command::{self, IMAGE};
use crate::machine::END;
use crate::program::Files;
use crate::random::Random;
use crate::{images, plain, trays};

/// A list of accepted commands.
pub fn list(mut random: Random) -> Files {
    let tray = trays::useful(&mut random);
    let length = random.size(500, 6_000);
    let data = random.bytes(length);
    let mut b = Builder::new(random, tray, data);
    for line in 0..b.random.size(1, 6) as u8 {
        start(&mut b, line);
    }
    for _ in 0..b.random.size(10, 80) {
        step(&mut b);
    }
    b.files()
}

/// Opens an idle line, resumes a call there, or makes it one at a position where something can go wrong.
fn start(b: &mut Builder, line: u8) -> bool {
    let position = match b.random.between(0, 9) {
        0..=5 => return plain::open_line(b, line),
        6 | 7 => return plain::resume(b, line),
        8 => images::near_end(&mut b.random),
        _ => images::position(&mut b.random),
    };
    let image = images::at(&mut b.random, position);
    plain::altered(b, line, &image)
}

fn step(b: &mut Builder) -> bool {
    let open = b.open_lines();
    if open.is_empty() || open.len() < 8 && b.random.chance(10) {
        let line = plain::idle_line(b);
        return start(b, line);
    }
    let line = b.random.pick(&open);
    match (b.waiting(line), b.random.between(0, 19)) {
        (None, 0..=12) => change(b, line),
        (None, 13..=15) if b.out_left() >= IMAGE => b.put(&command::park(line)),
        (Some(due), 0..=12) => towards(b, line, due),
        (_, 19) => b.put(&command::close(line)),
        _ => plain::crypt(b, line),
    }
}

/// A frame that ends a byte before a change, where it comes due, or behind it, if it is near enough.
fn towards(b: &mut Builder, line: u8, due: u64) -> bool {
    let (way, more) = (due - b.position(line), b.random.between(2, 60));
    let count = b.random.pick(&[way - 1, way, way, way + 1, way + more, way + more, way + more]);
    if count > b.data_left().min(b.out_left()).min(usize::from(u16::MAX)) as u64 {
        return plain::crypt(b, line);
    }
    b.put(&command::crypt(line, count as u16))
}

/// Changes the key of an open line on which no change waits; tells whether the tray has a key for its cipher and the
/// change is accepted.
pub fn change(b: &mut Builder, line: u8) -> bool {
    let least = b.position(line);
    let due = due(&mut b.random, least);
    change_at(b, line, due)
}

/// Lets a change wait on an open line that isn't at 2^36; tells the same.
pub fn wait(b: &mut Builder, line: u8) -> bool {
    let least = b.position(line) + 1;
    let due = due(&mut b.random, least);
    change_at(b, line, due)
}

fn change_at(b: &mut Builder, line: u8, due: u64) -> bool {
    let Some(cipher) = b.cipher(line) else {
        return false;
    };
    let keys = trays::keys(b.tray(), cipher);
    if keys.is_empty() {
        return false;
    }
    let (number, iv) = (b.random.pick(&keys), plain::iv(&mut b.random, cipher));
    b.put(&command::change_key(line, number, &iv, due))
}

/// A position for a change, from `least` to 2^36: mostly a few frames ahead, at times `least` itself, where 32 bits run
/// over, or 2^36, which it often is where that is near.
pub fn due(random: &mut Random, least: u64) -> u64 {
    let ahead = match random.between(0, 19) {
        0..=9 if END - least < 100 => END - least,
        0..=2 => 0,
        3..=12 => random.between(1, 20),
        13..=16 => random.between(1, 300),
        17 => (1 << 32) - least % (1 << 32),
        18 => random.between(0, END - least),
        _ => END - least,
    };
    (least + ahead).min(END)
}

/// A position that number 18 refuses on a line at `position`: below that one if it can be, or above 2^36.
pub fn not_due(random: &mut Random, position: u64) -> u64 {
    let above = random.between(END + 1, u64::MAX);
    if position == 0 || random.chance(50) {
        return random.pick(&[END + 1, 2 * END, END | (1 << 63), u64::MAX, above]);
    }
    let below = random.between(0, position - 1);
    random.pick(&[0, position - 1, position % (1 << 32) % position, below])
}

#[cfg(test)]
mod tests {
    use super::*;
    use crate::changes::{Change, Changes};
    use crate::program;
    use crate::subject::Tally;

    #[test]
    fn lists_are_accepted_throughout_and_changes_come_due_in_every_way() {
        let mut tally = Tally::default();
        for number in 0..60 {
            let (files, mut changes) = (list(Random::new(5, number)), Changes::default());
            for (call, answer) in &program::run(&files).calls {
                tally.count(answer);
                tally.note_change(&mut changes, call.command, answer);
            }
        }
        assert_eq!(tally.codes[0], tally.calls);
        let ends = Change::AtOnce as usize..=Change::Dropped as usize;
        assert!(tally.changes[ends].iter().all(|&count| count >= 5), "{tally:?}");
    }

    #[test]
    fn positions_are_due_or_not() {
        let mut random = Random::new(5, 0);
        for position in [0, 1, 7, (1 << 32) - 1, 1 << 32, (1 << 32) + 5, END - 1, END] {
            for _ in 0..200 {
                assert!((position..=END).contains(&due(&mut random, position)));
                assert!(!(position..=END).contains(&not_due(&mut random, position)));
            }
        }
    }
}
