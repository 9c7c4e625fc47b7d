//! Lists at the limits of the three files: absent, empty, just as long as is read and longer, and trays of every
//! length that matters.

use crate::builder::Builder;
use crate::command::{self, IMAGE, RECORD};
use crate::plain;
use crate::program::{Files, READ};
use crate::random::Random;
use crate::trays;

/// Tray lengths on both sides of each limit.
const TRAYS: [usize; 13] = [0, 1, 31, 32, 33, 64, 8_160, 8_191, 8_192, 8_193, 8_224, 16_384, 16_416];

/// How many kinds of such lists there are.
pub const KINDS: usize = TRAYS.len() + 11;

/// A list of a kind, 0 to `KINDS` - 1.
pub fn list(mut random: Random, kind: usize) -> Files {
    let (cmd, tray, data) = (Vec::new(), trays::useful(&mut random), random.bytes(300));
    let small = Files { cmd: Some(cmd), tray: Some(tray), data: Some(data) };
    match kind {
        0 => Files::default(),
        1 => Files { cmd: None, ..small },
        2 => small,
        3 => Files { tray: None, ..opens(random, 0) },
        4 => Files { data: None, ..frames(random, 0) },
        5 => Files { tray: None, data: None, ..plain::list(random) },
        6 => one_byte(random),
        7 => frames(random, READ),
        8 => {
            let more = random.size(1, 2_000);
            frames(random, READ + more)
        }
        9 => full_commands(random, false),
        10 => full_commands(random, true),
        _ => {
            let length = TRAYS[(kind - 11) % TRAYS.len()];
            opens(random, length)
        }
    }
}

/// A command file of one byte: a known command cut short, or an unknown one.
fn one_byte(mut random: Random) -> Files {
    let any = random.byte();
    let byte = random.pick(&[0, 1, 2, 3, 4, 5, 6, 7, 8, 9, 10, 255, any]);
    Files { cmd: Some(vec![byte]), ..Files::default() }
}

/// A tray of `length` bytes, and opens, loads and changes of key with some of its last key, any, the first, the one after
/// the last and 255.
fn opens(mut random: Random, length: usize) -> Files {
    let mut tray = trays::records(&mut random, length.div_ceil(RECORD));
    tray.truncate(length);
    let data = random.bytes(100);
    let count = length / RECORD;
    let mut b = Builder::new(random, tray, data);
    let any = b.random.byte();
    let last = count.saturating_sub(1).min(255) as u8;
    let next = count.min(255) as u8;
    let mut numbers = vec![last, any, 0];
    numbers.truncate(b.random.size(0, 3));
    numbers.push(b.random.pick(&[next, last, 255]));
    for (line, number) in (0..).zip(numbers) {
        // A cipher with a key of 32 bytes takes every record but a blank one.
        let iv = plain::iv(&mut b.random, 4);
        match b.random.between(0, 9) {
            0..=3 => {
                b.put(&command::open_tray(line, 4, number, &iv));
            }
            4..=6 => {
                b.put(&command::load(line, 4, number));
                b.put(&command::start(line, &iv));
            }
            _ => {
                b.put(&command::open_own(line, 4, &[5; RECORD], &iv));
                b.put(&command::change_key(line, number, &iv, 4));
            }
        }
        b.put(&command::crypt(line, 9));
    }
    b.files()
}

/// Data of `length` bytes used up to the last by one frame or several, then a frame of 0 bytes, then one of a byte
/// or more.
fn frames(mut random: Random, length: usize) -> Files {
    let tray = trays::useful(&mut random);
    let data = random.bytes(length);
    let mut b = Builder::new(random, tray, data);
    plain::open_line(&mut b, 5);
    let parts = b.random.size(0, 3);
    for _ in 0..parts {
        let count = b.random.size(0, b.data_left() / 2);
        b.put(&command::crypt(5, count as u16));
    }
    let rest = b.data_left();
    b.put(&command::crypt(5, rest as u16));
    b.put(&command::crypt(5, 0));
    let count = b.random.pick(&[1, 1, 1, 300, u16::MAX]);
    b.put(&command::crypt(5, count));
    b.files()
}

/// Commands up to the last byte that is read, and perhaps more after it: whole commands, or the rest of one that
/// the limit cuts, if `cut`.
fn full_commands(mut random: Random, cut: bool) -> Files {
    let tray = trays::useful(&mut random);
    let data = random.bytes(3_000);
    let mut b = Builder::new(random, tray, data);
    let count = b.random.size(0, 120);
    plain::steps(&mut b, count);
    let tail = if cut { tail(&mut b) } else { Vec::new() };
    let kept = if cut { b.random.size(1, tail.len() - 1) } else { 0 };
    while b.room() > kept && pad(&mut b, kept) {}
    let longer = cut || b.random.chance(60);
    let more = [tail, command::close(0), command::crypt(1, 1)].concat();
    let mut files = b.files();
    if let (true, Some(cmd)) = (longer, &mut files.cmd) {
        cmd.extend(more);
    }
    files
}

/// A command of two bytes or more that could run if it were whole.
fn tail(b: &mut Builder) -> Vec<u8> {
    let lines = b.idle_lines();
    let line = if lines.is_empty() { 0 } else { b.random.pick(&lines) };
    match b.random.between(0, 5) {
        0 => command::open_tray(line, 4, 0, &[0; 16]),
        1 => command::resume(line, &[0; IMAGE]),
        2 => command::change_key(line, 0, &[0; 16], 0),
        3 => command::load(line, 4, 0),
        4 => command::start(line, &[0; 16]),
        _ => command::crypt(line, 0),
    }
}

/// Adds one command, such that others can make up what is left before the last `kept` bytes that are read: one of
/// odd length if that is odd, a close if it isn't a multiple of 4, else a frame, or what opens a line for one. Tells whether it is accepted.
fn pad(b: &mut Builder, kept: usize) -> bool {
    let (idle, loaded, open) = (b.idle_lines(), b.loaded_lines(), b.open_lines());
    let busy = open.first().or(loaded.first());
    match ((b.room() - kept) % 4, busy, idle.first()) {
        (1 | 3, _, Some(&line)) => b.put(&command::open_own(line, 4, &[5; RECORD], &[7; 16])),
        (1..=3, Some(&line), _) => b.put(&command::close(line)),
        (_, Some(_), _) if !open.is_empty() => {
            let line = b.random.pick(&open);
            let fits = b.data_left() > 4 && b.line_left(line) > 4;
            let count = if fits && b.random.chance(10) { 3 } else { 0 };
            b.put(&command::crypt(line, count))
        }
        (_, _, Some(&line)) => b.put(&command::open_tray(line, 4, 0, &[9; 16])),
        // All the lines are loaded.
        _ => b.put(&command::start(0, &[0; 16])),
    }
}

#[cfg(test)]
mod tests {
    use super::*;
    use crate::program;

    fn last_code(files: &Files) -> Option<u8> {
        program::run(files).calls.last().map(|(_, answer)| answer.code)
    }

    #[test]
    fn commands_fill_what_is_read() {
        for number in 0..10 {
            let whole = full_commands(Random::new(8, number), false);
            assert!(whole.cmd.as_ref().is_some_and(|cmd| cmd.len() >= READ));
            assert_eq!(last_code(&whole), Some(0));
            assert_eq!(last_code(&full_commands(Random::new(8, number), true)), Some(1));
        }
    }

    #[test]
    fn used_up_data_is_11() {
        for length in [0, READ, READ + 1] {
            assert_eq!(last_code(&frames(Random::new(8, 1), length)), Some(11));
        }
    }
}
