//! Lists about loads: lines of every cipher loaded ahead of their calls, started at once or after calls on other lines,
//! emptied by a close and loaded again.

use crate::builder::Builder;
use crate::cipher::LAST;
use crate::command;
use crate::program::Files;
use crate::random::Random;
use crate::{plain, trays};

/// A list of accepted commands.
pub fn list(mut random: Random) -> Files {
    let tray = trays::useful(&mut random);
    let length = random.size(500, 6_000);
    let data = random.bytes(length);
    let mut b = Builder::new(random, tray, data);
    for line in 0..b.random.size(1, 8) as u8 {
        load_line(&mut b, line);
    }
    for _ in 0..b.random.size(10, 80) {
        step(&mut b);
    }
    b.files()
}

fn step(b: &mut Builder) {
    let (idle, loaded) = (b.idle_lines(), b.loaded_lines());
    match b.random.between(0, 9) {
        0..=2 if !loaded.is_empty() => {
            let line = b.random.pick(&loaded);
            start_or_close(b, line);
        }
        3..=5 if !idle.is_empty() => {
            let line = b.random.pick(&idle);
            load_line(b, line);
        }
        6 if idle.is_empty() => drop(plain::idle_line(b)),
        _ => plain::steps(b, 1),
    }
}

/// Loads an idle line with any cipher; tells whether the line is loaded. Where the tray has no key for it, opens the line.
pub fn load_line(b: &mut Builder, line: u8) -> bool {
    let cipher = b.random.between(1, LAST.into()) as u8;
    load_with(b, line, cipher) || {
        plain::open_with(b, line, cipher);
        false
    }
}

/// Loads an idle line with a cipher; tells whether the tray has a key for it.
pub fn load_with(b: &mut Builder, line: u8, cipher: u8) -> bool {
    let keys = trays::keys(b.tray(), cipher);
    if keys.is_empty() {
        return false;
    }
    let number = b.random.pick(&keys);
    b.put(&command::load(line, cipher, number))
}

/// Starts a loaded line.
pub fn start(b: &mut Builder, line: u8) -> bool {
    let cipher = b.loaded(line).unwrap_or(1);
    let iv = plain::iv(&mut b.random, cipher);
    b.put(&command::start(line, &iv))
}

/// Starts a loaded line, or at times closes it.
pub fn start_or_close(b: &mut Builder, line: u8) -> bool {
    if b.random.chance(15) {
        return b.put(&command::close(line));
    }
    start(b, line)
}

#[cfg(test)]
mod tests {
    use super::*;
    use crate::loads::{Load, Loads};
    use crate::program;
    use crate::subject::Tally;

    #[test]
    fn lists_are_accepted_throughout_and_lines_are_loaded_started_and_closed() {
        let mut tally = Tally::default();
        for number in 0..60 {
            let (files, mut loads) = (list(Random::new(5, number)), Loads::default());
            for (call, answer) in &program::run(&files).calls {
                tally.count(answer);
                tally.note_load(&mut loads, call.command, answer);
            }
        }
        assert_eq!(tally.codes[0], tally.calls);
        let kinds = Load::Loaded as usize..=Load::Emptied as usize;
        assert!(tally.loads[kinds].iter().all(|&count| count >= 30), "{tally:?}");
    }
}
