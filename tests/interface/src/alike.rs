//! Pairs of call lists that are alike, lengths too, but for data, what out held, and the key and IV bytes that are used:
//! through the C interface both leave the same trace, codes, counts, and what the card's words show beside its states.

use crate::lent::{self, COUNTS};
use compare::calls::OwnCall;
use compare::cipher::{self, Shape};
use compare::command::{CHANGE_KEY, LOAD, OPEN_OWN, OPEN_TRAY, RECORD, RESUME, START as START_LINE};
use compare::loads::{Load, Loads};
use compare::mixed;
use compare::random::Random;
use compare::subject::Tally;
use compare::words::{CARD, COUNT, DUE, LINE, START, STATE};
use std::ops::Range;

/// How many pairs, and the seed of their lists.
const PAIRS: u64 = 150;
const SEED: u64 = 6;

/// The codes that such pairs must meet, and all that loads and starts come to but on a resume: all but those that only a resume, a line beyond any list's bytes, a card that has
/// parked 2^32 - 1 times or a damaged one meets.
const MET: [u8; 16] = [0, 1, 2, 3, 4, 5, 6, 7, 9, 10, 11, 12, 16, 17, 18, 19];

/// Makes each pair's calls and compares the two traces.
pub fn hold() -> Result<Tally, String> {
    let mut tally = Tally::default();
    for number in 0..PAIRS {
        let mut random = Random::new(SEED ^ 0xA11C, number);
        let mut calls = mixed::list(SEED, number).calls;
        calls.retain(|call| call.command.first() != Some(&RESUME));
        let held = pair(&calls, |call, card| other(&mut random, call, card));
        tally.add(&held.map_err(|told| format!("pair {number} of lists that are alike, {told}"))?);
    }
    let codes = MET.iter().filter(|&&code| tally.codes[usize::from(code)] == 0).map(|code| code.to_string());
    let kinds = Load::NAMES.iter().enumerate().filter(|&(kind, _)| kind != Load::Resume as usize);
    let loads = kinds.filter(|&(kind, _)| tally.loads[kind] == 0).map(|(_, name)| format!("load: {name}"));
    match codes.chain(loads).next() {
        Some(what) => Err(format!("pairs of lists that are alike never met {what}")),
        None => Ok(Tally { named: PAIRS, ..tally }),
    }
}

/// Makes the calls on one fresh card, and on a second one what `change` makes of each; compares the traces call by call.
fn pair(calls: &[OwnCall], mut change: impl FnMut(&OwnCall, &[u32]) -> OwnCall) -> Result<Tally, String> {
    let (mut tally, mut loads) = (Tally::default(), Loads::default());
    let (mut near, mut far) = (vec![0; CARD], vec![0; CARD]);
    for (i, call) in calls.iter().enumerate() {
        let told = |told: String| format!("call {}: {told}", i + 1);
        let left = lent::call(&near, call, &COUNTS).map_err(told)?;
        let also = lent::call(&far, &change(call, &near), &COUNTS).map_err(told)?;
        if left.answer() != also.answer() {
            return Err(told(format!("the answers are {:?} and {:?}", left.answer(), also.answer())));
        }
        if shown(&left.card) != shown(&also.card) {
            return Err(told("the cards show lines or parks that differ".to_string()));
        }
        tally.count(&left.answer());
        tally.note_load(&mut loads, &call.command, &left.answer());
        (near, far) = (left.card, also.card);
    }
    Ok(tally)
}

/// What a card's words show: of each line its mode, its cipher, its position and that of a change that waits; the parks.
fn shown(card: &[u32]) -> Vec<u32> {
    let lines = card[..COUNT].chunks(LINE).flat_map(|line| [&line[..STATE], &line[DUE..START]].concat());
    lines.chain(card[COUNT..].iter().copied()).collect()
}

/// A call that is alike: each byte that may differ does, but those of a key that is all zero.
fn other(random: &mut Random, call: &OwnCall, card: &[u32]) -> OwnCall {
    let mut other = call.clone();
    redraw(random, &mut other.data);
    redraw(random, &mut other.out);
    let record = record(&call.command);
    let shape = shape(&call.command, card);
    if let Some(shape) = shape {
        for range in own(&call.command, shape) {
            redraw_part(random, &mut other.command, range);
        }
    }
    redraw(random, &mut other.tray);
    if let Some(at) = record {
        let end = (at + RECORD).min(call.tray.len());
        let kept = at.min(end)..end;
        other.tray[kept.clone()].copy_from_slice(&call.tray[kept]);
        if let Some(shape) = shape {
            redraw_part(random, &mut other.tray, at..at + shape.key);
        }
    }
    other
}

/// Where the record begins that a command takes its key from, if it takes one from the tray.
fn record(command: &[u8]) -> Option<usize> {
    let number = match *command.first()? {
        OPEN_TRAY | LOAD => command.get(3),
        CHANGE_KEY => command.get(2),
        _ => return None,
    };
    Some(RECORD * usize::from(*number.unwrap_or(&0)))
}

/// The lengths of a command's key and IV: its cipher's, of a change of key and of a start those of its line's.
fn shape(command: &[u8], card: &[u32]) -> Option<Shape> {
    let number = match *command.first()? {
        OPEN_TRAY | OPEN_OWN | LOAD => *command.get(2)?,
        CHANGE_KEY | START_LINE => *card.get(LINE * usize::from(*command.get(1)?) + 1)? as u8,
        _ => return None,
    };
    cipher::by_number(number).map(|cipher| cipher.shape())
}

/// The bytes of a command that it uses of its own key and of its IV; none of what it hasn't.
fn own(command: &[u8], shape: Shape) -> [Range<usize>; 2] {
    let iv = |at: usize| at..at + shape.iv;
    match command[0] {
        OPEN_TRAY => [0..0, iv(4)],
        OPEN_OWN => [3..3 + shape.key, iv(3 + RECORD)],
        LOAD => [0..0, 0..0],
        START_LINE => [0..0, iv(2)],
        _ => [0..0, iv(3)],
    }
}

/// Other bytes in a part, as far as there are any; a part that is all zero stays so, and no other becomes so.
fn redraw_part(random: &mut Random, bytes: &mut [u8], range: Range<usize>) {
    let end = range.end.min(bytes.len());
    let part = &mut bytes[range.start.min(end)..end];
    if part.iter().any(|&byte| byte != 0) {
        redraw(random, part);
        while part.iter().all(|&byte| byte == 0) {
            part.fill_with(|| random.byte());
        }
    }
}

/// Another byte in each byte's place.
fn redraw(random: &mut Random, bytes: &mut [u8]) {
    bytes.iter_mut().for_each(|byte| *byte = byte.wrapping_add(random.odd_byte()));
}

#[cfg(test)]
mod tests {
    use super::*;
    use compare::command;

    /// An open of line 0 with ZUC and key 0 of a tray, and a crypt of three bytes.
    fn calls() -> Vec<OwnCall> {
        let call = |command: Vec<u8>| OwnCall { command, tray: trays(1), data: vec![1; 3], out: vec![1; 3] };
        vec![call(command::open_tray(0, 1, 0, &[1; 16])), call(command::crypt(0, 3))]
    }

    /// A load of line 0 with a cipher and key 0 of a tray, a start and a crypt of three bytes.
    fn loads(cipher: u8) -> Vec<OwnCall> {
        let call = |command: Vec<u8>| OwnCall { command, tray: trays(1), data: vec![1; 3], out: vec![1; 3] };
        let iv = [[1; 8], if cipher == 2 { [0; 8] } else { [1; 8] }].concat();
        vec![
            call(command::load(0, cipher, 0)),
            call(command::start(0, &iv)),
            call(command::crypt(0, 3)),
            call(command::start(0, &iv)),
        ]
    }

    fn trays(byte: u8) -> Vec<u8> {
        [[byte; 16], [0; 16]].concat()
    }

    fn told(change: fn(&mut OwnCall)) -> String {
        let changed = |call: &OwnCall, _: &[u32]| {
            let mut other = call.clone();
            change(&mut other);
            other
        };
        pair(&calls(), changed).err().unwrap_or_default()
    }

    #[test]
    fn another_key_iv_and_data_do_not_show() {
        assert_eq!(told(|call| call.tray = trays(2)), "");
        assert_eq!(told(|call| call.data = vec![2; 3]), "");
        assert_eq!(told(|call| call.out = vec![2; 3]), "");
        let mut random = Random::new(1, 1);
        assert!(pair(&calls(), |call, card| other(&mut random, call, card)).is_ok());
    }

    #[test]
    fn a_blank_key_a_byte_beyond_it_a_length_and_a_line_show() {
        assert!(told(|call| call.tray = trays(0)).contains("code: 16"));
        assert!(told(|call| call.tray[31] = 1).contains("code: 7"));
        assert!(told(|call| call.data.truncate(2)).contains("code: 11"));
        assert!(told(|call| call.command[1] = 1).contains("lines"));
    }

    #[test]
    fn another_key_and_iv_of_a_loaded_line_do_not_show() {
        for cipher in 1..=6 {
            let mut random = Random::new(1, 1);
            let tally = pair(&loads(cipher), |call, card| other(&mut random, call, card)).unwrap();
            assert_eq!((tally.codes[0], tally.codes[19]), (3, 1));
        }
        let beyond = |call: &OwnCall, _: &[u32]| {
            let mut other = call.clone();
            other.command.iter_mut().skip(10).for_each(|byte| *byte ^= 1);
            other
        };
        assert!(pair(&loads(1), beyond).is_ok());
        assert!(pair(&loads(2), beyond).err().unwrap_or_default().contains("code: 7"));
    }

    #[test]
    fn every_byte_of_a_load_and_a_start_that_may_differ_does() {
        let differ = |one: &[u8], other: &[u8]| one.iter().zip(other).map(|(a, b)| a != b).collect::<Vec<bool>>();
        let (mut random, calls, mut card) = (Random::new(2, 2), loads(2), vec![0; CARD]);
        let load = other(&mut random, &calls[0], &card);
        assert_eq!(differ(&calls[0].tray, &load.tray), [[true; 16], [false; 16]].concat());
        assert_eq!(calls[0].command, load.command);
        (card[0], card[1]) = (2, 2);
        let start = other(&mut random, &calls[1], &card);
        assert_eq!(differ(&calls[1].tray, &start.tray), [true; 32]);
        assert_eq!(
            differ(&calls[1].command, &start.command),
            [[false; 2].as_slice(), &[true; 8], &[false; 8]].concat()
        );
    }

    #[test]
    fn every_byte_that_may_differ_does() {
        let (mut random, call) = (Random::new(2, 2), calls().remove(0));
        let other = other(&mut random, &call, &[0; CARD]);
        let differ = |one: &[u8], other: &[u8]| one.iter().zip(other).map(|(a, b)| a != b).collect::<Vec<bool>>();
        assert_eq!(differ(&call.tray, &other.tray), [[true; 16], [false; 16]].concat());
        assert_eq!(differ(&call.command, &other.command), [[false; 4].as_slice(), &[true; 16]].concat());
        assert_eq!(differ(&call.data, &other.data), [true; 3]);
        assert_eq!(differ(&call.out, &other.out), [true; 3]);
    }
}
