//! Frames of all lengths are one crypt of their joined length; lines don't disturb each other; a frame of 0 bytes
//! changes nothing.

use super::published::{self, text, Published};
use super::Case;
use crate::command;

pub fn cases() -> Vec<Case> {
    let each = |p: &Published| [primes(p), backwards(p), single_bytes(p), every_frame(p), empty_frames(p)];
    let mut all: Vec<Case> = published::each().iter().flat_map(each).collect();
    all.push(in_turn());
    all
}

const PRIMES: [u16; 25] =
    [2, 3, 5, 7, 11, 13, 17, 19, 23, 29, 31, 37, 41, 43, 47, 53, 59, 61, 67, 71, 73, 79, 83, 89, 97];

/// One crypt on line 0, and the same text by frames on line 1 with the same key and IV.
fn against_one(p: &Published, what: &str, frames: &[u16]) -> Case {
    let length: u16 = frames.iter().sum();
    let mut commands = vec![p.open(0), command::crypt(0, length), p.open(1)];
    commands.extend(frames.iter().map(|&count| command::crypt(1, count)));
    let (end, length) = (format!("end {} 0", commands.len()), usize::from(length));
    let case = Case::new(format!("{}: {what}", p.name()), &commands, end).data(text(length).repeat(2));
    let start = |n: usize| p.stream.iter().zip(text(n)).map(|(key, byte)| key ^ byte).take(n).collect::<Vec<u8>>();
    case.part(0, &start(length)).same(0..length, length..2 * length)
}

/// 1 and the primes below 100.
fn primes(p: &Published) -> Case {
    against_one(p, "frames of 1, 2, 3, 5, 7, 11 to 97 bytes", &[&[1], &PRIMES[..]].concat())
}

fn backwards(p: &Published) -> Case {
    let frames: Vec<u16> = PRIMES.iter().rev().copied().chain([1]).collect();
    against_one(p, "frames of 97, 89, 83 to 1 bytes", &frames)
}

fn single_bytes(p: &Published) -> Case {
    against_one(p, "frames of 1 byte", &[1; 100])
}

/// Every length from 0 to one more than a unit, from every place within a unit: of the lengths not yet taken where
/// the line stands the longest comes next, and 1 where all are taken.
fn every_frame(p: &Published) -> Case {
    let unit = p.unit();
    let mut left: Vec<Vec<u16>> = (0..unit).map(|_| (0..=unit as u16 + 1).collect()).collect();
    let (mut frames, mut place) = (Vec::new(), 0);
    while left.iter().any(|lengths| !lengths.is_empty()) {
        let count = left[place].pop().unwrap_or(1);
        place = (place + usize::from(count)) % unit;
        frames.push(count);
    }
    against_one(p, "every frame up to one byte more than a unit, from every place in a unit", &frames)
}

/// Frames of 0 bytes, first, in mid-unit and last.
fn empty_frames(p: &Published) -> Case {
    let commands: Vec<Vec<u8>> = [0, 3, 0, 0, 29, 0].map(|count| command::crypt(4, count)).into();
    let case = Case::new(format!("{}: frames of 0 bytes", p.name()), &[vec![p.open(4)], commands].concat(), "end 7 0");
    case.data(vec![0; 32]).out(&p.stream[..32])
}

/// All ciphers on lines of their own, a frame of each in turn.
fn in_turn() -> Case {
    let all = published::each();
    let mut commands: Vec<Vec<u8>> = (0..).zip(&all).map(|(line, p)| p.open(line)).collect();
    let (mut out, mut at) = (Vec::new(), 0);
    for count in [3, 1, 5, 2, 7, 4, 10] {
        for (line, p) in (0..).zip(&all) {
            commands.push(command::crypt(line, count as u16));
            out.extend(&p.stream[at..at + count]);
        }
        at += count;
    }
    Case::new("six lines in turn", &commands, "end 48 0").data(vec![0; 192]).out(&out)
}
