//! Calls about changes of key on the card of `base`, with the codes that they meet.

use crate::base::{call, change, line, open_lines, position, FAR, IDLE, KCIPHER2, LATE, MUGI, RABBIT, WAITING, ZUC};
use compare::calls::OwnCall;
use compare::command::{self, padded, IMAGE, IV, RECORD};
use compare::machine::END;

pub fn calls(turn: u8) -> Vec<(u8, OwnCall)> {
    [changed(turn), across(turn), refused(turn), unfit(turn)].concat()
}

/// Changes that are accepted, on lines of every cipher: at the line's position, a byte on, and at 2^36.
fn changed(turn: u8) -> Vec<(u8, OwnCall)> {
    let free = open_lines().filter(|(what, _, _)| ![WAITING, FAR].contains(what));
    let of = |(what, _, at): (u8, u8, u64)| [at, at + 1, END].map(|due| (0, call(change(line(what, turn), due))));
    free.flat_map(of).collect()
}

/// Crypts before a change that waits, up to it and across it, and closes that drop it; and crypts on all the lines, for
/// cards where other changes wait.
fn across(turn: u8) -> Vec<(u8, OwnCall)> {
    let [waiting, far] = [WAITING, FAR].map(|what| line(what, turn));
    let near = [0, 1, 3, 4, 5, 10].map(|count| command::crypt(waiting, count));
    let ends = [command::crypt(far, 10), command::close(far), command::close(waiting)];
    let all = (ZUC..=MUGI).map(|what| command::crypt(line(what, turn), 7));
    let accepted = near.into_iter().chain(ends).chain(all).map(|command| (0, call(command)));
    let short = || call(command::crypt(waiting, 6));
    let few = [(11, OwnCall { data: vec![0x11; 5], ..short() }), (12, OwnCall { out: vec![0x22; 5], ..short() })];
    accepted.chain(few).collect()
}

/// A tray of a length that is refused, an empty record, and out a byte too short for an image.
fn odd_tray(call: OwnCall) -> OwnCall {
    OwnCall { tray: vec![1; RECORD + 1], ..call }
}

fn blank_tray(call: OwnCall) -> OwnCall {
    OwnCall { tray: vec![0; RECORD], ..call }
}

fn short_out(call: OwnCall) -> OwnCall {
    OwnCall { out: vec![0x22; IMAGE - 1], ..call }
}

/// A change with an IV of sixteen bytes to a key of this number; the tray has number 0 alone.
fn other(line: u8, number: u8, position: u64) -> Vec<u8> {
    command::change_key(line, number, &[1; IV], position)
}

/// 6, 17 and 18, alone and with a fault that comes later.
fn refused(turn: u8) -> Vec<(u8, OwnCall)> {
    let [free, waiting, far, late, idle] = [ZUC, WAITING, FAR, LATE, IDLE].map(|what| line(what, turn));
    let here = position(ZUC);
    vec![
        (6, call(change(idle, 0))),
        (6, odd_tray(call(change(idle, END + 1)))),
        (17, call(change(waiting, position(WAITING) + 4))),
        (17, call(change(waiting, position(WAITING)))),
        (17, call(change(far, position(FAR) - 1))),
        (17, call(change(far, END + 1))),
        (17, odd_tray(call(change(waiting, END)))),
        (17, blank_tray(call(change(waiting, END)))),
        (17, call(other(waiting, 1, END))),
        (17, call(command::park(waiting))),
        (17, short_out(call(command::park(far)))),
        (18, call(change(free, here - 1))),
        (18, call(change(free, 0))),
        (18, call(change(free, END + 1))),
        (18, call(change(free, (1 << 40) + here))),
        (18, odd_tray(call(change(free, u64::MAX)))),
        (18, blank_tray(call(change(free, here - 1)))),
        (18, call(change(late, END - 2))),
        (18, call(change(late, here))),
    ]
}

/// Trays, keys and IVs that aren't for the line.
fn unfit(turn: u8) -> Vec<(u8, OwnCall)> {
    let (free, here) = (line(ZUC, turn), position(ZUC));
    let with = |tray: Vec<u8>| OwnCall { tray, ..call(change(free, here)) };
    let beyond = padded(&[vec![0; RECORD - 1], vec![1]].concat(), RECORD);
    let mut calls = vec![
        (9, odd_tray(call(change(free, here)))),
        (9, odd_tray(call(other(free, 1, here)))),
        (10, call(other(free, 1, here))),
        (10, with(vec![])),
        (7, call(other(line(RABBIT, turn), 0, position(RABBIT)))),
        (7, with(vec![1; RECORD])),
        (7, with(beyond)),
    ];
    let blank = |what: u8| (16, blank_tray(call(change(line(what, turn), END))));
    calls.extend([ZUC, RABBIT, KCIPHER2, MUGI].map(blank));
    calls
}
