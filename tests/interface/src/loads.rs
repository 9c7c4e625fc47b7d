//! Calls about loads and starts on the card of `base`, with the codes that they meet. On cards where the idle line is a
//! loaded one, the starts among them open it.

use crate::base::{call, line, open_lines, IDLE, RABBIT, ZUC};
use compare::calls::OwnCall;
use compare::cipher::LAST;
use compare::command::{self, padded, IV, RECORD};

pub fn calls(turn: u8) -> Vec<(u8, OwnCall)> {
    [loads(turn), unread(turn), unfit(turn), starts(turn)].concat()
}

/// A call with another tray.
fn with(tray: Vec<u8>, command: Vec<u8>) -> OwnCall {
    OwnCall { tray, ..call(command) }
}

/// Loads that are accepted, with every cipher; of the last, the key has 32 bytes.
fn loads(turn: u8) -> Vec<(u8, OwnCall)> {
    let idle = line(IDLE, turn);
    let each = (1..=LAST).map(|cipher| (0, call(command::load(idle, cipher, 0))));
    let long = with(vec![3; 256 * RECORD], command::load(idle, 4, 255));
    each.chain([(0, long)]).collect()
}

/// Refusals that the command alone decides.
fn unread(turn: u8) -> Vec<(u8, OwnCall)> {
    let idle = line(IDLE, turn);
    let calls = [
        (1, vec![8]),
        (1, vec![8, idle, 1]),
        (1, vec![9]),
        (1, command::start(idle, &[0; IV])[..1 + IV].to_vec()),
        (2, vec![10; 30]),
        (3, command::load(8, 1, 0)),
        (3, command::start(255, &[0; IV])),
        (4, command::load(idle, 0, 0)),
        (4, command::load(idle, LAST + 1, 0)),
    ];
    calls.map(|(code, command)| (code, call(command))).into()
}

/// Loads of open lines, alone and with a tray that is refused; trays that haven't the key, and keys that no cipher takes.
fn unfit(turn: u8) -> Vec<(u8, OwnCall)> {
    let (busy, idle) = (line(ZUC, turn), line(IDLE, turn));
    let beyond = [vec![8; 16], vec![0; 15], vec![1]].concat();
    let mut calls = vec![
        (4, call(command::load(busy, 0, 0))),
        (5, with(vec![1; RECORD + 1], command::load(busy, 1, 0))),
        (5, with(vec![], command::load(busy, 1, 0))),
        (5, with(vec![0; RECORD], command::load(busy, 1, 0))),
        (9, with(vec![1; RECORD + 1], command::load(idle, 1, 0))),
        (9, with(vec![1; 8_224], command::load(idle, 1, 0))),
        (10, call(command::load(idle, 1, 1))),
        (10, with(vec![], command::load(idle, 4, 0))),
        (7, with(beyond.clone(), command::load(idle, 1, 0))),
        (7, with(beyond, command::load(idle, 2, 0))),
        (7, with([vec![0; 16], vec![1; 16]].concat(), command::load(idle, 6, 0))),
    ];
    calls.extend(open_lines().map(|(what, cipher, _)| (5, call(command::load(line(what, turn), cipher, 0)))));
    calls.extend((1..=LAST).map(|cipher| (16, with(vec![0; RECORD], command::load(idle, cipher, 0)))));
    calls
}

/// Starts of the idle line and of open ones, with IVs of eight bytes, of sixteen and of zeros; the tray isn't looked at.
fn starts(turn: u8) -> Vec<(u8, OwnCall)> {
    let idle = line(IDLE, turn);
    let beyond = |place: usize| padded(&[vec![0; place], vec![1]].concat(), IV);
    let ivs = [padded(&[0x5A; 8], IV), vec![0x5A; IV], vec![0; IV], beyond(7), beyond(8), beyond(15)];
    let mut calls: Vec<(u8, OwnCall)> = ivs.iter().map(|iv| (19, call(command::start(idle, iv)))).collect();
    calls.push((19, with(vec![1; RECORD + 1], command::start(idle, &ivs[0]))));
    calls.push((19, OwnCall { data: vec![], out: vec![], ..with(vec![], command::start(idle, &ivs[0])) }));
    calls.extend(open_lines().map(|(what, _, _)| (19, call(command::start(line(what, turn), &ivs[0])))));
    calls.push((19, call(command::start(line(RABBIT, turn), &ivs[1]))));
    calls
}
