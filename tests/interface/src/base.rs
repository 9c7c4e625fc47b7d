//! A card with a line for each cipher, one that is a byte before the end and one that is idle, with changes of key that
//! wait on two lines, and with parks of four lines that are held, taken up and replaced; and calls that meet every code
//! on it but 15. It can be turned, so that what stood on line 0 stands on another.

use crate::{changes, loads};
use compare::calls::OwnCall;
use compare::cipher::{by_number, LAST};
use compare::command::{self, padded, Park, IMAGE, IV, RECORD};
use compare::images::image;
use compare::machine::{Machine, END};

/// What stands on the lines of a card that is not turned; on the first six are the ciphers by their numbers. On those of
/// SNOW 2.0 a change waits, four bytes on and at 2^36.
pub const ZUC: u8 = 0;
pub const RABBIT: u8 = 1;
pub const WAITING: u8 = 2;
pub const FAR: u8 = 3;
pub const KCIPHER2: u8 = 4;
pub const MUGI: u8 = 5;
pub const LATE: u8 = 6;
pub const IDLE: u8 = 7;

/// The cipher of the line that is late.
pub const LATE_CIPHER: u8 = 3;

/// The lines that are open, with their ciphers and positions.
pub fn open_lines() -> impl Iterator<Item = (u8, u8, u64)> {
    (ZUC..=MUGI).map(|what| (what, what + 1, position(what))).chain([(LATE, LATE_CIPHER, END - 1)])
}

/// The position of one of the first six lines.
pub fn position(what: u8) -> u64 {
    5 * u64::from(what) + 6
}

/// How many parks were made from what stands on the lines, and the number held of it, if one is. Of the late line the one
/// park was taken up; two lines hold the same number.
pub const MADE: [u32; 8] = [0, 3, 0, 0, 2, 0, 1, 2];
pub const HELD: [(u8, u32); 3] = [(IDLE, 2), (KCIPHER2, 2), (RABBIT, 3)];

/// The line on which something stands after so many turns.
pub fn line(what: u8, turn: u8) -> u8 {
    (what + turn) % 8
}

/// The park of this number from what stands on a line after so many turns.
fn park(what: u8, turn: u8, number: u32) -> Park {
    (line(what, turn), number)
}

/// The card.
pub fn machine(turn: u8) -> Machine {
    let mut machine = Machine::fresh();
    let mut accept = |command: &[u8]| {
        let code = machine.call(command, &tray(), &[0; 31], &mut [0; IMAGE]).code;
        assert_eq!(code, 0, "the card is made with accepted commands");
    };
    for what in [LATE, RABBIT, IDLE, RABBIT, KCIPHER2, IDLE, KCIPHER2, RABBIT] {
        accept(&open(line(what, turn), 2));
        accept(&command::park(line(what, turn)));
    }
    for what in ZUC..=MUGI {
        accept(&open(line(what, turn), what + 1));
        accept(&command::crypt(line(what, turn), position(what) as u16));
    }
    accept(&change(line(WAITING, turn), position(WAITING) + 4));
    accept(&change(line(FAR, turn), END));
    accept(&command::resume(line(LATE, turn), &image(LATE_CIPHER, END - 1, park(LATE, turn, 1), &[7; 72])));
    machine
}

/// A tray of one key of 16 bytes.
fn tray() -> Vec<u8> {
    padded(&[8; 16], RECORD)
}

/// A change of key with an IV that is every cipher's.
pub fn change(line: u8, position: u64) -> Vec<u8> {
    command::change_key(line, 0, &padded(&[0x5A; 8], IV), position)
}

/// A well-formed image of SNOW 2.0 of a park.
fn some(park: Park) -> Vec<u8> {
    image(3, 1, park, &[9; 72])
}

/// Command 02 with a key and an IV of the cipher's lengths.
fn open(line: u8, cipher: u8) -> Vec<u8> {
    let (key, iv) = by_number(cipher).map_or((RECORD, IV), |c| (c.shape().key, c.shape().iv));
    command::open_own(line, cipher, &padded(&vec![cipher + 1; key], RECORD), &padded(&vec![0xA5; iv], IV))
}

/// Calls with the codes that they meet on the card: all that are accepted, and some for each refusal.
pub fn calls(turn: u8) -> Vec<(u8, OwnCall)> {
    [accepted(turn), unread(turn), unfit(turn), unlent(turn), blank(turn), changes::calls(turn), loads::calls(turn)]
        .concat()
}

/// A call with a tray of one key of 16 bytes and ten bytes of data, and as many bytes in out as an image has and one
/// more.
pub fn call(command: Vec<u8>) -> OwnCall {
    OwnCall { command, tray: tray(), data: (0x11..0x1B).collect(), out: vec![0x22; IMAGE + 1] }
}

fn accepted(turn: u8) -> Vec<(u8, OwnCall)> {
    let idle = line(IDLE, turn);
    let commands = [
        command::open_tray(idle, 5, 0, &[1; IV]),
        open(idle, 4),
        open(idle, 6),
        command::crypt(line(ZUC, turn), 9),
        command::crypt(line(MUGI, turn), 10),
        command::crypt(line(LATE, turn), 1),
        command::crypt(line(KCIPHER2, turn), 0),
        command::park(line(RABBIT, turn)),
        command::park(line(MUGI, turn)),
        command::resume(idle, &some(park(IDLE, turn, 2))),
        command::resume(idle, &some(park(RABBIT, turn, 3))),
        command::resume(idle, &image(6, 1, park(KCIPHER2, turn, 2), &[9; 152])),
        command::close(line(KCIPHER2, turn)),
    ];
    commands.map(|command| (0, call(command))).into()
}

/// Refusals that the command alone decides.
fn unread(turn: u8) -> Vec<(u8, OwnCall)> {
    let idle = line(IDLE, turn);
    let calls = [
        (1, vec![]),
        (1, vec![3, idle, 0]),
        (1, open(idle, 1)[..50].to_vec()),
        (1, command::resume(idle, &some((idle, 2))[..IMAGE - 1])),
        (1, command::resume(idle, &some((idle, 2))[..161])),
        (1, change(line(ZUC, turn), 9)[..26].to_vec()),
        (1, vec![7]),
        (2, vec![0; 2 + IMAGE]),
        (2, vec![10]),
        (3, command::close(8)),
        (3, change(8, END + 1)),
        (3, command::crypt(255, 1)),
        (4, open(idle, 0)),
        (4, open(idle, LAST + 1)),
    ];
    calls.map(|(code, command)| (code, call(command))).into()
}

/// Refusals that the lines, the key, the IV, the image or its park decide.
fn unfit(turn: u8) -> Vec<(u8, OwnCall)> {
    let (busy, idle) = (line(ZUC, turn), line(IDLE, turn));
    let (held, taken_up, replaced) = (park(IDLE, turn, 2), park(LATE, turn, 1), park(IDLE, turn, 1));
    let calls = [
        (5, open(busy, 1)),
        (5, command::resume(busy, &some(held))),
        (5, command::resume(busy, &some((busy, 0)))),
        (5, command::resume(busy, &some((8, 0)))),
        (6, command::crypt(idle, 0)),
        (6, command::crypt(idle, 9)),
        (6, command::park(idle)),
        (6, command::close(idle)),
        (7, command::open_own(idle, 1, &[1; RECORD], &[0; IV])),
        (7, command::open_tray(idle, 2, 0, &[1; IV])),
        (8, command::resume(idle, &[0; IMAGE])),
        (8, command::resume(idle, &image(3, END + 1, held, &[9; 72]))),
        (8, command::resume(idle, &image(5, 1, held, &[9; 81]))),
        (8, command::resume(idle, &image(3, END + 1, taken_up, &[9; 72]))),
        (8, command::resume(idle, &some((8, 1)))),
        (8, command::resume(idle, &some((8, 0)))),
        (8, command::resume(idle, &some((held.0 + 8, held.1)))),
        (8, command::resume(idle, &some((held.0 + 248, held.1)))),
        (8, command::resume(idle, &some((255, u32::MAX)))),
        (14, command::resume(idle, &some((idle, 0)))),
        (14, command::resume(idle, &some((busy, 0)))),
        (14, command::resume(idle, &some(taken_up))),
        (14, command::resume(idle, &some(replaced))),
        (14, command::resume(idle, &some(park(IDLE, turn, 3)))),
        (14, command::resume(idle, &some(park(KCIPHER2, turn, 3)))),
        (14, command::resume(idle, &some(park(RABBIT, turn, 2)))),
        (14, command::resume(idle, &some(park(MUGI, turn, 1)))),
        (14, command::resume(idle, &some((held.0, held.1 << 8)))),
        (14, command::resume(idle, &some((held.0, u32::MAX)))),
        (10, command::open_tray(idle, 1, 1, &[0; IV])),
        (11, command::crypt(busy, 11)),
        (13, command::crypt(line(LATE, turn), 2)),
    ];
    calls.map(|(code, command)| (code, call(command))).into()
}

/// Refusals that the lengths of tray, data and out decide.
fn unlent(turn: u8) -> Vec<(u8, OwnCall)> {
    let (busy, idle) = (line(RABBIT, turn), line(IDLE, turn));
    let from_tray = || call(command::open_tray(idle, 1, 0, &[0; IV]));
    let crypt = || call(command::crypt(busy, 10));
    vec![
        (9, OwnCall { tray: vec![1; RECORD + 1], ..from_tray() }),
        (9, OwnCall { tray: vec![1; 8_224], ..from_tray() }),
        (10, OwnCall { tray: vec![], ..from_tray() }),
        (11, OwnCall { data: vec![], ..crypt() }),
        (12, OwnCall { out: vec![0x22; 9], ..crypt() }),
        (12, OwnCall { out: vec![], ..crypt() }),
        (12, OwnCall { out: vec![0x22; IMAGE - 1], ..call(command::park(busy)) }),
    ]
}

/// Keys of zeros by both opens, alone and with a fault that comes before 16; and keys of which one byte alone isn't 0.
fn blank(turn: u8) -> Vec<(u8, OwnCall)> {
    let (busy, idle) = (line(ZUC, turn), line(IDLE, turn));
    let own = |line: u8, cipher: u8, key: &[u8], iv: &[u8]| {
        call(command::open_own(line, cipher, &padded(key, RECORD), &padded(iv, IV)))
    };
    let from_tray = |line: u8, cipher: u8, key: &[u8], iv: &[u8]| {
        let call = call(command::open_tray(line, cipher, 0, &padded(iv, IV)));
        OwnCall { tray: padded(key, RECORD), ..call }
    };
    let alone = |place: usize| [vec![0; place], vec![1]].concat();
    let mut calls = vec![
        (0, own(idle, 1, &alone(15), &[])),
        (0, own(idle, 4, &alone(16), &[])),
        (0, from_tray(idle, 2, &alone(15), &[])),
        (0, from_tray(idle, 4, &alone(31), &[])),
        (5, own(busy, 1, &[], &[])),
        (7, own(idle, 3, &alone(31), &[])),
        (7, own(idle, 2, &[], &alone(15))),
        (7, from_tray(idle, 6, &alone(16), &[])),
        (7, from_tray(idle, 2, &[], &alone(8))),
        (9, OwnCall { tray: vec![0; RECORD + 1], ..from_tray(idle, 5, &[], &[]) }),
        (10, OwnCall { tray: vec![0; RECORD], ..call(command::open_tray(idle, 4, 1, &[0; IV])) }),
    ];
    calls.extend((1..=LAST).map(|cipher| (16, own(idle, cipher, &[], &[7; 8]))));
    calls.extend((1..=LAST).map(|cipher| (16, from_tray(idle, cipher, &[], &[]))));
    calls
}
