//! Number 16: keys that are all zero in the cipher's own length, by both opens and whatever stands beside them; and keys
//! of which a byte alone isn't 0, which are taken. A resume is never refused so, for the state of an image is no key.
//! Changes of key to such keys are in `waiting`.

use super::published::name;
use super::refusals::open;
use super::{altered, Case};
use crate::cipher::{by_number, LAST};
use crate::command::{self, padded, IV, RECORD};
use crate::images;

pub fn cases() -> Vec<Case> {
    let each = |cipher: u8| [own(cipher), from_tray(cipher), taken(cipher), not_looked_at(cipher)];
    (1..=LAST).flat_map(each).flatten().chain((1..=LAST).map(resumed)).collect()
}

/// The lengths of a cipher's key and IV.
fn lengths(cipher: u8) -> (usize, usize) {
    by_number(cipher).map_or((RECORD, IV), |c| (c.shape().key, c.shape().iv))
}

/// An IV of the cipher's length, of this byte.
fn iv(cipher: u8, byte: u8) -> Vec<u8> {
    padded(&vec![byte; lengths(cipher).1], IV)
}

/// A case that ends with 16 after `before`, which are accepted.
fn refused(cipher: u8, what: &str, before: &[Vec<u8>], last: Vec<u8>) -> Case {
    let name = format!("number 16: {}, {what}", name(cipher));
    Case::new(name, &[before, &[last]].concat(), format!("end {} 16", before.len()))
}

/// The commands before a refusal that has something to leave: an open line, its bytes in out, and a parked one.
fn before() -> [Vec<u8>; 5] {
    [open(0), command::crypt(0, 9), open(1), command::park(1), command::crypt(0, 4)]
}

/// Keys of the command's own.
fn own(cipher: u8) -> Vec<Case> {
    let open = |byte: u8| command::open_own(2, cipher, &[0; RECORD], &iv(cipher, byte));
    vec![
        refused(cipher, "its own key and a zero IV", &[], open(0)),
        refused(cipher, "its own key and an IV of ff", &[], open(0xFF)),
        refused(cipher, "its own key beside a full tray", &[], open(0)).tray(vec![0xFF; RECORD]),
        refused(cipher, "its own key on a card in use", &before(), open(1)).data(vec![0; 13]),
    ]
}

/// Blank records, alone and beside full ones.
fn from_tray(cipher: u8) -> Vec<Case> {
    let open = |number: u8, byte: u8| command::open_tray(2, cipher, number, &iv(cipher, byte));
    let (blank, full) = ([0; RECORD], [0xFF; RECORD]);
    let all = [full.repeat(255), blank.to_vec()].concat();
    vec![
        refused(cipher, "the only key and a zero IV", &[], open(0, 0)).tray(blank.to_vec()),
        refused(cipher, "the only key and an IV of ff", &[], open(0, 0xFF)).tray(blank.to_vec()),
        refused(cipher, "the first key of two", &[], open(0, 0xFF)).tray([blank, full].concat()),
        refused(cipher, "the second key of three", &[], open(1, 0xFF)).tray([full, blank, full].concat()),
        refused(cipher, "the last key of 256", &[], open(255, 0xFF)).tray(all),
        refused(cipher, "the tray's key on a card in use", &before(), open(0, 1)).tray(blank.into()).data(vec![0; 13]),
    ]
}

/// A key with one byte that isn't 0.
fn alone(place: usize, byte: u8) -> Vec<u8> {
    padded(&[vec![0; place], vec![byte]].concat(), RECORD)
}

/// Keys that are all zero but for their last byte, for one byte at any place, or for two whose sum is 256 or that are
/// the same; with 32 bytes, also but for the first of their second half.
fn taken(cipher: u8) -> Vec<Case> {
    let last = lengths(cipher).0 - 1;
    let two = |one: u8, other: u8| padded(&[vec![one], vec![0; last - 1], vec![other]].concat(), RECORD);
    let bits = (0..8).map(|bit| alone(last, 1 << bit)).collect::<Vec<_>>();
    let places = (0..=last).map(|place| alone(place, 1)).collect::<Vec<_>>();
    let mut all = vec![
        opened(cipher, &format!("byte {last} of the key alone is 1"), &[alone(last, 1)]),
        opened(cipher, &format!("byte {last} of the key alone, each bit"), &bits),
        opened(cipher, "each byte of the key alone", &places),
        opened(cipher, "two bytes of the key", &[two(0x80, 0x80), two(1, 0xFF), two(1, 1), two(0xFF, 0xFF)]),
    ];
    if last > 16 {
        all.push(opened(cipher, "byte 16 of the key alone is 1", &[alone(16, 1)]));
    }
    all.into_iter().flatten().collect()
}

/// Opens with these keys, one after the other, each with a frame and a close after it; by both commands.
fn opened(cipher: u8, what: &str, keys: &[Vec<u8>]) -> [Case; 2] {
    let used = |open: Vec<u8>| [open, command::crypt(3, 20), command::close(3)];
    let case = |how: &str, open: &dyn Fn(u8, &[u8]) -> Vec<u8>| {
        let commands: Vec<Vec<u8>> = (0..).zip(keys).flat_map(|(number, key)| used(open(number, key))).collect();
        let case =
            Case::new(format!("{}, {how}: {what}", name(cipher)), &commands, format!("end {} 0", commands.len()));
        case.data(vec![0; 20 * keys.len()])
    };
    [
        case("own key taken", &|_, key| command::open_own(3, cipher, key, &[0; IV])),
        case("tray's key taken", &|number, _| command::open_tray(3, cipher, number, &[0; IV])).tray(keys.concat()),
    ]
}

/// Other zeros than the key's: those of the tray for a key of the command's own, of other records, and of the IV.
fn not_looked_at(cipher: u8) -> Vec<Case> {
    let key = alone(0, 0x80);
    let (blank, zero) = ([0; RECORD], [0; IV]);
    let of = |what: &str, last: Vec<u8>, tray: Vec<u8>| {
        Case::new(format!("{}: {what}", name(cipher)), &[last], "end 1 0").tray(tray)
    };
    vec![
        of("its own key beside a blank tray", command::open_own(6, cipher, &key, &zero), blank.to_vec()),
        of("a key before a blank one", command::open_tray(6, cipher, 0, &zero), [&key, &blank[..]].concat()),
        of("a key after a blank one", command::open_tray(6, cipher, 1, &zero), [&blank[..], &key].concat()),
    ]
}

/// S(0) of a key and an IV of zeros, in an image.
fn resumed(cipher: u8) -> Case {
    let (key, iv) = lengths(cipher);
    let state = by_number(cipher).map_or(Vec::new(), |c| c.state_bytes(&c.init(&vec![0; key], &vec![0; iv])));
    let resumed = altered::resumed(5, &images::image(cipher, 0, (5, 1), &state));
    let commands = [resumed, vec![command::crypt(5, 33), command::park(5)]].concat();
    Case::new(format!("{}: S(0) of a key of zeros is resumed", name(cipher)), &commands, "end 5 0").data(vec![0; 33])
}
