//! Numbers 17 and 18 on lines near their first byte, and what else refuses a change of key: a key and an IV that aren't
//! for the line's own cipher, among them keys of zeros, and trays that haven't the key.

use super::published::{self, text, Published};
use super::script::{case, joined, tray, Pair, Script, NEW, OLD};
use super::Case;
use crate::cipher::by_number;
use crate::command::{self, padded, IV, RECORD};
use crate::machine::END;

pub fn cases() -> Vec<Case> {
    let each: [fn(&Pair) -> Vec<Case>; 7] = [second, parks, below, above, stray, zeros, trays];
    published::pairs().iter().flat_map(|p| each.iter().flat_map(move |group| group(p))).collect()
}

/// A second change while one waits, wherever it is.
fn second(p: &Pair) -> Vec<Case> {
    let old = &p[0].stream;
    let of = |what: &str, position: usize| {
        let script = Script::new(p).open().frame(&old[..4]).change(9).frame(&old[4..8]);
        script.change_back(position).refused(&format!("number 17, a second one {what}"), 17)
    };
    let places = [("before the first", 8), ("where the first is", 9), ("behind the first", 10), ("at 2^36", 1 << 36)];
    let mut cases: Vec<Case> = places.into_iter().map(|(what, position)| of(what, position)).collect();
    let after = Script::new(p).open().change(9).frame(&joined(p, 9, 1)).change(2).change(3);
    cases.push(after.refused("number 17, a third one while the second waits", 17));
    let empty = Script::new(p).open().change(1).frame(&[]).change(1);
    cases.push(empty.refused("number 17, a second one after a frame of no bytes", 17));
    cases
}

/// Parks while a change waits, and after it came due or was dropped.
fn parks(p: &Pair) -> Vec<Case> {
    let old = &p[0].stream;
    let at = |n: usize, due: usize| Script::new(p).open().frame(&old[..n]).change(due);
    let refused =
        |what: &str, script: Script<'_>| script.put(command::park(2)).refused(&format!("number 17, a park {what}"), 17);
    let accepted = |what: &str, script: &[Vec<u8>], data: usize| {
        let commands = [&[p[0].open(2)], script, &[command::park(2)]].concat();
        case(p, what, &commands, format!("end {} 0", commands.len())).data(vec![0; data])
    };
    let (change, frame) = (|due: u64| p[1].change(2, NEW, due), |count: u16| command::crypt(2, count));
    vec![
        refused("before the first byte", at(0, 1)),
        refused("a byte before it", at(8, 9)),
        refused("after a frame", at(0, 9).frame(&old[..8])),
        refused("with one at 2^36", at(0, 1 << 36)),
        accepted("parked after one at once", &[change(0)], 0),
        accepted("parked after one at a frame's end", &[change(9), frame(9)], 9),
        accepted("parked after one within a frame", &[change(9), frame(10)], 10),
        accepted("parked after one that was dropped", &[change(9), command::close(2), p[0].open(2)], 0),
    ]
}

/// Below the line's position, in the stream that it is in.
fn below(p: &Pair) -> Vec<Case> {
    let new = &p[1].stream;
    let at = |n: usize| Script::new(p).open().frame(&p[0].stream[..n]);
    let behind = |n: usize| Script::new(p).open().change(9).frame(&joined(p, 9, n));
    vec![
        at(1).change(0).refused("number 18, n = 1 and one at 0", 18),
        at(17).change(16).refused("number 18, n = 17 and one at 16", 18),
        at(17).change(0).refused("number 18, n = 17 and one at 0", 18),
        behind(5).change(4).refused("number 18, n = 5 after a change and one at 4", 18),
        behind(5).change(5).frame(&new[..9]).case("n = 5 after a change and one at 5"),
        behind(5).change(9).frame(&new[5..9]).frame(&new[..9]).case("n = 5 after a change and one at 9"),
    ]
}

/// Above 2^36, some with a low half that a position may have.
fn above(p: &Pair) -> Vec<Case> {
    let of = |position: u64| {
        let commands = [p[0].open(2), command::crypt(2, 3), p[1].change(2, NEW, position)];
        case(p, &format!("number 18, one at {position}"), &commands, "end 2 18").data(vec![0; 3])
    };
    let last = Script::new(p).open().change(1 << 36).frame(&p[0].stream[..32]);
    let over = [END + 1, END + 3, 2 * END, (1 << 40) + 9, (1 << 48) + 9, (1 << 56) + 9, (1 << 63) + 9, u64::MAX];
    over.map(of).into_iter().chain([last.case("one at 2^36")]).collect()
}

/// A change to a key that is number 2 of the tray, with an IV.
fn to(p: &Pair, what: &str, key: &[u8], iv: &[u8], code: u8) -> Case {
    let commands = [p[0].open(2), command::crypt(2, 3), command::change_key(2, 2, iv, 3), command::crypt(2, 20)];
    let accepted = if code == 0 { 4 } else { 2 };
    let tray = [tray(p), key.to_vec()].concat();
    case(p, what, &commands, format!("end {accepted} {code}")).tray(tray).data(text(23))
}

/// The first and the last byte beyond the key and the IV of the line's cipher; where none is beyond, these are the key's
/// or the IV's own.
fn stray(p: &Pair) -> Vec<Case> {
    let (Published { key, iv, .. }, (key_length, iv_length)) = (&p[1], lengths(&p[1]));
    let with = |bytes: &[u8], place: usize| [&bytes[..place], &[1], &bytes[place + 1..]].concat();
    let of = |beyond: bool, what: String, key: &[u8], iv: &[u8]| match beyond {
        true => to(p, &format!("number 7, {what}"), key, iv, 7),
        false => to(p, &what, key, iv, 0),
    };
    let keys = [16, 31].map(|at| of(at >= key_length, format!("key byte {at}"), &with(key, at), iv));
    let ivs = [8, 15].map(|at| of(at >= iv_length, format!("IV byte {at}"), key, &with(iv, at)));
    keys.into_iter().chain(ivs).collect()
}

/// The lengths of key and IV.
fn lengths(p: &Published) -> (usize, usize) {
    by_number(p.cipher).map_or((RECORD, IV), |c| (c.shape().key, c.shape().iv))
}

/// Keys of zeros in the cipher's own length, and those of which one byte isn't.
fn zeros(p: &Pair) -> Vec<Case> {
    let (length, iv) = (lengths(&p[1]).0, &p[1].iv);
    let alone = |place: usize| padded(&[vec![0; place], vec![1]].concat(), RECORD);
    let blank = [0; RECORD];
    let mut cases = vec![
        to(p, "number 16, an empty record", &blank, iv, 16),
        to(p, "number 16, an empty record and a zero IV", &blank, &[0; IV], 16),
        to(p, "the first byte of the key alone", &alone(0), iv, 0),
        to(p, "the last byte of the key alone", &alone(length - 1), iv, 0),
    ];
    if length < RECORD {
        cases.push(to(p, "number 7, a byte beyond a key of zeros", &alone(length), iv, 7));
    } else {
        cases.push(to(p, "the first byte of the key's second half alone", &alone(16), iv, 0));
    }
    cases
}

/// Trays of other lengths, and key numbers that aren't in the tray.
fn trays(p: &Pair) -> Vec<Case> {
    let of = |what: String, number: u8, tray: Vec<u8>, code: u8| {
        let commands = [p[0].open(2), p[1].change(2, number, 0)];
        case(p, &what, &commands, format!("end {} {code}", 1 + usize::from(code == 0))).tray(tray)
    };
    let keys = |count: usize| p[1].key.repeat(count);
    let bad = [31, 33, 8_191, 8_193, 8_224].map(|length| {
        let tray = padded(&keys(258), 8_256)[..length].to_vec();
        of(format!("number 9, a tray of {length}"), OLD, tray, 9)
    });
    let none = [(0, 0), (1, 1), (2, 2), (255, 255)].map(|(count, number)| {
        of(format!("number 10, key {number} of a tray of {count} keys"), number, keys(count), 10)
    });
    let there = of("the last of a full tray".to_string(), 255, keys(256), 0);
    bad.into_iter().chain(none).chain([there]).collect()
}
