//! The order of the refusals: 1 for empty, 2, 1 for cut short, 3, 4, 5, 6 or 19, 17, 18, 15, 9, 10, 7, 16, 8, 14, 13, 11,
//! 12.
//! For each command one with all the faults that it can have at once, then with the first mended, and so on; and pairs of
//! faults with no other. No command can have both of 1 for empty and 2, 5 and 6, 6 and 17, 18 and 15, 15 and 9, 10 and
//! 16, 16 and 8, or 14 and 13: on an idle line no change waits, and a key that isn't in the tray isn't all zero either.
//! For 15 a card must be handed in, and for 17 beside 9 trays of two lengths.

mod changes;
mod loads;

use super::published::name;
use super::refusals::open;
use super::{altered, full, positions, Case};
use crate::cipher::LAST;
use crate::command::{self, from_line, numbered, of_park, padded, IMAGE, RECORD};
use crate::machine::END;

pub fn cases() -> Vec<Case> {
    let each = [from_tray(), own(), crypt(), park(), resume(), close(), changes::cases(), loads::cases()];
    let pairs = [pairs(), pairs_of_images(), pairs_of_trays(), pairs_of_keys(), seven_and_sixteen(), pairs_of_crypts()];
    each.into_iter().chain(pairs).flatten().collect()
}

/// A case on a card whose line 0 is open.
fn case(name: &str, last: Vec<u8>, code: u8) -> Case {
    let accepted = if code == 0 { 2 } else { 1 };
    Case::new(format!("order: {name}"), &[open(0), last], format!("end {accepted} {code}"))
}

/// The command without its last byte.
fn cut(mut command: Vec<u8>) -> Vec<u8> {
    command.truncate(command.len() - 1);
    command
}

/// The command with another first byte.
fn unknown(mut command: Vec<u8>) -> Vec<u8> {
    command[0] = 10;
    command
}

/// The least number that no cipher has.
const NONE: u8 = LAST + 1;

/// An IV with a byte beyond Rabbit's eight.
const STRAY: [u8; 16] = [0, 0, 0, 0, 0, 0, 0, 0, 0, 0, 0, 0, 0, 0, 0, 1];

/// A tray of so many bytes, in each record of which the first byte alone isn't 0.
fn keys(length: usize) -> Vec<u8> {
    (0..length).map(|place| u8::from(place % RECORD == 0)).collect()
}

fn from_tray() -> Vec<Case> {
    let all = |number: u8| command::open_tray(8, NONE, number, &STRAY);
    let with = |line: u8, cipher: u8, number: u8, iv: &[u8]| command::open_tray(line, cipher, number, iv);
    let bad = |case: Case| case.tray(vec![0; 33]);
    let good = |case: Case| case.tray(vec![0; 32]);
    vec![
        bad(case("open from the tray, 2, 1, 3, 4, 9, 10, 7", cut(unknown(all(200))), 2)),
        bad(case("open from the tray, 1, 3, 4, 9, 10, 7", cut(all(200)), 1)),
        bad(case("open from the tray, 3, 4, 9, 10, 7", all(200), 3)),
        bad(case("open from the tray, 4, 5, 9, 10, 7", with(0, NONE, 200, &STRAY), 4)),
        bad(case("open from the tray, 5, 9, 10, 7", with(0, 2, 200, &STRAY), 5)),
        bad(case("open from the tray, 9, 10, 7", with(1, 2, 200, &STRAY), 9)),
        good(case("open from the tray, 10, 7", with(1, 2, 200, &STRAY), 10)),
        bad(case("open from the tray, 2, 1, 3, 4, 9, 7, 16", cut(unknown(all(0))), 2)),
        bad(case("open from the tray, 1, 3, 4, 9, 7, 16", cut(all(0)), 1)),
        bad(case("open from the tray, 3, 4, 9, 7, 16", all(0), 3)),
        bad(case("open from the tray, 4, 5, 9, 7, 16", with(0, NONE, 0, &STRAY), 4)),
        bad(case("open from the tray, 5, 9, 7, 16", with(0, 2, 0, &STRAY), 5)),
        bad(case("open from the tray, 9, 7, 16", with(1, 2, 0, &STRAY), 9)),
        good(case("open from the tray, 7, 16", with(1, 2, 0, &STRAY), 7)),
        good(case("open from the tray, 16", with(1, 2, 0, &[0; 16]), 16)),
        case("open from the tray, all mended", with(1, 2, 0, &[0; 16]), 0).tray(keys(32)),
    ]
}

fn own() -> Vec<Case> {
    let with = |line: u8, cipher: u8, iv: &[u8]| command::open_own(line, cipher, &[0; RECORD], iv);
    vec![
        case("open with its own key, 2, 1, 3, 4, 7, 16", cut(unknown(with(8, NONE, &STRAY))), 2),
        case("open with its own key, 1, 3, 4, 7, 16", cut(with(8, NONE, &STRAY)), 1),
        case("open with its own key, 3, 4, 7, 16", with(8, NONE, &STRAY), 3),
        case("open with its own key, 4, 5, 7, 16", with(0, NONE, &STRAY), 4),
        case("open with its own key, 5, 7, 16", with(0, 2, &STRAY), 5),
        case("open with its own key, 7, 16", with(1, 2, &STRAY), 7),
        case("open with its own key, 16", with(1, 2, &[0; 16]), 16),
        case("open with its own key, all mended", command::open_own(1, 2, &keys(32), &[0; 16]), 0),
    ]
}

/// On a card with 132 bytes left of out and 140 of data, line 0 open at its first byte and line 6 one byte before the
/// end.
fn crypt() -> Vec<Case> {
    let far = command::resume(6, &of_park(&positions::image(3, END - 1), (0, full::PARKS as u32)));
    let after = |name: &str, last: Vec<u8>, code: u8| {
        let accepted = full::PARKS * 2 + 2 + usize::from(code == 0);
        let commands = [full::parks(full::PARKS), vec![full::open(0), far.clone(), last]].concat();
        let case = Case::new(format!("order: crypt, {name}"), &commands, format!("end {accepted} {code}"));
        case.tray(full::tray()).data(vec![0; 140])
    };
    vec![
        after("2, 1, 3, 11, 12", cut(unknown(command::crypt(8, 150))), 2),
        after("1, 3, 11, 12", cut(command::crypt(8, 150)), 1),
        after("3, 11, 12", command::crypt(8, 150), 3),
        after("6, 11, 12", command::crypt(1, 150), 6),
        after("13, 11, 12", command::crypt(6, 150), 13),
        after("13, 12", command::crypt(6, 140), 13),
        after("11, 12", command::crypt(0, 141), 11),
        after("12", command::crypt(0, 140), 12),
        after("all mended", command::crypt(0, 132), 0),
    ]
}

/// On a card with line 0 open and 132 bytes left of out, too few for an image; mended, with 298 left.
fn park() -> Vec<Case> {
    let after = |name: &str, parks: usize, last: Vec<u8>, code: u8| {
        let accepted = parks * 2 + 1 + usize::from(code == 0);
        let commands = [full::parks(parks), vec![full::open(0), last]].concat();
        let case = Case::new(format!("order: park, {name}"), &commands, format!("end {accepted} {code}"));
        case.tray(full::tray())
    };
    vec![
        after("2, 1, 12", full::PARKS, vec![10], 2),
        after("1, 12", full::PARKS, vec![4], 1),
        after("3, 12", full::PARKS, command::park(8), 3),
        after("6, 12", full::PARKS, command::park(1), 6),
        after("12", full::PARKS, command::park(0), 12),
        after("all mended", full::PARKS - 1, command::park(0), 0),
    ]
}

fn resume() -> Vec<Case> {
    let (bad, good) = (vec![0; IMAGE], from_line(&positions::image(3, 0), 5));
    vec![
        held("resume, 2, 1, 3, 8, 14", cut(unknown(command::resume(8, &bad))), 2),
        held("resume, 1, 3, 8, 14", cut(command::resume(8, &bad)), 1),
        held("resume, 3, 8, 14", command::resume(8, &bad), 3),
        held("resume, 5, 8, 14", command::resume(0, &bad), 5),
        held("resume, 8, 14, and never 4", command::resume(1, &bad), 8),
        held("resume, 8 by the line, 14", command::resume(1, &of_park(&good, (13, 0))), 8),
        held("resume, 8 by the line", command::resume(1, &from_line(&good, 13)), 8),
        held("resume, 14", command::resume(1, &numbered(&good, 0)), 14),
        held("resume, 14 by the line", command::resume(1, &from_line(&good, 4)), 14),
        held("resume, all mended", command::resume(1, &good), 0),
    ]
}

/// A case on a card whose line 0 is open, and that holds number 1 of line 5.
fn held(name: &str, last: Vec<u8>, code: u8) -> Case {
    let accepted = if code == 0 { 4 } else { 3 };
    let commands = [&[open(0)], &altered::parked(5)[..], &[last]].concat();
    Case::new(format!("order: {name}"), &commands, format!("end {accepted} {code}"))
}

fn close() -> Vec<Case> {
    vec![
        case("close, 2, 1", vec![0xFF], 2),
        case("close, 1", vec![6], 1),
        case("close, 3", command::close(8), 3),
        case("close, 6", command::close(1), 6),
        case("close, all mended", command::close(0), 0),
    ]
}

/// Two faults and no other.
fn pairs() -> Vec<Case> {
    let own = |line: u8, cipher: u8| command::open_own(line, cipher, &keys(32), &[0; 16]);
    let stray = command::open_own(0, 1, &[1; RECORD], &[0; 16]);
    vec![
        case("2 before 1 for cut short", vec![0x0A, 0x00, 0x00], 2),
        case("1 for cut short before 3", vec![0x03, 0x08, 0x00], 1),
        case("1 for cut short before 4", cut(own(1, 0)), 1),
        case("1 for cut short before 5", cut(own(0, 1)), 1),
        case("1 for cut short before 6", vec![0x03, 0x01, 0x00], 1),
        case("3 before 4", own(8, NONE), 3),
        case("4 before 5", own(0, 0), 4),
        case("5 before 7", stray, 5),
    ]
}

/// Bad images of a park that is held, good ones of one that isn't, good ones but for a line over 7, and some with both
/// faults.
fn pairs_of_images() -> Vec<Case> {
    let (bad, good) = (of_park(&[0xFF; IMAGE], (5, 1)), of_park(&positions::image(3, 0), (5, 2)));
    let over = |number: u32| of_park(&good, (8, number));
    vec![
        held("1 for cut short before 8", cut(command::resume(1, &bad)), 1),
        held("3 before 8", command::resume(9, &bad), 3),
        held("5 before 8", command::resume(0, &bad), 5),
        held("1 for cut short before 14", cut(command::resume(1, &good)), 1),
        held("3 before 14", command::resume(9, &good), 3),
        held("5 before 14", command::resume(0, &good), 5),
        held("8 before 14", command::resume(1, &numbered(&bad, 2)), 8),
        held("1 for cut short before 8, a line over 7", cut(command::resume(1, &over(1))), 1),
        held("3 before 8, a line over 7", command::resume(9, &over(1)), 3),
        held("5 before 8, a line over 7", command::resume(0, &over(1)), 5),
        held("8 before 14, a line over 7", command::resume(1, &over(2)), 8),
        held("8 before 14, a line over 7 and number 0", command::resume(1, &over(0)), 8),
    ]
}

fn pairs_of_trays() -> Vec<Case> {
    let open = |line: u8, cipher: u8, number: u8, iv: u8| {
        let iv = [&[0; 15][..], &[iv]].concat();
        command::open_tray(line, cipher, number, &iv)
    };
    vec![
        case("1 for cut short before 9", cut(open(1, 4, 0, 0)), 1).tray(keys(33)),
        case("3 before 9", open(8, 4, 0, 0), 3).tray(keys(33)),
        case("3 before 10", open(8, 4, 0, 0), 3),
        case("4 before 9", open(1, NONE, 0, 0), 4).tray(keys(33)),
        case("4 before 10", open(1, NONE, 0, 0), 4),
        case("5 before 9", open(0, 4, 0, 0), 5).tray(keys(33)),
        case("5 before 10", open(0, 4, 0, 0), 5),
        case("9 before 10, key 0 of 31 bytes", open(1, 4, 0, 0), 9).tray(keys(31)),
        case("9 before 10, key 1 of 33 bytes", open(1, 4, 1, 0), 9).tray(keys(33)),
        case("9 before 7", open(1, 2, 0, 1), 9).tray(keys(33)),
        case("9 before 7, a tray too long", open(1, 2, 0, 1), 9).tray(keys(8_224)),
        case("10 before 7", open(1, 2, 1, 1), 10).tray(keys(32)),
        case("7 with a key that is in the tray", open(1, 2, 1, 1), 7).tray(keys(64)),
    ]
}

/// Keys of zeros with one other fault, by both opens; and trays of zeros that haven't the key.
fn pairs_of_keys() -> Vec<Case> {
    let own = |line: u8, cipher: u8| command::open_own(line, cipher, &[0; RECORD], &[0; 16]);
    let open = |line: u8, cipher: u8, number: u8| command::open_tray(line, cipher, number, &[0; 16]);
    let blank = |name: &str, last: Vec<u8>, code: u8, length: usize| case(name, last, code).tray(vec![0; length]);
    vec![
        case("1 for cut short before 16", cut(own(1, 1)), 1),
        case("3 before 16", own(8, 1), 3),
        case("4 before 16", own(1, NONE), 4),
        case("5 before 16", own(0, 1), 5),
        blank("1 for cut short before 16, from the tray", cut(open(1, 1, 0)), 1, 32),
        blank("3 before 16, from the tray", open(8, 1, 0), 3, 32),
        blank("4 before 16, from the tray", open(1, NONE, 0), 4, 32),
        blank("5 before 16, from the tray", open(0, 1, 0), 5, 32),
        blank("9 before 16", open(1, 4, 0), 9, 33),
        blank("9 before 16, a tray too long", open(1, 4, 0), 9, 8_224),
        blank("9 before 16, the last key of a tray too long", open(1, 4, 255), 9, 8_224),
        blank("10 and no 16, key 1 of a tray of one blank record", open(1, 4, 1), 10, 32),
        blank("10 and no 16, key 255 of a tray of 255 blank records", open(1, 4, 255), 10, 8_160),
        blank("16 with a key that is in the tray", open(1, 4, 1), 16, 64),
    ]
}

/// Keys of zeros with one byte beyond the cipher's lengths, by both opens.
fn seven_and_sixteen() -> Vec<Case> {
    let byte = |place: usize, length: usize| padded(&[vec![0; place], vec![1]].concat(), length);
    let beyond_key = |(cipher, place)| (cipher, format!("key byte {place}"), byte(place, RECORD), vec![0; 16]);
    let beyond_iv = |place| (2, format!("IV byte {place}"), vec![0; RECORD], byte(place, 16));
    let places = [1, 2, 3, 5, 6].into_iter().flat_map(|cipher| [(cipher, 16), (cipher, 31)]);
    let both = |(cipher, what, key, iv): (u8, String, Vec<u8>, Vec<u8>)| {
        let what = format!("7 before 16, {}, {what}", name(cipher));
        let tray = case(&format!("{what}, from the tray"), command::open_tray(1, cipher, 0, &iv), 7).tray(key.clone());
        [case(&what, command::open_own(1, cipher, &key, &iv), 7), tray]
    };
    places.map(beyond_key).chain([8, 15].map(beyond_iv)).flat_map(both).collect()
}

/// What `crypt` has beside these needs out to be full.
fn pairs_of_crypts() -> Vec<Case> {
    let late = |name: &str, data: usize, count: u16, end: &str| {
        let commands = [altered::resumed(5, &positions::image(1, END - 5)), vec![command::crypt(5, count)]].concat();
        Case::new(format!("order: {name}"), &commands, end).data(vec![0; data])
    };
    vec![
        case("3 before 11", command::crypt(8, 1), 3),
        case("6 before 11", command::crypt(1, 1), 6),
        late("13 before 11", 5, 6, "end 3 13"),
        late("13 with all the data there", 6, 6, "end 3 13"),
        late("11 with all the positions there", 4, 5, "end 3 11"),
        late("the last five bytes", 5, 5, "end 4 0"),
    ]
}
