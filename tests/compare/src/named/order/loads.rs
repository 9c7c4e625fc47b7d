//! The order of the refusals of a load and of a start, and of other commands on a loaded line.

use super::{case, cut, keys, unknown, NONE, STRAY};
use crate::command::{self, padded, IMAGE, RECORD};
use crate::machine::END;
use crate::named::Case;

pub fn cases() -> Vec<Case> {
    let groups = [load(), pairs_of_loads(), start(), pairs_of_starts(), on_a_loaded_line()];
    groups.into_iter().flatten().collect()
}

/// A record of zeros but for its last byte.
fn stray() -> Vec<u8> {
    [vec![0; RECORD - 1], vec![1]].concat()
}

/// On a card whose line 0 is open.
fn load() -> Vec<Case> {
    let with = command::load;
    let odd = |case: Case| case.tray([stray(), vec![1]].concat());
    vec![
        odd(case("load, 2, 1, 3, 4, 9, 10", cut(unknown(with(8, NONE, 200))), 2)),
        odd(case("load, 1, 3, 4, 9, 10", cut(with(8, NONE, 200)), 1)),
        odd(case("load, 3, 4, 9, 10", with(8, NONE, 200), 3)),
        odd(case("load, 4, 5, 9, 10", with(0, NONE, 200), 4)),
        odd(case("load, 5, 9, 10", with(0, 2, 200), 5)),
        odd(case("load, 9, 10", with(1, 2, 200), 9)),
        case("load, 10", with(1, 2, 200), 10).tray(stray()),
        odd(case("load, 2, 1, 3, 4, 9, 7, 16", cut(unknown(with(8, NONE, 0))), 2)),
        odd(case("load, 1, 3, 4, 9, 7, 16", cut(with(8, NONE, 0)), 1)),
        odd(case("load, 3, 4, 9, 7, 16", with(8, NONE, 0), 3)),
        odd(case("load, 4, 5, 9, 7, 16", with(0, NONE, 0), 4)),
        odd(case("load, 5, 9, 7, 16", with(0, 2, 0), 5)),
        odd(case("load, 9, 7, 16", with(1, 2, 0), 9)),
        case("load, 7, 16", with(1, 2, 0), 7).tray(stray()),
        case("load, 16", with(1, 2, 0), 16).tray(vec![0; RECORD]),
        case("load, all mended", with(1, 2, 0), 0).tray(keys(32)),
    ]
}

/// A load with two faults and no other.
fn pairs_of_loads() -> Vec<Case> {
    let with = command::load;
    let of = |name: &str, last: Vec<u8>, code: u8, tray: Vec<u8>| case(&format!("load, {name}"), last, code).tray(tray);
    vec![
        of("2 before 1 for cut short", cut(unknown(with(1, 2, 0))), 2, keys(32)),
        of("1 for cut short before 3", cut(with(8, 2, 0)), 1, keys(32)),
        of("1 for cut short before 4", cut(with(1, NONE, 0)), 1, keys(32)),
        of("1 for cut short before 5", cut(with(0, 2, 0)), 1, keys(32)),
        of("1 for cut short before 9", cut(with(1, 2, 0)), 1, keys(33)),
        of("3 before 4", with(8, NONE, 0), 3, keys(32)),
        of("3 before 9", with(8, 2, 0), 3, keys(33)),
        of("3 before 10", with(8, 2, 0), 3, vec![]),
        of("3 before 7", with(8, 2, 0), 3, padded(&[[1; 16].as_slice(), &[1]].concat(), RECORD)),
        of("3 before 16", with(8, 2, 0), 3, vec![0; 32]),
        of("4 before 5", with(0, 0, 0), 4, keys(32)),
        of("4 before 9", with(1, NONE, 0), 4, keys(33)),
        of("4 before 10", with(1, NONE, 0), 4, vec![]),
        of("4 before 16", with(1, NONE, 0), 4, vec![0; 32]),
        of("5 before 9", with(0, 2, 0), 5, keys(33)),
        of("5 before 10", with(0, 2, 0), 5, vec![]),
        of("5 before 7", with(0, 2, 0), 5, padded(&[[1; 16].as_slice(), &[1]].concat(), RECORD)),
        of("5 before 16", with(0, 2, 0), 5, vec![0; 32]),
        of("9 before 10", with(1, 2, 1), 9, keys(33)),
        of("9 before 7", with(1, 2, 0), 9, vec![1; 33]),
        of("9 before 16", with(1, 2, 0), 9, vec![0; 33]),
        of("9 before 16, a tray too long", with(1, 2, 255), 9, vec![0; 8_224]),
        of("10 and no 16", with(1, 2, 1), 10, vec![0; 32]),
        of("7 before 16, byte 16", with(1, 2, 0), 7, padded(&[[0; 16].as_slice(), &[1]].concat(), RECORD)),
        of("7 before 16, byte 31", with(1, 1, 0), 7, stray()),
        of("16 and no 7, 32 bytes", with(1, 4, 0), 16, vec![0; 32]),
    ]
}

/// A case on a card whose line 0 is open with Rabbit, and whose line 1 is loaded with it; key 1 of the tray is blank.
fn loaded(name: &str, last: Vec<u8>, code: u8) -> Case {
    let before = [command::open_own(0, 2, &keys(32), &[0; 16]), command::load(1, 2, 0)];
    let accepted = if code == 0 { 3 } else { 2 };
    let case = Case::new(format!("order: {name}"), &[&before[..], &[last]].concat(), format!("end {accepted} {code}"));
    case.tray(padded(&keys(32), 2 * RECORD))
}

fn start() -> Vec<Case> {
    let with = |line: u8| command::start(line, &STRAY);
    vec![
        loaded("start, 2, 1, 3, 7", cut(unknown(with(8))), 2),
        loaded("start, 1, 3, 7", cut(with(8)), 1),
        loaded("start, 3, 7", with(8), 3),
        loaded("start, 19, 7, an open line", with(0), 19),
        loaded("start, 19, 7, an idle line", with(2), 19),
        loaded("start, 7", with(1), 7),
        loaded("start, all mended", command::start(1, &[0; 16]), 0),
    ]
}

/// A start with two faults and no other.
fn pairs_of_starts() -> Vec<Case> {
    let with = |line: u8| command::start(line, &[0; 16]);
    let stray = |place: usize| padded(&[vec![0; place], vec![1]].concat(), 16);
    vec![
        loaded("start, 2 before 1 for cut short", cut(unknown(with(1))), 2),
        loaded("start, 1 for cut short before 3", cut(with(8)), 1),
        loaded("start, 1 for cut short before 19, an open line", cut(with(0)), 1),
        loaded("start, 1 for cut short before 19, an idle line", cut(with(2)), 1),
        loaded("start, 1 for cut short before 7", cut(command::start(1, &stray(8))), 1),
        loaded("start, 3 before 19", with(9), 3),
        loaded("start, 19 before 7, IV byte 8 on an open line", command::start(0, &stray(8)), 19),
        loaded("start, 19 before 7, IV byte 15 on an open line", command::start(0, &stray(15)), 19),
        loaded("start, 19 before 7, IV byte 8 on an idle line", command::start(7, &stray(8)), 19),
        loaded("start, 7 for IV byte 8", command::start(1, &stray(8)), 7),
        loaded("start, 7 for IV byte 15", command::start(1, &stray(15)), 7),
        loaded("start, IV byte 7 is the IV's own", command::start(1, &stray(7)), 0),
    ]
}

/// Other commands on a loaded line, with one more fault.
fn on_a_loaded_line() -> Vec<Case> {
    let open = |key: &[u8], iv: &[u8]| command::open_own(1, 2, key, iv);
    let change = |number: u8, iv: &[u8], position: u64| command::change_key(1, number, iv, position);
    vec![
        loaded("loaded line, 4 before 5, an open", command::open_own(1, NONE, &keys(32), &[0; 16]), 4),
        loaded("loaded line, 4 before 5, a load", command::load(1, NONE, 0), 4),
        loaded("loaded line, 5 before 7, an open", open(&keys(32), &STRAY), 5),
        loaded("loaded line, 5 before 16, an open", open(&[0; RECORD], &[0; 16]), 5),
        loaded("loaded line, 5 before 10, an open from the tray", command::open_tray(1, 2, 2, &[0; 16]), 5),
        loaded("loaded line, 5 before 7, an open from the tray", command::open_tray(1, 2, 0, &STRAY), 5),
        loaded("loaded line, 5 before 16, an open from the tray", command::open_tray(1, 2, 1, &[0; 16]), 5),
        loaded("loaded line, 5 before 10, a load", command::load(1, 2, 2), 5),
        loaded("loaded line, 5 before 16, a load", command::load(1, 2, 1), 5),
        loaded("loaded line, 5 before 8, a resume", command::resume(1, &[0; IMAGE]), 5),
        loaded("loaded line, 5 before 14, a resume", command::resume(1, &padded(&[4], IMAGE)), 5),
        loaded("loaded line, 6 before 11, a crypt", command::crypt(1, 1), 6),
        loaded("loaded line, 6 before 18, a change", change(0, &[0; 16], END + 1), 6),
        loaded("loaded line, 6 before 10, a change", change(2, &[0; 16], 0), 6),
        loaded("loaded line, 6 before 7, a change", change(0, &STRAY, 0), 6),
        loaded("loaded line, 6 before 16, a change", change(1, &[0; 16], 0), 6),
        loaded("loaded line, 1 for cut short before 6, a park", vec![4], 1),
        loaded("loaded line, a close", command::close(1), 0),
    ]
}
