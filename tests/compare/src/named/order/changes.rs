//! The order of the refusals of a change of key, and of a park while a change waits.

use super::{case, cut, keys, unknown, STRAY};
use crate::command::{self, padded, RECORD};
use crate::machine::END;
use crate::named::{full, Case};

pub fn cases() -> Vec<Case> {
    let groups = [change(), change_by_a_bad_tray(), pairs(), pairs_of_one_line(), vec![park_while_one_waits()]];
    groups.into_iter().flatten().collect()
}

/// A tray of two records: in the first the first byte alone isn't 0, the second is empty.
fn key_and_blank() -> Vec<u8> {
    padded(&keys(32), 2 * RECORD)
}

/// A case on a card whose line 0 is open with Rabbit and has a change waiting at byte 9, and whose line 1 is open with it
/// at byte 5.
fn waits(name: &str, last: Vec<u8>, code: u8) -> Case {
    let open = |line: u8| command::open_own(line, 2, &keys(32), &[0; 16]);
    let waiting = [open(0), command::change_key(0, 0, &[0; 16], 9), open(1), command::crypt(1, 5)];
    let accepted = if code == 0 { 5 } else { 4 };
    let case = Case::new(format!("order: {name}"), &[&waiting[..], &[last]].concat(), format!("end {accepted} {code}"));
    case.tray(key_and_blank()).data(vec![0; 5])
}

fn change() -> Vec<Case> {
    let with = command::change_key;
    let all = |line: u8| with(line, 200, &STRAY, END + 1);
    vec![
        waits("change of key, 2, 1, 3, 18, 10, 7", cut(unknown(all(8))), 2),
        waits("change of key, 1, 3, 18, 10, 7", cut(all(8)), 1),
        waits("change of key, 3, 18, 10, 7", all(8), 3),
        waits("change of key, 6, 18, 10, 7", all(2), 6),
        waits("change of key, 17, 18, 10, 7", all(0), 17),
        waits("change of key, 18, 10, 7", all(1), 18),
        waits("change of key, 10, 7", with(1, 200, &STRAY, 5), 10),
        waits("change of key, 17, 18, 7, 16", with(0, 1, &STRAY, END + 1), 17),
        waits("change of key, 18, 7, 16", with(1, 1, &STRAY, 4), 18),
        waits("change of key, 7, 16", with(1, 1, &STRAY, 5), 7),
        waits("change of key, 16", with(1, 1, &[0; 16], 5), 16),
        waits("change of key, all mended", with(1, 0, &[0; 16], 5), 0),
    ]
}

/// On a card whose line 0 is open with Rabbit at byte 5; the tray has a length that is refused.
fn change_by_a_bad_tray() -> Vec<Case> {
    let bad = |name: &str, last: Vec<u8>, code: u8| {
        let open = command::open_own(0, 2, &keys(32), &[0; 16]);
        let case = Case::new(format!("order: {name}"), &[open, command::crypt(0, 5), last], format!("end 2 {code}"));
        case.tray(vec![0; 33]).data(vec![0; 5])
    };
    let with = command::change_key;
    vec![
        bad("change of key, 2, 1, 3, 18, 9, 10, 7", cut(unknown(with(8, 200, &STRAY, 4))), 2),
        bad("change of key, 1, 3, 18, 9, 10, 7", cut(with(8, 200, &STRAY, 4)), 1),
        bad("change of key, 3, 18, 9, 10, 7", with(8, 200, &STRAY, 4), 3),
        bad("change of key, 6, 18, 9, 10, 7", with(1, 200, &STRAY, END + 1), 6),
        bad("change of key, 18, 9, 10, 7", with(0, 200, &STRAY, 4), 18),
        bad("change of key, 9, 10, 7", with(0, 200, &STRAY, 5), 9),
        bad("change of key, 18, 9, 7, 16", with(0, 0, &STRAY, 4), 18),
        bad("change of key, 9, 7, 16", with(0, 0, &STRAY, 5), 9),
        bad("change of key, 9, 16", with(0, 0, &[0; 16], 5), 9),
    ]
}

/// A change with two faults and no other.
fn pairs() -> Vec<Case> {
    let with = command::change_key;
    let bad = |case: Case| case.tray(keys(33));
    vec![
        waits("1 for cut short before 6, by a change", cut(with(2, 0, &[0; 16], 0)), 1),
        waits("1 for cut short before 17", cut(with(0, 0, &[0; 16], 9)), 1),
        waits("1 for cut short before 18", cut(with(1, 0, &[0; 16], 4)), 1),
        waits("3 before 18", with(8, 0, &[0; 16], END + 1), 3),
        waits("6 before 18", with(2, 0, &[0; 16], END + 1), 6),
        waits("6 before 10", with(2, 2, &[0; 16], 0), 6),
        waits("6 before 7", with(2, 0, &STRAY, 0), 6),
        waits("6 before 16", with(2, 1, &[0; 16], 0), 6),
        waits("17 before 18, above 2^36", with(0, 0, &[0; 16], END + 1), 17),
        waits("17 before 10", with(0, 2, &[0; 16], 9), 17),
        waits("17 before 7", with(0, 0, &STRAY, 9), 17),
        waits("17 before 16", with(0, 1, &[0; 16], 9), 17),
        waits("18 before 10, below the line", with(1, 2, &[0; 16], 4), 18),
        waits("18 before 10, above 2^36", with(1, 2, &[0; 16], END + 1), 18),
        waits("18 before 7", with(1, 0, &STRAY, 4), 18),
        waits("18 before 16", with(1, 1, &[0; 16], 4), 18),
        waits("10 before 7, by a change", with(1, 2, &STRAY, 5), 10),
        bad(case("1 for cut short before 9, by a change", cut(with(0, 0, &[0; 16], 0)), 1)),
        bad(case("3 before 9, by a change", with(8, 0, &[0; 16], 0), 3)),
        bad(case("6 before 9", with(1, 0, &[0; 16], 0), 6)),
        bad(case("18 before 9", with(0, 0, &[0; 16], END + 1), 18)),
        bad(case("9 before 10, by a change", with(0, 1, &[0; 16], 0), 9)),
    ]
}

/// A second change below the line's position, and parks.
fn pairs_of_one_line() -> Vec<Case> {
    let open = command::open_own(0, 2, &keys(32), &[0; 16]);
    let before = [open, command::crypt(0, 5), command::change_key(0, 0, &[0; 16], 9)];
    let of = |name: &str, last: Vec<u8>, code: u8| {
        let case = Case::new(format!("order: {name}"), &[&before[..], &[last]].concat(), format!("end 3 {code}"));
        case.tray(keys(32)).data(vec![0; 5])
    };
    vec![
        of("17 before 18, below the line", command::change_key(0, 0, &[0; 16], 4), 17),
        of("3 before 17, park", command::park(8), 3),
        of("6 and no 17 on another line, park", command::park(1), 6),
        of("1 for cut short before 17, park", vec![4], 1),
    ]
}

/// A park on a card with a change waiting on line 0 and 31 bytes left of out.
fn park_while_one_waits() -> Case {
    let waiting = [full::open(0), command::change_key(0, 0, &[0; 16], 1), command::park(0)];
    let commands = [full::parks(full::PARKS), waiting.into()].concat();
    let end = format!("end {} 17", 2 * full::PARKS + 2);
    Case::new("order: park, 17, 12", &commands, end).tray(full::tray())
}
