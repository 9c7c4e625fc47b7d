//! The worked cases, edges and example of document 01, checked of the second implementation before it is used; the
//! edges of park are those of an image of 166 bytes, and edges of the parks' lines and numbers, of keys, of changes of key
//! and of loads stand beside them.

use crate::cipher::LAST;
use crate::command::{self, of_park, padded, Park, IMAGE, IV, RECORD};
use crate::images::{image, NO_PARK};
use crate::machine::{Answer, Machine, END};
use crate::parks::{Parks, MOST};
use crate::program::{self, Files};
use crate::{aes, hex, rabbit, snow2, zuc};

/// Checks all cases; tells how many there are, or the first that fails.
pub fn check() -> Result<usize, String> {
    let groups = [values(), edges(), numbers(), keys(), changes(), loads(), example()];
    let cases: Vec<(&str, bool)> = groups.into_iter().flatten().collect();
    match cases.iter().find(|(_, holds)| !holds) {
        Some((name, _)) => Err(format!("a case of document 01 fails: {name}")),
        None => Ok(cases.len()),
    }
}

/// The table of values.
fn values() -> Vec<(&'static str, bool)> {
    let zeros = zuc::load(&[0; 16], &[0; 16]);
    let ones = zuc::load(&[0xFF; 16], &[0xFF; 16]);
    let key = [&[0x80][..], &[0; 15]].concat();
    let iv: Vec<u8> = [4u32, 3, 2, 1].iter().flat_map(|word| word.to_be_bytes()).collect();
    let loaded = snow2::load(&key, &iv);
    vec![
        ("SUB1[0] = 3e", zuc::SUB1[0] == 0x3E),
        ("SUB1[255] = 60", zuc::SUB1[255] == 0x60),
        ("SUB2[0] = 55", zuc::SUB2[0] == 0x55),
        ("SUB2[255] = f2", zuc::SUB2[255] == 0xF2),
        ("cell 0 of zero key and IV is 0044D700", zeros[0] == 0x0044_D700),
        ("cell 15 of all-ff key and IV is 7FC7ACFF", ones[15] == 0x7FC7_ACFF),
        ("cells of 2^31 - 1 feed back 2^31 - 1", zuc::feedback(&[zuc::TOP; 16], 0) == zuc::TOP),
        ("L1(1) = 01040405", zuc::l1(1) == 0x0104_0405),
        ("L2(1) = 40404101", zuc::l2(1) == 0x4040_4101),
        ("g(ffffffff, 0) = ffffffff", rabbit::g(u32::MAX, 0) == u32::MAX),
        ("g(ffffffff, 1) = 0", rabbit::g(u32::MAX, 1) == 0),
        ("T(0) = 63636363", aes::t(0) == 0x6363_6363),
        ("alpha times 00000001 = 00000100", snow2::times_alpha(1) == 0x0100),
        ("SNOW loads s15 = 80000001", loaded[15] == 0x8000_0001),
        ("SNOW loads s12 = 2", loaded[12] == 2),
        ("SNOW loads s10 = fffffffc", loaded[10] == 0xFFFF_FFFC),
        ("SNOW loads s9 = fffffffb", loaded[9] == 0xFFFF_FFFB),
    ]
}

/// The edges, and the acceptances beside them.
fn edges() -> Vec<(&'static str, bool)> {
    let opened = |tray: usize| code(&[], &command::open_tray(0, 4, 0, &[0; 16]), tray, 0, 0);
    let last = [open(0), command::park(0), command::resume(0, &image(3, END - 1, (0, 1), &[]))];
    let own = [open(7)];
    vec![
        ("n = 2^36 - 1 with count 1 is accepted", code(&last, &command::crypt(0, 1), 0, 9, 9) == 0),
        ("n = 2^36 - 1 with count 2 is 13", code(&last, &command::crypt(0, 2), 0, 0, 0) == 13),
        ("a tray of 8,192 passes", opened(8_192) == 0),
        ("a tray of 8,224 is 9", opened(8_224) == 9),
        ("an empty tray is 10", opened(0) == 10),
        ("out of 165 bytes for park is 12", code(&own, &command::park(7), 0, 0, 165) == 12),
        ("out of 166 bytes for park is enough", code(&own, &command::park(7), 0, 0, 166) == 0),
        ("count 0 needs neither data nor out", code(&own, &command::crypt(7, 0), 0, 0, 0) == 0),
        ("an empty command is 1", code(&[], &[], 0, 0, 0) == 1),
        ("an unknown command is 2 though it is short", code(&[], &[10], 0, 0, 0) == 2),
    ]
}

/// The edges of the parks' lines and numbers.
fn numbers() -> Vec<(&'static str, bool)> {
    let some = image(3, 5, NO_PARK, &[9; 72]);
    let resume = |before: &[Vec<u8>], park: Park| code(before, &command::resume(2, &of_park(&some, park)), 0, 0, 0);
    let once = [open(1), command::park(1)];
    let twice = [once.clone(), once.clone()].concat();
    let both = [&twice[..], &[open(6), command::park(6)]].concat();
    let taken = [&once[..], &[command::resume(1, &of_park(&some, (1, 1)))]].concat();
    let one_taken = [&both[..], &[command::resume(1, &of_park(&some, (1, 2)))]].concat();
    vec![
        ("number 0 is 14", resume(&once, (1, 0)) == 14),
        ("a number that wasn't parked is 14", resume(&[], (1, 1)) == 14 && resume(&once, (1, 2)) == 14),
        ("the number of a park is taken", resume(&once, (1, 1)) == 0),
        ("a number that was taken up is 14", resume(&taken, (1, 1)) == 14),
        ("a number that was replaced is 14", resume(&twice, (1, 1)) == 14),
        ("the number that replaced it is taken", resume(&twice, (1, 2)) == 0),
        ("each line counts from 1", resume(&both, (1, 2)) == 0 && resume(&both, (6, 1)) == 0),
        ("a line with another's number is 14", resume(&both, (1, 1)) == 14 && resume(&both, (6, 2)) == 14),
        ("another line's park is left by a resume", resume(&one_taken, (6, 1)) == 0),
        ("a line that wasn't parked is 14", resume(&both, (2, 1)) == 14 && resume(&both, (7, 2)) == 14),
        ("a parking line of 8 is 8", resume(&both, (8, 1)) == 8 && resume(&both, (8, 0)) == 8),
        ("a parking line of 255 is 8", resume(&both, (255, 1)) == 8),
        ("after 4,294,967,294 parks of a line one is accepted", parks_after(MOST - 1, 0) == [0, 0]),
        (
            "after 4,294,967,295 parks of a line one is 15, and one of another is accepted",
            parks_after(MOST, 0) == [15, 0],
        ),
        ("after as many of every other line one is accepted", parks_after(0, MOST) == [0, 15]),
    ]
}

/// The edges of a key's zeros.
fn keys() -> Vec<(&'static str, bool)> {
    let own = |cipher: u8, key: &[u8], iv: &[u8]| {
        code(&[], &command::open_own(0, cipher, &padded(key, RECORD), &padded(iv, IV)), 0, 0, 0)
    };
    let last = |place: usize| [vec![0; place], vec![1]].concat();
    let short = |wanted: u8, key: &[u8]| [1, 2, 3, 5, 6].iter().all(|&cipher| own(cipher, key, &[]) == wanted);
    vec![
        ("a key of zeros is 16", (1..=LAST).all(|cipher| own(cipher, &[], &[]) == 16)),
        ("a key of zeros is 16 with any IV", (1..=LAST).all(|cipher| own(cipher, &[], &[9; 8]) == 16)),
        ("byte 15 alone of a key of 16 is accepted", short(0, &last(15))),
        ("byte 31 alone of a key of 32 is accepted", own(4, &last(31), &[]) == 0),
        ("byte 16 alone of a key of 32 is accepted", own(4, &last(16), &[]) == 0),
        ("a byte beyond a key of zeros is 7", short(7, &last(16)) && short(7, &last(31))),
        ("a byte beyond the IV is 7 with a key of zeros", own(2, &[], &last(8)) == 7),
    ]
}

/// The edges of a change of key, on a line at byte 9 or at the end.
fn changes() -> Vec<(&'static str, bool)> {
    let change = |position: u64| command::change_key(0, 0, &[5; IV], position);
    let nine = [command::open_own(0, 4, &[3; RECORD], &[0; IV]), command::crypt(0, 9)];
    let far = |position: u64| [open(0), command::park(0), command::resume(0, &image(4, position, (0, 1), &[]))];
    let after =
        |before: &[Vec<u8>], more: &[Vec<u8>], last: &[u8]| code(&[before, more].concat(), last, RECORD, 99, IMAGE);
    let (park, crypt) = (command::park(0), |count: u16| command::crypt(0, count));
    vec![
        ("a change at the line's position is accepted", after(&nine, &[], &change(9)) == 0),
        ("a change a byte below it is 18", after(&nine, &[], &change(8)) == 18),
        ("a change at 2^36 is accepted", after(&nine, &[], &change(END)) == 0),
        ("a change a byte above it is 18", after(&nine, &[], &change(END + 1)) == 18),
        ("a change while one waits is 17", after(&nine, &[change(12)], &change(12)) == 17),
        ("a park while one waits is 17", after(&nine, &[change(12), crypt(2)], &park) == 17),
        ("a park after it came due is accepted", after(&nine, &[change(12), crypt(3)], &park) == 0),
        ("a park after one at the line's position is accepted", after(&nine, &[change(9)], &park) == 0),
        ("n = 2^36 and a change there is accepted", after(&far(END), &[], &change(END)) == 0),
        (
            "n = 2^36 - 1, a change at 2^36 and count 2 is accepted",
            after(&far(END - 1), &[change(END)], &crypt(2)) == 0,
        ),
        (
            "n = 2^36 - 1, a change there and count 2 is accepted",
            after(&far(END - 1), &[change(END - 1)], &crypt(2)) == 0,
        ),
        ("an empty tray is 10 for a change", code(&nine, &change(9), 0, 0, 0) == 10),
        ("a change of 26 bytes is 1", after(&nine, &[], &change(9)[..26]) == 1),
    ]
}

/// The edges of a load and of a start.
fn loads() -> Vec<(&'static str, bool)> {
    let (load, start) = (|cipher: u8| command::load(0, cipher, 0), |iv: &[u8]| command::start(0, &padded(iv, IV)));
    let loaded = [load(4)];
    let rabbit = [command::open_own(0, 2, &padded(&[1], RECORD), &[0; IV])];
    let after = |before: &[Vec<u8>], last: &[u8]| code(before, last, RECORD, 9, IMAGE);
    let all = |codes: &[u8], wanted: u8| codes.iter().all(|&code| code == wanted);
    let opens =
        [command::open_tray(0, 4, 0, &[0; IV]), open(0), command::resume(0, &image(4, 0, NO_PARK, &[])), load(4)];
    let others = [command::crypt(0, 0), command::park(0), command::change_key(0, 0, &[0; IV], 0)];
    vec![
        ("a load is accepted", after(&[], &load(4)) == 0),
        ("a load with 32 key bytes is 7 but for cipher 4", all(&[1, 2, 3, 5, 6].map(|c| after(&[], &load(c))), 7)),
        ("a load with cipher 7 is 4", after(&[], &load(7)) == 4),
        ("a load from an empty tray is 10", code(&[], &load(4), 0, 0, 0) == 10),
        ("a load of three bytes is 1", after(&[], &load(4)[..3]) == 1),
        ("a start of a loaded line is accepted", after(&loaded, &start(&[5; IV])) == 0),
        ("a start of 17 bytes is 1", after(&loaded, &start(&[5; IV])[..17]) == 1),
        ("a start of an idle line is 19", after(&[], &start(&[])) == 19),
        ("a start of an open line is 19", after(&[open(0)], &start(&[])) == 19),
        ("a second start is 19", after(&[load(4), start(&[])], &start(&[])) == 19),
        ("a start after a close is 19", after(&[load(4), command::close(0)], &start(&[])) == 19),
        ("19 before 7", after(&rabbit, &start(&[5; IV])) == 19),
        ("an open, a resume and a load of a loaded line are 5", all(&opens.map(|last| after(&loaded, &last)), 5)),
        ("a crypt, a park and a change there are 6", all(&others.map(|last| after(&loaded, &last)), 6)),
        ("a close there is accepted", after(&loaded, &command::close(0)) == 0),
        ("and the line is idle", after(&[load(4), command::close(0)], &command::close(0)) == 6),
    ]
}

fn open(line: u8) -> Vec<u8> {
    command::open_own(line, 2, &padded(&[1], RECORD), &[0; 16])
}

/// The codes of a park from line 6 and of one from line 5, on a machine that has made so many from line 6 and so many from
/// each other line.
fn parks_after(made: u32, others: u32) -> [u8; 2] {
    let counts = [others, others, others, others, others, others, made, others];
    let mut machine = Machine::with(Parks::of(counts, [0; 8]).unwrap_or_default());
    [6, 5].map(|line| {
        machine.call(&open(line), &[], &[], &mut []);
        machine.call(&command::park(line), &[], &[], &mut [0; IMAGE]).code
    })
}

/// The code of a command after others on a fresh machine, with ones in the tray and zeros in data and out of the lengths
/// given; the others have as much as they need. 255 if one of them is refused or a refusal counts bytes.
fn code(before: &[Vec<u8>], command: &[u8], tray: usize, data: usize, out: usize) -> u8 {
    let mut machine = Machine::fresh();
    let accepted = before.iter().all(|earlier| machine.call(earlier, &[1; RECORD], &[0; 9], &mut [0; IMAGE]).code == 0);
    let answer = machine.call(command, &vec![1; tray], &vec![0; data], &mut vec![0; out]);
    let counts = answer.code != 0 && answer != Answer::refused(answer.code);
    if accepted && !counts {
        answer.code
    } else {
        255
    }
}

/// The example of `cardrun`.
fn example() -> Vec<(&'static str, bool)> {
    let key = padded(&[0x80], RECORD);
    let cmd = [command::open_own(0, 3, &key, &[0; 16]), command::crypt(0, 16)].concat();
    let files = Files { cmd: Some(cmd), tray: Some(Vec::new()), data: Some(vec![0; 16]) };
    let run = program::run(&files);
    let table = "call code cmd data out\n1 0 51 0 0\n2 0 4 16 16\nend 2 0\n";
    vec![
        ("the example's table", run.table() == table),
        ("the example's out.bin", hex::write(&run.out) == "8d590ae9a74a7d056dc9ca74b72d1a45"),
    ]
}

#[cfg(test)]
mod tests {
    use super::*;

    #[test]
    fn cases_hold() {
        assert_eq!(check(), Ok(80));
    }
}
