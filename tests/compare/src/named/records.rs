//! What `cardrun` appends to `use.bin`: ten bytes for each accepted crypt, in the order of the calls, behind what stands
//! there, and nothing for anything else.

use super::published::{name, text};
use super::refusals::open;
use super::{altered, full, positions, Case};
use crate::cipher::LAST;
use crate::command::{self, padded, IV, RECORD};
use crate::machine::END;
use crate::program::{Files, READ};

pub fn cases() -> Vec<Case> {
    let each = |cipher: u8| [eight_lines(cipher), across(cipher), between(cipher), taken_up(cipher)];
    let groups = [counts(), vec![in_turn(), other_ciphers(), as_many_as_fit()], refused(), none(), behind()];
    (1..=LAST).flat_map(each).chain(groups.into_iter().flatten()).collect()
}

/// A record of a crypt, which has at most 65,535 bytes: the line, the cipher, six zeros, and the count in two bytes.
pub fn record(line: u8, cipher: u8, count: u16) -> [u8; 10] {
    let [high, low] = count.to_be_bytes();
    [line, cipher, 0, 0, 0, 0, 0, 0, high, low]
}

/// An open with a key that every cipher takes.
fn opened(line: u8, cipher: u8) -> Vec<u8> {
    command::open_own(line, cipher, &padded(&[1], RECORD), &[0; IV])
}

/// A change to key 0 of the tray.
fn change(line: u8, position: u64) -> Vec<u8> {
    command::change_key(line, 0, &[0; IV], position)
}

/// A tray of one key that every cipher takes.
fn tray() -> Vec<u8> {
    padded(&[2], RECORD)
}

/// A case with data for its crypts, and the records that it leaves.
fn case(what: impl AsRef<str>, commands: &[Vec<u8>], end: &str, records: &[[u8; 10]]) -> Case {
    let case = Case::new(format!("records: {}", what.as_ref()), commands, end);
    case.tray(tray()).data(text(300)).records(&records.concat())
}

/// All lines with one cipher, and frames of other lengths on each.
fn eight_lines(cipher: u8) -> Case {
    let counts: Vec<(u8, u16)> = (0..8).map(|line| (line, 10 * u16::from(line) + u16::from(cipher))).collect();
    let opens = (0..8).map(|line| opened(line, cipher));
    let crypts = counts.iter().map(|&(line, count)| command::crypt(line, count));
    let records: Vec<[u8; 10]> = counts.iter().map(|&(line, count)| record(line, cipher, count)).collect();
    case(format!("{}, eight lines", name(cipher)), &opens.chain(crypts).collect::<Vec<_>>(), "end 16 0", &records)
        .data(text(400))
}

/// A frame across a change of key is one record, of both parts.
fn across(cipher: u8) -> Case {
    let commands = [opened(2, cipher), change(2, 7), command::crypt(2, 260)];
    case(format!("{}, a frame across a change", name(cipher)), &commands, "end 3 0", &[record(2, cipher, 260)])
}

/// Frames up to a change, from there on, and of no bytes before, at and behind it.
fn between(cipher: u8) -> Case {
    let crypt = |count: u16| command::crypt(2, count);
    let first = [opened(2, cipher), change(2, 7), crypt(0), crypt(7), crypt(0), crypt(5), change(2, 5), crypt(3)];
    let second = [change(2, 4), crypt(1), change(2, 2), crypt(4), command::park(2)];
    let records = [0, 7, 0, 5, 3, 1, 4].map(|count| record(2, cipher, count));
    let commands = [&first[..], &second].concat();
    case(format!("{}, frames between changes", name(cipher)), &commands, "end 13 0", &records)
}

/// A line that is taken up on another one has the image's cipher and its own number.
fn taken_up(cipher: u8) -> Case {
    let image = command::from_line(&positions::image(cipher, 9), 6);
    let commands = [
        &altered::parked(6)[..],
        &[command::resume(1, &image), command::crypt(1, 4), opened(6, 2), command::crypt(6, 3), command::crypt(1, 2)],
    ];
    let records = [record(1, cipher, 4), record(6, 2, 3), record(1, cipher, 2)];
    case(format!("{}, a line from an image", name(cipher)), &commands.concat(), "end 7 0", &records)
}

/// Frames of many lengths.
fn counts() -> Vec<Case> {
    let of = |count: u16| {
        let commands = [open(0), command::crypt(0, count)];
        case(format!("a frame of {count} bytes"), &commands, "end 2 0", &[record(0, 4, count)]).data(text(READ))
    };
    [0, 1, 2, 127, 128, 255, 256, 257, 4_660, 13_330, 16_383, 16_384].map(of).into()
}

/// Frames of three lines in turn, their records in the order of the calls; frames of one line are not put together.
fn in_turn() -> Case {
    let frames = [(5, 3, 1), (0, 1, 2), (2, 6, 0), (0, 1, 3), (0, 1, 3), (5, 3, 9), (2, 6, 4), (0, 1, 0)];
    let opens = [opened(0, 1), opened(2, 6), opened(5, 3)];
    let crypts = frames.map(|(line, _, count)| command::crypt(line, count));
    let records = frames.map(|(line, cipher, count)| record(line, cipher, count));
    case("three lines in turn", &[&opens[..], &crypts].concat(), "end 11 0", &records)
}

/// A line that is closed and opened, loaded or taken up with another cipher.
fn other_ciphers() -> Case {
    let crypt = || command::crypt(3, 5);
    let loaded = [command::load(3, 6, 0), command::start(3, &[0; IV]), crypt(), command::close(3)];
    let from_tray = [command::open_tray(3, 4, 0, &[0; IV]), crypt(), command::close(3)];
    let commands = [&[opened(3, 1), crypt(), command::close(3)], &loaded[..], &from_tray, &[opened(3, 5), crypt()]];
    let records = [1, 6, 4, 5].map(|cipher| record(3, cipher, 5));
    case("one line with four ciphers", &commands.concat(), "end 12 0", &records)
}

/// As many crypts as 16,384 bytes of commands can have, of four bytes each.
fn as_many_as_fit() -> Case {
    let commands = [vec![command::open_tray(1, 2, 0, &[0; IV])], vec![command::crypt(1, 4); 4_091]].concat();
    case("4,091 frames of 4 bytes", &commands, "end 4092 0", &[record(1, 2, 4); 4_091]).data(text(READ))
}

/// Calls that are refused leave no record, and those of the calls before stay.
fn refused() -> Vec<Case> {
    let crypt = |line: u8, count: u16| command::crypt(line, count);
    let before = [open(0), crypt(0, 5), crypt(0, 0)];
    let of = |what: &str, more: &[Vec<u8>], code: u8| {
        let end = format!("end {} {code}", 2 + more.len());
        case(format!("then {what}"), &[&before[..], more].concat(), &end, &[record(0, 4, 5), record(0, 4, 0)])
    };
    let end = command::from_line(&positions::image(6, END - 1), 1);
    let late = [&altered::parked(1)[..], &[command::resume(1, &end), crypt(1, 2)]].concat();
    let parks = [vec![open(7), crypt(7, 5)], full::parks(full::PARKS), vec![crypt(7, 128)]].concat();
    vec![
        of("a crypt on line 8", &[crypt(8, 0)], 3),
        of("a crypt on an idle line", &[crypt(1, 0)], 6),
        of("a crypt on a loaded line", &[command::load(1, 2, 0), crypt(1, 0)], 6),
        of("a crypt on a line that was closed", &[command::close(0), crypt(0, 0)], 6),
        of("a crypt past 2^36", &late, 13),
        of("a crypt of more than there is", &[crypt(0, 296)], 11),
        of("a crypt of 65,535 bytes", &[crypt(0, u16::MAX)], 11),
        of("a crypt that is cut short", &[vec![3, 0, 0]], 1),
        of("an open of an open line", &[open(0)], 5),
        of("an unknown command", &[vec![10]], 2),
        case("then a crypt that out has no room for", &parks, "end 790 12", &[record(7, 4, 5)]).tray(full::tray()),
    ]
}

/// Runs without an accepted crypt append nothing and make no file.
fn none() -> Vec<Case> {
    let image = command::from_line(&positions::image(1, 9), 6);
    let others = [
        &altered::parked(6)[..],
        &[command::resume(1, &image), change(1, 9), command::park(1), command::load(2, 2, 0)],
        &[command::start(2, &[0; IV]), change(2, 60), command::close(2), command::open_tray(0, 6, 0, &[0; IV])],
    ]
    .concat();
    let of = |what: &str, commands: &[Vec<u8>], end: &str| {
        let case = |how: &str| case(format!("{what}, {how}"), commands, end, &[]);
        [
            case("no use.bin"),
            case("no use.bin, twice").twice(),
            case("an empty use.bin").used(Vec::new()),
            case("a use.bin of seven bytes").used(vec![9; 7]).twice(),
        ]
    };
    let each = [
        of("no command", &[], "end 0 0"),
        of("every command but a crypt", &others, "end 10 0"),
        of("a crypt that is refused", &[open(0), command::crypt(0, 301)], "end 1 11"),
        of("a crypt on an idle line", &[command::crypt(0, 0)], "end 0 6"),
    ];
    let absent = Case::of("records: no file at all, twice", Files::default(), "end 0 0").records(&[]).twice();
    each.into_iter().flatten().chain([absent]).collect()
}

/// Records stand behind what `use.bin` has, whatever that is, run by run.
fn behind() -> Vec<Case> {
    let commands = [open(0), opened(6, 2), command::crypt(6, 7), command::crypt(0, 0), command::crypt(7, 0)];
    let of = |what: &str| case(what, &commands, "end 4 6", &[record(6, 2, 7), record(0, 4, 0)]);
    let lengths = [0, 1, 7, 10, 11, 40_960, 50_000];
    let long = lengths.map(|length| of(&format!("behind {length} bytes")).used(text(length)));
    let twice = [of("twice").twice(), of("twice behind 15 bytes").used(text(15)).twice()];
    long.into_iter().chain(twice).collect()
}
