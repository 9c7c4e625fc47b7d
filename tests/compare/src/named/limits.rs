//! The limits of the files: trays of 0, 8,192 and 8,224 bytes, 16,384 bytes of data and of commands and one more,
//! absent files, and an `out.bin` that was there before.

use super::published::{self, Published};
use super::refusals::open;
use super::Case;
use crate::command::{self, padded, RECORD};
use crate::images::image;
use crate::program::{Files, READ};

pub fn cases() -> Vec<Case> {
    let trays = published::each().into_iter().flat_map(|p| [last_key(&p), first_key(&p)]);
    let groups = [tray_lengths(), no_tray_needed(), data(), commands(), absent(), before()];
    trays.chain(groups.into_iter().flatten()).collect()
}

/// A tray of 256 keys, the last of them annex C's.
fn last_key(p: &Published) -> Case {
    let tray = [vec![0xEE; 255 * RECORD], p.key.clone()].concat();
    let commands = [p.open_tray(0, 255), command::crypt(0, 32)];
    let case = Case::new(format!("{}: key 255 of a tray of 8,192", p.name()), &commands, "end 2 0");
    case.tray(tray).data(vec![0; 32]).out(&p.stream[..32])
}

/// A tray of two keys, the first of them annex C's and then the second.
fn first_key(p: &Published) -> Case {
    let other = padded(&[0xEE; 16], RECORD);
    let commands = [p.open_tray(0, 0), p.open_tray(1, 1), command::crypt(0, 32), command::crypt(1, 32)];
    let case = Case::new(format!("{}: keys 0 and 1 of a tray of 64", p.name()), &commands, "end 4 0");
    case.tray([p.key.clone(), other].concat()).data(vec![0; 64]).part(0, &p.stream[..32])
}

fn tray_lengths() -> Vec<Case> {
    let of = |length: usize, number: u8, end: &str| {
        let name = format!("tray of {length}, key {number}");
        Case::new(name, &[command::open_tray(5, 4, number, &[0; 16])], end).tray(vec![7; length])
    };
    vec![
        of(0, 0, "end 0 10"),
        of(32, 0, "end 1 0"),
        of(32, 1, "end 0 10"),
        of(8_160, 254, "end 1 0"),
        of(8_160, 255, "end 0 10"),
        of(8_192, 0, "end 1 0"),
        of(8_192, 255, "end 1 0"),
        of(8_224, 0, "end 0 9"),
        of(8_224, 255, "end 0 9"),
        of(16_384, 0, "end 0 9"),
        of(16_400, 0, "end 0 9"),
        of(20_000, 0, "end 0 9"),
    ]
}

/// Only commands 01, 07 and 08 look at the tray.
fn no_tray_needed() -> Vec<Case> {
    let resume = command::resume(1, &image(4, 0, (0, 1), &[]));
    let commands = [open(0), command::crypt(0, 0), command::park(0), resume, command::close(1)];
    let of = |length: usize| Case::new(format!("tray of {length} and no open from it"), &commands, "end 5 0");
    [1, 8_193, 8_224].map(|length| of(length).tray(vec![0; length])).into()
}

fn data() -> Vec<Case> {
    let of = |name: &str, length: usize, counts: &[u16], end: &str| {
        let commands: Vec<Vec<u8>> = counts.iter().map(|&count| command::crypt(0, count)).collect();
        Case::new(name, &[vec![open(0)], commands].concat(), end).data(published::text(length))
    };
    vec![
        of("16,384 bytes of data by one frame", READ, &[16_384, 0], "end 3 0"),
        of("16,384 bytes of data and one more", READ, &[16_384, 1], "end 2 11"),
        of("16,385 bytes of data by two frames", READ + 1, &[16_384, 1], "end 2 11"),
        of("16,385 bytes of data by one frame", READ + 1, &[16_385], "end 1 11"),
        of("20,000 bytes of data by frames", 20_000, &[16_383, 0, 1, 0, 1], "end 5 11"),
    ]
}

/// Two opens and frames of 0 bytes: 16,382 bytes of commands and 4,072 calls.
fn long() -> Vec<Vec<u8>> {
    [vec![open(0), open(1)], vec![command::crypt(0, 0); 4_070]].concat()
}

fn commands() -> Vec<Case> {
    let of = |name: &str, last: &[u8], end: &str| Case::new(name, &[long(), vec![last.to_vec()]].concat(), end);
    vec![
        of("16,384 bytes of commands", &[6, 0], "end 4073 0"),
        of("16,385 bytes of commands, the last unknown", &[6, 0, 8], "end 4073 0"),
        of("16,386 bytes of commands, the last a close", &[6, 0, 6, 0], "end 4073 0"),
        of("16,383 bytes of commands, the last cut short", &[3], "end 4072 1"),
        of("a crypt that the limit cuts", &[3, 0, 0, 0], "end 4072 1"),
        of("a change of key that the limit cuts", &command::change_key(0, 0, &[0; 16], 0), "end 4072 1"),
        of("an unknown command in the last two bytes", &[10, 0, 0, 0], "end 4072 2"),
        of("20,000 bytes of commands", &[&[6, 0], &[6; 3_616][..]].concat(), "end 4073 0"),
    ]
}

fn absent() -> Vec<Case> {
    let files = |commands: &[Vec<u8>]| Files {
        cmd: Some(commands.concat()),
        tray: Some(vec![0; RECORD]),
        data: Some(vec![0; 9]),
    };
    let from_tray = command::open_tray(0, 4, 0, &[0; 16]);
    let changed = [open(0), command::change_key(0, 0, &[0; 16], 0)];
    let opened = |count: u16| files(&[open(0), command::crypt(0, count)]);
    let nothing = "call code cmd data out\nend 0 0\n";
    vec![
        Case::of("no file at all", Files::default(), "end 0 0").table(nothing).out(&[]),
        Case::of("no cmd.bin", Files { cmd: None, ..files(&[]) }, "end 0 0").table(nothing).out(&[]),
        Case::of("an empty cmd.bin", files(&[]), "end 0 0").table(nothing).out(&[]),
        Case::of("no tray.bin, and a key of it", Files { tray: None, ..files(&[from_tray]) }, "end 0 10"),
        Case::of("no tray.bin, and a change to a key of it", Files { tray: None, ..files(&changed) }, "end 1 10"),
        Case::of("no tray.bin, and none needed", Files { tray: None, ..opened(9) }, "end 2 0"),
        Case::of("no data.bin, and a byte of it", Files { data: None, ..opened(1) }, "end 1 11"),
        Case::of("no data.bin, and none needed", Files { data: None, ..opened(0) }, "end 2 0").out(&[]),
        Case::of("cmd.bin alone", Files { tray: None, data: None, ..opened(0) }, "end 2 0").out(&[]),
    ]
}

/// A longer `out.bin` is written over from its start and cut, by a run that writes nothing too.
fn before() -> Vec<Case> {
    let all = published::each();
    let commands = [all[0].open(0), command::crypt(0, 32)];
    let some = Case::new("out.bin was longer", &commands, "end 2 0").data(vec![0; 32]).out(&all[0].stream[..32]);
    let none = Case::new("out.bin was there and nothing is written", &[vec![10]], "end 0 2").out(&[]);
    vec![some.stale(vec![9; 500]), none.stale(vec![9; 500])]
}
