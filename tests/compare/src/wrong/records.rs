//! Programs `cardrun` that keep their records wrongly: ways to be wrong about which calls leave one, what stands in it, and
//! what becomes of `use.bin`. Named cases find every one of them, and so do command lists.

use crate::cardrun::Left;
use crate::changes::Changes;
use crate::command::{self, CRYPT, OPEN_OWN, OPEN_TRAY, PARK};
use crate::lists::{self, List};
use crate::named;
use crate::program::{self, Run};
use crate::record::{joined, Record, LENGTH};

/// A call of a run: its command, its code, its record, if it leaves one, and whether a change of key came due in it.
struct Made<'a> {
    command: &'a [u8],
    code: u8,
    record: Option<Record>,
    due: bool,
}

/// A way to be wrong about what is appended.
type Appends = (&'static str, fn(&[Made]) -> Vec<u8>);

/// A way to be wrong about the file: what becomes of it by a run that appends these bytes.
type Files = (&'static str, fn(Option<Vec<u8>>, Vec<u8>) -> Option<Vec<u8>>);

/// Which calls leave a record.
static CALLS: [Appends; 10] = [
    ("no record", |_| Vec::new()),
    ("none of a crypt of no bytes", |made| only(made, |made, _| made.record.is_some_and(|record| record.bytes > 0))),
    ("none of a crypt across a change", |made| only(made, |made, _| !made.due)),
    ("two of a crypt across a change", |made| each(made, |made, record| vec![record; 1 + usize::from(made.due)])),
    ("one of a crypt that is refused", |made| {
        let refused = made.last().filter(|last| last.code != 0 && last.command[0] == CRYPT && last.command.len() > 3);
        let record =
            |last: &Made| Record { line: last.command[1], cipher: 4, bytes: command::count(last.command) as u64 };
        [right(made), refused.map_or(Vec::new(), |last| record(last).written().to_vec())].concat()
    }),
    ("one of a park", |made| with(made, &[PARK], 0)),
    ("one of an open", |made| with(made, &[OPEN_TRAY, OPEN_OWN], 0)),
    ("none where the run ends with a refusal", |made| match made.last() {
        Some(last) if last.code != 0 => Vec::new(),
        _ => right(made),
    }),
    ("the first alone", |made| right(made).into_iter().take(LENGTH).collect()),
    ("the last alone", |made| right(made).split_off(right(made).len().saturating_sub(LENGTH))),
];

/// Which calls leave one, where there are as many as there can be.
static MANY: [Appends; 1] = [("no more than 4,090", |made| right(made).into_iter().take(4_090 * LENGTH).collect())];

/// What stands in a record.
static FIELDS: [Appends; 13] = [
    ("the cipher before the line", |made| bytes(made, |bytes| bytes.swap(0, 1))),
    ("the lowest byte first", |made| bytes(made, |bytes| bytes[2..].reverse())),
    ("the lower word first", |made| bytes(made, |bytes| bytes[2..].rotate_left(4))),
    ("the count before line and cipher", |made| bytes(made, |bytes| bytes.rotate_left(2))),
    ("the lowest byte of the count alone", |made| bytes(made, |bytes| bytes[2..9].fill(0))),
    ("line 0", |made| bytes(made, |bytes| bytes[0] = 0)),
    ("the line above", |made| bytes(made, |bytes| bytes[0] = (bytes[0] + 1) % 8)),
    ("the line's mode for its cipher", |made| bytes(made, |bytes| bytes[1] = 1)),
    ("the cipher counted from 0", |made| bytes(made, |bytes| bytes[1] -= 1)),
    ("both ciphers of SNOW 2.0 as 3", |made| bytes(made, |bytes| bytes[1] -= u8::from(bytes[1] == 4))),
    ("the cipher that the line had first", |made| {
        let mut first = [None; 8];
        each(made, |_, record| {
            let cipher = *first[usize::from(record.line)].get_or_insert(record.cipher);
            vec![Record { cipher, ..record }]
        })
    }),
    ("all bytes so far", |made| {
        let mut sum = 0;
        each(made, |_, record| {
            sum += record.bytes;
            vec![Record { bytes: sum, ..record }]
        })
    }),
    ("the bytes of the command with those enciphered", |made| {
        each(made, |_, record| vec![Record { bytes: record.bytes + 4, ..record }])
    }),
];

/// How records stand together.
static ORDER: [Appends; 4] = [
    ("the last first", |made| joined(&records(made).into_iter().rev().collect::<Vec<_>>())),
    ("by rising line", |made| {
        let mut sorted = records(made);
        sorted.sort_by_key(|record| record.line);
        joined(&sorted)
    }),
    ("frames of one line one after the other as one", |made| {
        let mut sums: Vec<Record> = Vec::new();
        for record in records(made) {
            match sums.last_mut() {
                Some(last) if (last.line, last.cipher) == (record.line, record.cipher) => last.bytes += record.bytes,
                _ => sums.push(record),
            }
        }
        joined(&sums)
    }),
    ("a newline behind each", |made| records(made).iter().flat_map(|r| [&r.written()[..], b"\n"].concat()).collect()),
];

/// What becomes of the file.
static FILES: [Files; 7] = [
    ("the file is written over", |before, bytes| if bytes.is_empty() { before } else { Some(bytes) }),
    ("the file is cut to what is appended, always", |_, bytes| Some(bytes)),
    ("a file is made for no record", |before, bytes| Some([before.unwrap_or_default(), bytes].concat())),
    ("a file that is absent is not made", |before, bytes| before.map(|before| [before, bytes].concat())),
    ("an empty file is removed", |before, bytes| {
        Some([before.unwrap_or_default(), bytes].concat()).filter(|bytes| !bytes.is_empty())
    }),
    ("the bytes are put before the file's", |before, bytes| match before {
        None if bytes.is_empty() => None,
        before => Some([bytes, before.unwrap_or_default()].concat()),
    }),
    ("the file is cut to whole records first", |before, bytes| match before {
        None if bytes.is_empty() => None,
        before => {
            let mut whole = before.unwrap_or_default();
            whole.truncate(whole.len() / LENGTH * LENGTH);
            Some([whole, bytes].concat())
        }
    }),
];

fn records(made: &[Made]) -> Vec<Record> {
    made.iter().filter_map(|made| made.record).collect()
}

/// What is appended as it should be.
fn right(made: &[Made]) -> Vec<u8> {
    joined(&records(made))
}

/// What each record is to be in its place.
fn each(made: &[Made], mut of: impl FnMut(&Made, Record) -> Vec<Record>) -> Vec<u8> {
    let all = made.iter().filter_map(|made| Some(of(made, made.record?)));
    joined(&all.flatten().collect::<Vec<_>>())
}

/// The records that are kept.
fn only(made: &[Made], keep: fn(&Made, &Record) -> bool) -> Vec<u8> {
    each(made, |made, record| Some(record).filter(|record| keep(made, record)).into_iter().collect())
}

/// Records with their bytes changed.
fn bytes(made: &[Made], change: fn(&mut [u8; LENGTH])) -> Vec<u8> {
    records(made)
        .iter()
        .map(Record::written)
        .flat_map(|mut bytes| {
            change(&mut bytes);
            bytes
        })
        .collect()
}

/// The records, and one of no bytes for each accepted command of these kinds.
fn with(made: &[Made], kinds: &[u8], bytes: u64) -> Vec<u8> {
    let more = |made: &&Made| made.code == 0 && kinds.contains(&made.command[0]);
    let of = |made: &Made| Record { line: made.command[1], cipher: 1, bytes };
    let all = made.iter().filter_map(|made| made.record.or(Some(made).filter(more).map(of)));
    joined(&all.collect::<Vec<_>>())
}

/// The calls of a run with their records.
fn made<'a>(run: &'a Run) -> Vec<Made<'a>> {
    let (mut changes, mut records) = (Changes::default(), run.records.iter());
    let calls = run.calls.iter().map(|(call, answer)| {
        let due = changes.note(call.command, answer).is_some() && call.command[0] == CRYPT;
        let record = records.by_ref().take(usize::from(answer.code == 0 && call.command[0] == CRYPT)).next().copied();
        Made { command: call.command, code: answer.code, record, due }
    });
    calls.collect()
}

/// Whether a list tells that `use.bin` is wrong, by one of its runs.
fn tells(list: &List, run: &Run, mut next: impl FnMut(Option<Vec<u8>>) -> Option<Vec<u8>>) -> bool {
    let mut used = list.used.clone();
    (1..=list.runs).any(|runs| {
        used = next(used.take());
        let left = Left { printed: run.table().into_bytes(), out: Some(run.out.clone()), used: used.clone() };
        left.difference(list, run, runs).is_some()
    })
}

/// Asserts that some of the lists tell each way, with `many` also those that only the longest tells, and that none tells
/// what is right.
fn find_every_one(lists: &[List], many: bool) {
    let runs: Vec<(&List, Run)> = lists.iter().map(|list| (list, program::run(&list.files))).collect();
    let appended = |before: Option<Vec<u8>>, bytes: Vec<u8>| match before {
        None if bytes.is_empty() => None,
        before => Some([before.unwrap_or_default(), bytes].concat()),
    };
    assert!(!runs.iter().any(|(list, run)| tells(list, run, |used| appended(used, right(&made(run))))));
    let ways = CALLS.iter().chain(&FIELDS).chain(&ORDER).chain(MANY.iter().filter(|_| many));
    for (name, wrong) in ways {
        assert!(runs.iter().any(|(list, run)| tells(list, run, |used| appended(used, wrong(&made(run))))), "{name}");
    }
    for (name, wrong) in &FILES {
        assert!(runs.iter().any(|(list, run)| tells(list, run, |used| wrong(used, right(&made(run))))), "{name}");
    }
}

#[test]
fn named_cases_find_every_wrong_record() {
    find_every_one(&named::all().into_iter().map(|case| case.list).collect::<Vec<_>>(), true);
}

#[test]
fn command_lists_find_every_wrong_record() {
    find_every_one(&(0..300).map(|number| lists::list(1, number)).collect::<Vec<_>>(), false);
}
