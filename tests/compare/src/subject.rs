//! What is compared: a subject runs named cases and lists of a seed and holds what it gets against the second
//! implementation.
//! `cardrun` as a process is one; anything with a function for one call can be another.

use crate::changes::{Change, Changes};
use crate::ledger::{Ledger, Met, Parked, Resume};
use crate::loads::{Load, Loads};
use crate::machine::Answer;
use crate::named::{self, Case};
use crate::report::Progress;
use crate::sealing;
use crate::sheet::REFUSALS;
use std::ops::Range;

/// What lists came to by the second implementation: named cases, lists of the seed, calls of both, the bytes that their
/// crypts took, how often each code was met, 255 for a damaged card apart from the others, and how often each kind of
/// park, of resume, of change and of load on a card whose parks and lines are known; the records that runs of `cardrun` append;
/// files of the seed for `sheet`, and how often sheets were reported and refused with each of its numbers; and how often a
/// sealing or an opening met each of its codes.
#[derive(Clone, Debug, Default, PartialEq, Eq)]
pub struct Tally {
    pub named: u64,
    pub lists: u64,
    pub calls: u64,
    pub bytes: u64,
    pub codes: [u64; 20],
    pub damaged: u64,
    pub parks: [u64; Parked::NAMES.len()],
    pub resumes: [u64; Resume::NAMES.len()],
    pub changes: [u64; Change::NAMES.len()],
    pub loads: [u64; Load::NAMES.len()],
    pub records: u64,
    pub sheets: u64,
    pub reports: [u64; 1 + REFUSALS.len()],
    pub sealings: [u64; sealing::CODES.len()],
}

impl Tally {
    /// Counts a call.
    pub fn count(&mut self, answer: &Answer) {
        self.calls += 1;
        self.bytes += answer.used_data as u64;
        let count = if answer.code == 255 { &mut self.damaged } else { &mut self.codes[usize::from(answer.code)] };
        *count += 1;
    }

    /// Counts a sealing or an opening.
    pub fn count_sealing(&mut self, code: u8) {
        for (count, _) in self.sealings.iter_mut().zip(sealing::CODES).filter(|&(_, met)| met == code) {
            *count += 1;
        }
    }

    /// Counts a call of a list whose parks the ledger has.
    pub fn note(&mut self, ledger: &mut Ledger, command: &[u8], answer: &Answer, out: &[u8]) {
        self.count(answer);
        match ledger.note(command, answer, out) {
            Some(Met::Park(parked)) => self.parks[parked as usize] += 1,
            Some(Met::Resume(resume)) => self.resumes[resume as usize] += 1,
            None => (),
        }
    }

    /// Counts what became of a change of key by a call of a list whose lines are followed.
    pub fn note_change(&mut self, changes: &mut Changes, command: &[u8], answer: &Answer) {
        if let Some(change) = changes.note(command, answer) {
            self.changes[change as usize] += 1;
        }
    }

    /// Counts what a call of such a list was, if it is about a load.
    pub fn note_load(&mut self, loads: &mut Loads, command: &[u8], answer: &Answer) {
        if let Some(load) = loads.note(command, answer) {
            self.loads[load as usize] += 1;
        }
    }

    pub fn add(&mut self, other: &Tally) {
        self.named += other.named;
        self.lists += other.lists;
        self.calls += other.calls;
        self.bytes += other.bytes;
        self.damaged += other.damaged;
        self.records += other.records;
        self.sheets += other.sheets;
        let sums = self.codes.iter_mut().chain(&mut self.parks).chain(&mut self.resumes);
        let counts = other.codes.iter().chain(&other.parks).chain(&other.resumes);
        let sums =
            sums.chain(&mut self.changes).chain(&mut self.loads).chain(&mut self.reports).chain(&mut self.sealings);
        let counts = counts.chain(&other.changes).chain(&other.loads).chain(&other.reports).chain(&other.sealings);
        for (sum, count) in sums.zip(counts) {
            *sum += count;
        }
    }
}

/// Something that is to do what the second implementation does.
pub trait Subject {
    /// What it is called in the report.
    fn name(&self) -> String;

    /// Runs a named case. An error says in a few lines where the subject first differs.
    fn hold_case(&mut self, case: &Case) -> Result<Tally, String>;

    /// Runs list `number` of `seed`. An error says in a few lines where the subject first differs.
    fn hold(&mut self, seed: u64, number: u64) -> Result<Tally, String>;
}

/// Which lists a subject is to run: the named cases and the first `lists` of the seed, or list `only` and nothing else.
pub struct Which {
    pub seed: u64,
    pub lists: u64,
    pub only: Option<u64>,
}

impl Which {
    /// The numbers of the lists.
    pub fn numbers(&self) -> Range<u64> {
        self.only.map_or(0..self.lists, |number| number..number + 1)
    }
}

/// Runs lists up to the first that differs; `program` is the command that runs such a list again.
pub fn hold_all(subject: &mut dyn Subject, which: &Which, program: &str) -> Result<Tally, String> {
    let (seed, numbers, mut sum) = (which.seed, which.numbers(), Tally::default());
    let progress = Progress::new(numbers.end - numbers.start, "lists");
    if which.only.is_none() {
        for case in named::all() {
            sum.add(&subject.hold_case(&case)?);
        }
    }
    for number in numbers {
        let again = format!("to run it again: {program} --seed {seed} --only {number}");
        sum.add(&subject.hold(seed, number).map_err(|told| format!("{told}\n{again}"))?);
        progress.at(sum.lists);
    }
    Ok(sum)
}

/// Where two strings of bytes first differ, in words; nothing if they don't.
pub fn first_difference(wanted: &[u8], got: &[u8]) -> Option<String> {
    if wanted == got {
        return None;
    }
    let same = wanted.iter().zip(got).take_while(|(a, b)| a == b).count();
    match (wanted.get(same), got.get(same)) {
        (Some(a), Some(b)) => Some(format!("byte {same} is {b:02x}, expected {a:02x}")),
        _ => Some(format!("length is {}, expected {}, alike so far", got.len(), wanted.len())),
    }
}

#[cfg(test)]
mod tests {
    use super::*;

    #[test]
    fn differences_are_found() {
        assert_eq!(first_difference(b"abc", b"abc"), None);
        assert_eq!(first_difference(b"abc", b"axc").unwrap(), "byte 1 is 78, expected 62");
        assert_eq!(first_difference(b"abc", b"ab").unwrap(), "length is 2, expected 3, alike so far");
    }
}
