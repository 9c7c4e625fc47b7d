//! The program `cardrun` as a subject: each list is written to a fresh folder, the program is run there, and what
//! it prints, writes and appends is held against the second implementation.

use crate::changes::Changes;
use crate::ledger::Ledger;
use crate::lists::{self, List};
use crate::loads::Loads;
use crate::named::Case;
use crate::process::{contents, first_line, write, Program};
use crate::program::{self, Run};
use crate::subject::{first_difference, Subject, Tally};
use std::path::Path;

pub struct Cardrun {
    program: Program,
}

impl Cardrun {
    /// The program at a path; with `keep`, every list's folder stays.
    pub fn new(path: &Path, keep: bool) -> Result<Cardrun, String> {
        Ok(Cardrun { program: Program::new(path, keep, "--cardrun")? })
    }

    /// Runs a list in a folder of its own, which stays if the program differs, and counts its calls.
    fn hold_list(&self, label: &str, list: &List) -> Result<Tally, String> {
        let run = program::run(&list.files);
        self.program.in_folder(label, |folder| self.compare(folder, list, &run))?;
        let mut tally = Tally { records: run.records.len() as u64, ..Tally::default() };
        let (mut ledger, mut changes, mut loads) = (Ledger::default(), Changes::default(), Loads::default());
        for (call, answer, out) in run.written() {
            tally.note(&mut ledger, call.command, answer, out);
            tally.note_change(&mut changes, call.command, answer);
            tally.note_load(&mut loads, call.command, answer);
        }
        Ok(tally)
    }

    /// Runs a list in a folder, as often as it is to be run, and compares each time.
    fn compare(&self, folder: &Path, list: &List, run: &Run) -> Result<(), String> {
        let files = &list.files;
        let named = [("cmd.bin", &files.cmd), ("tray.bin", &files.tray), ("data.bin", &files.data)];
        let before = [("out.bin", &list.stale), ("use.bin", &list.used)];
        named.into_iter().chain(before).try_for_each(|(name, bytes)| write(folder, name, bytes))?;
        for runs in 1..=list.runs {
            let printed = self.program.execute(folder)?;
            let left = Left { printed, out: contents(folder, "out.bin")?, used: contents(folder, "use.bin")? };
            left.difference(list, run, runs).map_or(Ok(()), |told| Err(format!("run {runs}: {told}")))?;
        }
        Ok(())
    }
}

/// What a run of the program leaves: what it printed, and what `out.bin` and `use.bin` hold, if they are there.
pub struct Left {
    pub printed: Vec<u8>,
    pub out: Option<Vec<u8>>,
    pub used: Option<Vec<u8>>,
}

impl Left {
    /// Where it differs from what so many runs of the list leave by the second implementation, in words; nothing if it
    /// doesn't.
    pub fn difference(&self, list: &List, run: &Run, runs: usize) -> Option<String> {
        let table = first_line(&run.table(), &self.printed);
        let out = || file_difference("out.bin", &Some(run.out.clone()), &self.out);
        table.or_else(out).or_else(|| file_difference("use.bin", &run.used(&list.used, runs), &self.used))
    }
}

/// Where a file differs from what is wanted, in words; nothing if it doesn't.
fn file_difference(name: &str, wanted: &Option<Vec<u8>>, got: &Option<Vec<u8>>) -> Option<String> {
    match (wanted, got) {
        (None, None) => None,
        (Some(_), None) => Some(format!("there is no {name}")),
        (None, Some(_)) => Some(format!("{name} was made")),
        (Some(wanted), Some(got)) => first_difference(wanted, got).map(|told| format!("{name}: {told}")),
    }
}

impl Subject for Cardrun {
    fn name(&self) -> String {
        self.program.name()
    }

    fn hold_case(&mut self, case: &Case) -> Result<Tally, String> {
        let tally = self.hold_list("case", &case.list);
        let tally = tally.map_err(|told| format!("named case \"{}\": {told}", case.name()))?;
        Ok(Tally { named: 1, ..tally })
    }

    fn hold(&mut self, seed: u64, number: u64) -> Result<Tally, String> {
        let list = lists::list(seed, number);
        let tally = self.hold_list(&format!("list-{number}"), &list);
        let tally = tally.map_err(|told| format!("list {number} of seed {seed} ({}): {told}", list.kind))?;
        Ok(Tally { lists: 1, ..tally })
    }
}

#[cfg(test)]
mod tests {
    use super::*;

    #[test]
    fn files_that_differ_are_told() {
        let told = |wanted: Option<&[u8]>, got: Option<&[u8]>| {
            file_difference("use.bin", &wanted.map(Vec::from), &got.map(Vec::from))
        };
        assert_eq!((told(None, None), told(Some(b"a"), Some(b"a"))), (None, None));
        assert_eq!(told(None, Some(b"")).unwrap(), "use.bin was made");
        assert_eq!(told(Some(b""), None).unwrap(), "there is no use.bin");
        assert_eq!(told(Some(b"ab"), Some(b"a")).unwrap(), "use.bin: length is 1, expected 2, alike so far");
    }
}
