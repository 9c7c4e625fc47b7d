//! A named case: a command list, and what is written down of its run.

use crate::hex;
use crate::lists::List;
use crate::program::{self, Files, Run};
use crate::record::joined;
use crate::subject::first_difference;
use std::ops::Range;

/// A command list with a name, and what is written down of its run.
pub struct Case {
    /// The list; its kind is the case's name.
    pub list: List,
    end: String,
    table: Option<&'static str>,
    out: Option<Vec<u8>>,
    records: Option<Vec<u8>>,
    parts: Vec<(usize, Vec<u8>)>,
    joined: Vec<(Range<usize>, Vec<Range<usize>>)>,
}

impl Case {
    /// A list of commands with empty tray and data. `end` is the last line of the table.
    pub fn new(name: impl Into<String>, commands: &[Vec<u8>], end: impl Into<String>) -> Case {
        let files = Files { cmd: Some(commands.concat()), tray: Some(Vec::new()), data: Some(Vec::new()) };
        Case::of(name, files, end)
    }

    /// The same for files as they stand.
    pub fn of(name: impl Into<String>, files: Files, end: impl Into<String>) -> Case {
        let list = List { kind: name.into(), files, stale: None, used: None, runs: 1 };
        Case { list, end: end.into(), table: None, out: None, records: None, parts: Vec::new(), joined: Vec::new() }
    }

    pub fn tray(mut self, bytes: Vec<u8>) -> Case {
        self.list.files.tray = Some(bytes);
        self
    }

    pub fn data(mut self, bytes: Vec<u8>) -> Case {
        self.list.files.data = Some(bytes);
        self
    }

    /// What stands in `out.bin` before the run.
    pub fn stale(mut self, bytes: Vec<u8>) -> Case {
        self.list.stale = Some(bytes);
        self
    }

    /// What stands in `use.bin` before the run.
    pub fn used(mut self, bytes: Vec<u8>) -> Case {
        self.list.used = Some(bytes);
        self
    }

    /// That the program is run twice.
    pub fn twice(mut self) -> Case {
        self.list.runs = 2;
        self
    }

    /// The whole table.
    pub fn table(mut self, text: &'static str) -> Case {
        self.table = Some(text);
        self
    }

    /// The whole of `out.bin`.
    pub fn out(mut self, bytes: &[u8]) -> Case {
        self.out = Some(bytes.to_vec());
        self
    }

    /// The bytes that a run appends to `use.bin`.
    pub fn records(mut self, bytes: &[u8]) -> Case {
        self.records = Some(bytes.to_vec());
        self
    }

    /// The bytes of `out.bin` from a place on.
    pub fn part(mut self, at: usize, bytes: &[u8]) -> Case {
        self.parts.push((at, bytes.to_vec()));
        self
    }

    /// That parts of `out.bin`, joined, are the same as another part.
    pub fn joined(mut self, whole: Range<usize>, parts: &[Range<usize>]) -> Case {
        self.joined.push((whole, parts.to_vec()));
        self
    }

    /// That two parts of `out.bin` are the same.
    pub fn same(self, one: Range<usize>, other: Range<usize>) -> Case {
        self.joined(one, &[other])
    }

    pub fn name(&self) -> &str {
        &self.list.kind
    }

    /// Holds what is written down of the second implementation.
    pub fn check(&self) -> Result<(), String> {
        let run = program::run(&self.list.files);
        let wrong = self.wrong_table(&run).or_else(|| self.wrong_bytes(&run.out)).or_else(|| self.wrong_records(&run));
        wrong.map_or(Ok(()), |told| Err(format!("named case \"{}\", second implementation: {told}", self.name())))
    }

    fn wrong_table(&self, run: &Run) -> Option<String> {
        let table = run.table();
        let end = table.lines().last().unwrap_or("");
        if end != self.end {
            return Some(format!("the last line is \"{end}\", and \"{}\" is written down", self.end));
        }
        match self.table {
            Some(text) if text != table => Some(format!("the table is\n{table}and another is written down")),
            _ => None,
        }
    }

    fn wrong_bytes(&self, out: &[u8]) -> Option<String> {
        let whole = self.out.as_deref().and_then(|bytes| first_difference(bytes, out));
        let told = whole.or_else(|| self.wrong_part(out)).or_else(|| self.wrong_join(out));
        told.map(|told| format!("out.bin: {told}"))
    }

    fn wrong_records(&self, run: &Run) -> Option<String> {
        let told = first_difference(self.records.as_ref()?, &joined(&run.records));
        told.map(|told| format!("the records: {told}"))
    }

    fn wrong_part(&self, out: &[u8]) -> Option<String> {
        let holds = |(at, bytes): &(usize, Vec<u8>)| out.get(*at..at + bytes.len()) == Some(bytes);
        let (at, bytes) = self.parts.iter().find(|part| !holds(part))?;
        Some(format!("the bytes from {at} on aren't {}", hex::write(bytes)))
    }

    fn wrong_join(&self, out: &[u8]) -> Option<String> {
        let holds = |(whole, parts): &(Range<usize>, Vec<Range<usize>>)| {
            let pieces: Option<Vec<&[u8]>> = parts.iter().map(|part| out.get(part.clone())).collect();
            pieces.is_some_and(|pieces| out.get(whole.clone()) == Some(&pieces.concat()))
        };
        let (whole, parts) = self.joined.iter().find(|joined| !holds(joined))?;
        Some(format!("bytes {whole:?} aren't {parts:?} joined"))
    }
}

#[cfg(test)]
mod tests {
    use super::*;
    use crate::command;

    #[test]
    fn what_is_wrongly_written_down_is_told() {
        let open = command::open_own(0, 3, &command::padded(&[1], 32), &[0; 16]);
        let case = |end: &str| Case::new("a", &[open.clone(), command::crypt(0, 2)], end).data(vec![0; 2]);
        assert_eq!(case("end 2 0").check(), Ok(()));
        assert!(case("end 2 1").check().is_err());
        assert!(case("end 2 0").table("end 2 0\n").check().is_err());
        assert!(case("end 2 0").out(&[0; 2]).check().is_err());
        assert!(case("end 2 0").records(&[]).check().is_err());
        assert!(case("end 2 0").records(&[0, 3, 0, 0, 0, 0, 0, 0, 0, 1]).check().is_err());
        assert_eq!(case("end 2 0").records(&[0, 3, 0, 0, 0, 0, 0, 0, 0, 2]).check(), Ok(()));
        assert!(case("end 2 0").part(1, &[0; 2]).check().is_err());
        assert!(case("end 2 0").same(0..1, 1..2).check().is_err());
        assert!(case("end 2 0").same(2..3, 3..4).check().is_err());
        assert_eq!(case("end 2 0").same(1..2, 1..2).check(), Ok(()));
    }
}
