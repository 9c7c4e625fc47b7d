//! What the program `cardrun` means: three files taken to a printed table, the bytes of `out.bin` and the records that are
//! appended to `use.bin`.

use crate::command::{count, CRYPT};
use crate::machine::{Answer, Machine};
use crate::record::{self, Record};

/// Only so many bytes of each file are read.
pub const READ: usize = 16_384;

/// The length of out before the first call.
pub const OUT: usize = 65_536;

/// The contents of the three files; an absent file is none.
#[derive(Clone, Debug, Default, PartialEq, Eq)]
pub struct Files {
    pub cmd: Option<Vec<u8>>,
    pub tray: Option<Vec<u8>>,
    pub data: Option<Vec<u8>>,
}

/// The part of a file that is read.
pub fn read(file: &Option<Vec<u8>>) -> &[u8] {
    let whole = file.as_deref().unwrap_or(&[]);
    &whole[..whole.len().min(READ)]
}

/// A call as the program makes it: what is left of the commands and of the data, the whole tray, and how long out
/// is.
#[derive(Clone, Copy, Debug)]
pub struct Call<'a> {
    pub command: &'a [u8],
    pub tray: &'a [u8],
    pub data: &'a [u8],
    pub out: usize,
}

/// A run of the program: its calls with their answers, all written bytes, joined, and a record of each accepted crypt.
pub struct Run<'a> {
    pub calls: Vec<(Call<'a>, Answer)>,
    pub out: Vec<u8>,
    pub records: Vec<Record>,
}

/// Runs commands until none are left or one is refused.
pub fn run(files: &Files) -> Run<'_> {
    let (mut commands, tray, mut data) = (read(&files.cmd), read(&files.tray), read(&files.data));
    let (mut machine, mut out, mut written) = (Machine::fresh(), vec![0; OUT], 0);
    let (mut calls, mut records) = (Vec::new(), Vec::new());
    while !commands.is_empty() {
        let call = Call { command: commands, tray, data, out: OUT - written };
        let answer = machine.call(commands, tray, data, &mut out[written..]);
        calls.push((call, answer));
        if answer.code != 0 {
            break;
        }
        records.extend(record_of(&machine, commands));
        commands = &commands[answer.used_command..];
        data = &data[answer.used_data..];
        written += answer.written;
    }
    out.truncate(written);
    Run { calls, out, records }
}

/// The record of an accepted command: the line of a crypt, the cipher that the line has, and the bytes that were asked
/// for; nothing of another command.
fn record_of(machine: &Machine, command: &[u8]) -> Option<Record> {
    let line = *command.get(1).filter(|_| command[0] == CRYPT)?;
    let (cipher, _) = machine.open(line)?;
    Some(Record { line, cipher, bytes: count(command) as u64 })
}

impl Run<'_> {
    /// The calls with their answers and the bytes that each wrote.
    pub fn written(&self) -> impl Iterator<Item = (&Call<'_>, &Answer, &[u8])> {
        let mut rest = self.out.as_slice();
        self.calls.iter().map(move |(call, answer)| {
            let (own, after) = rest.split_at(answer.written);
            rest = after;
            (call, answer, own)
        })
    }

    /// What `use.bin` holds after so many such runs, one after the other; nothing if there is none. A run with no record
    /// leaves it as it was.
    pub fn used(&self, before: &Option<Vec<u8>>, runs: usize) -> Option<Vec<u8>> {
        let appended = record::joined(&self.records).repeat(runs);
        match before {
            Some(bytes) => Some([bytes.clone(), appended].concat()),
            None => Some(appended).filter(|bytes| !bytes.is_empty()),
        }
    }

    /// The table that the program prints.
    pub fn table(&self) -> String {
        let mut text = String::from("call code cmd data out\n");
        for (i, (_, a)) in self.calls.iter().enumerate() {
            let row = format!("{} {} {} {} {}\n", i + 1, a.code, a.used_command, a.used_data, a.written);
            text.push_str(&row);
        }
        let accepted = self.calls.iter().filter(|(_, a)| a.code == 0).count();
        let last = self.calls.last().map_or(0, |(_, a)| a.code);
        text.push_str(&format!("end {accepted} {last}\n"));
        text
    }
}

#[cfg(test)]
mod tests {
    use super::*;
    use crate::command;

    #[test]
    fn nothing_to_do_makes_no_call() {
        let absent = Files::default();
        let run = run(&absent);
        assert_eq!(run.table(), "call code cmd data out\nend 0 0\n");
        assert!(run.out.is_empty() && run.records.is_empty());
    }

    #[test]
    fn a_refusal_ends_the_run() {
        let cmd = [command::close(3), command::close(3)].concat();
        let files = Files { cmd: Some(cmd), ..Files::default() };
        assert_eq!(run(&files).table(), "call code cmd data out\n1 6 0 0 0\nend 0 6\n");
    }

    #[test]
    fn accepted_crypts_leave_records_and_nothing_else_does() {
        let open = |line, cipher| command::open_own(line, cipher, &command::padded(&[1], 32), &[0; 16]);
        let crypts = [command::crypt(0, 3), command::crypt(1, 0), command::crypt(0, 2), command::crypt(0, 1)];
        let cmd = [vec![open(0, 3), open(1, 6)], crypts.to_vec(), vec![command::close(0)]].concat().concat();
        let files = Files { cmd: Some(cmd), data: Some(vec![0; 5]), ..Files::default() };
        let (first, second) = ([0, 3, 0, 0, 0, 0, 0, 0, 0, 3], [1, 6, 0, 0, 0, 0, 0, 0, 0, 0]);
        let all = [first, second, [0, 3, 0, 0, 0, 0, 0, 0, 0, 2]].concat();
        let run = run(&files);
        assert!(run.table().ends_with("end 5 11\n"));
        assert_eq!(run.used(&None, 1), Some(all.clone()));
        assert_eq!(run.used(&Some(vec![9]), 2), Some([vec![9], all.repeat(2)].concat()));
    }

    #[test]
    fn no_record_makes_no_file() {
        let absent = Files::default();
        let run = run(&absent);
        assert_eq!(
            [None, Some(vec![]), Some(vec![9])].map(|before| run.used(&before, 2)),
            [None, Some(vec![]), Some(vec![9])]
        );
    }

    #[test]
    fn bytes_beyond_the_limit_are_not_read() {
        let open = command::open_own(0, 3, &command::padded(&[1], 32), &[0; 16]);
        let files = Files {
            cmd: Some([open, command::crypt(0, 16_384), command::crypt(0, 1)].concat()),
            data: Some(vec![0; 16_385]),
            ..Files::default()
        };
        assert!(run(&files).table().ends_with("\n2 0 4 16384 16384\n3 11 0 0 0\nend 2 11\n"));
    }
}
