//! A command list in the making. Each command is run by the second implementation as it is added, so that the list
//! knows what stands on its lines, what is left of data and out, and what became of the images that its parks have
//! written.

use crate::ledger::{Fate, Ledger};
use crate::machine::Machine;
use crate::program::{Files, OUT, READ};
use crate::random::Random;

pub struct Builder {
    pub random: Random,
    machine: Machine,
    ledger: Ledger,
    cmd: Vec<u8>,
    tray: Vec<u8>,
    data: Vec<u8>,
    out: Vec<u8>,
    used: usize,
    written: usize,
    refused: bool,
}

impl Builder {
    /// An empty list with the contents of the tray and data files.
    pub fn new(random: Random, tray: Vec<u8>, data: Vec<u8>) -> Builder {
        Builder {
            random,
            machine: Machine::fresh(),
            ledger: Ledger::default(),
            cmd: Vec::new(),
            tray,
            data,
            out: vec![0; OUT],
            used: 0,
            written: 0,
            refused: false,
        }
    }

    /// Adds a command, and tells whether it is accepted. One that is beyond what is read of the file isn't added;
    /// one after a refusal is added and not run, and counts as not accepted.
    pub fn put(&mut self, command: &[u8]) -> bool {
        if command.len() > self.room() {
            return false;
        }
        self.cmd.extend(command);
        if self.refused {
            return false;
        }
        let tray = &self.tray[..self.tray.len().min(READ)];
        let data = &self.data[self.used..self.data.len().min(READ)];
        let out = &mut self.out[self.written..];
        let answer = self.machine.call(command, tray, data, out);
        self.ledger.note(command, &answer, out);
        self.refused = answer.code != 0;
        self.used += answer.used_data;
        self.written += answer.written;
        !self.refused
    }

    /// How many bytes of commands can still be added.
    pub fn room(&self) -> usize {
        READ.saturating_sub(self.cmd.len())
    }

    pub fn tray(&self) -> &[u8] {
        &self.tray
    }

    pub fn data_left(&self) -> usize {
        self.data.len().min(READ) - self.used
    }

    pub fn out_left(&self) -> usize {
        OUT - self.written
    }

    pub fn idle_lines(&self) -> Vec<u8> {
        (0..8).filter(|&line| self.machine.idle(line)).collect()
    }

    pub fn loaded_lines(&self) -> Vec<u8> {
        (0..8).filter(|&line| self.machine.loaded(line).is_some()).collect()
    }

    pub fn open_lines(&self) -> Vec<u8> {
        (0..8).filter(|&line| self.machine.open(line).is_some()).collect()
    }

    /// The cipher of a loaded line.
    pub fn loaded(&self, line: u8) -> Option<u8> {
        self.machine.loaded(line).map(|loaded| loaded.cipher)
    }

    /// The cipher of an open line.
    pub fn cipher(&self, line: u8) -> Option<u8> {
        self.machine.open(line).map(|(cipher, _)| cipher)
    }

    /// The position of an open line; 0 of another.
    pub fn position(&self, line: u8) -> u64 {
        self.machine.open(line).map_or(0, |(_, position)| position)
    }

    /// The position of the change that waits on a line, if one does.
    pub fn waiting(&self, line: u8) -> Option<u64> {
        self.machine.waiting(line)
    }

    /// How many bytes can be taken through an open line before number 13.
    pub fn line_left(&self, line: u8) -> usize {
        usize::try_from(self.machine.left(line)).unwrap_or(usize::MAX)
    }

    /// The images that parks have written so far and that have this fate.
    pub fn images(&self, fate: Fate) -> Vec<Vec<u8>> {
        self.ledger.images(fate)
    }

    /// All images that parks have written so far.
    pub fn all_images(&self) -> Vec<Vec<u8>> {
        self.ledger.all()
    }

    /// How many parks were made from a line.
    pub fn parks(&self, line: u8) -> u32 {
        self.machine.parks().made()[usize::from(line)]
    }

    /// The files of the list as it stands.
    pub fn files(self) -> Files {
        Files { cmd: Some(self.cmd), tray: Some(self.tray), data: Some(self.data) }
    }
}
