//! Cases about changes of key in the making: a line that is opened with one keystream of annex C and changes to another
//! of the same cipher, and what its crypts are to use of both.

use super::published::{text, Published};
use super::Case;
use crate::command;

/// The keystream that a line is opened with, and the one that it changes to.
pub type Pair = [Published; 2];

/// The key numbers of the two in the tray.
pub const OLD: u8 = 0;
pub const NEW: u8 = 1;

/// The tray with the keys of both.
pub fn tray([old, new]: &Pair) -> Vec<u8> {
    [old.key.clone(), new.key.clone()].concat()
}

/// The name of a case.
pub fn name(pair: &Pair, what: &str) -> String {
    format!("change of key, {}: {what}", pair[0].name())
}

/// A case with the tray of both keys.
pub fn case(pair: &Pair, what: &str, commands: &[Vec<u8>], end: impl Into<String>) -> Case {
    Case::new(name(pair, what), commands, end).tray(tray(pair))
}

/// So many bytes of the old keystream, and so many of the new one.
pub fn joined([old, new]: &Pair, before: usize, behind: usize) -> Vec<u8> {
    [&old.stream[..before], &new.stream[..behind]].concat()
}

/// The text of a case, enciphered with a keystream from its byte `at` on.
pub fn enciphered(stream: &[u8], at: usize) -> Vec<u8> {
    text(at + stream.len())[at..].iter().zip(stream).map(|(byte, key)| byte ^ key).collect()
}

/// Commands on a line, and the keystream that their crypts are to use, one after the other.
pub struct Script<'a> {
    pair: &'a Pair,
    line: u8,
    commands: Vec<Vec<u8>>,
    stream: Vec<u8>,
}

impl<'a> Script<'a> {
    pub fn new(pair: &'a Pair) -> Script<'a> {
        Script { pair, line: 2, commands: Vec::new(), stream: Vec::new() }
    }

    pub fn put(mut self, command: Vec<u8>) -> Script<'a> {
        self.commands.push(command);
        self
    }

    /// Opens the line with the old keystream.
    pub fn open(self) -> Script<'a> {
        let open = self.pair[0].open(self.line);
        self.put(open)
    }

    /// Changes to the new keystream.
    pub fn change(self, position: usize) -> Script<'a> {
        let change = self.pair[1].change(self.line, NEW, position as u64);
        self.put(change)
    }

    /// Changes to the old keystream, from its first byte on.
    pub fn change_back(self, position: usize) -> Script<'a> {
        let change = self.pair[0].change(self.line, OLD, position as u64);
        self.put(change)
    }

    /// A crypt of as many bytes as there are here of a keystream, which it is to use.
    pub fn frame(mut self, stream: &[u8]) -> Script<'a> {
        self.stream.extend(stream);
        let crypt = command::crypt(self.line, stream.len() as u16);
        self.put(crypt)
    }

    /// Crypts of these lengths, which are to use that many bytes of a keystream.
    pub fn frames(self, stream: &[u8], lengths: &[usize]) -> Script<'a> {
        let (mut script, mut rest) = (self, stream);
        for length in lengths {
            let (own, behind) = rest.split_at(*length);
            script = script.frame(own);
            rest = behind;
        }
        script
    }

    /// Closes the line; what follows is on the next one.
    pub fn close(mut self) -> Script<'a> {
        let close = command::close(self.line);
        self.commands.push(close);
        self.line = (self.line + 1) % 8;
        self
    }

    /// Goes on with `of` for each of these numbers.
    pub fn each(self, numbers: impl IntoIterator<Item = usize>, of: impl Fn(Self, usize) -> Self) -> Script<'a> {
        numbers.into_iter().fold(self, of)
    }

    /// The case, all of whose commands are accepted; out has the crypts' bytes and nothing else.
    pub fn case(self, what: &str) -> Case {
        let (end, out) = (format!("end {} 0", self.commands.len()), enciphered(&self.stream, 0));
        case(self.pair, what, &self.commands, end).data(text(out.len())).out(&out)
    }

    /// The case, which ends with a command that is refused.
    pub fn refused(self, what: &str, code: u8) -> Case {
        let (end, out) = (format!("end {} {code}", self.commands.len() - 1), enciphered(&self.stream, 0));
        case(self.pair, what, &self.commands, end).data(text(out.len())).out(&out)
    }
}
