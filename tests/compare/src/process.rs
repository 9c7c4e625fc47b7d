//! A program that is compared: it is run in folders of its own, and what it prints is held against what is wanted.

use std::fs;
use std::io::{self, Read};
use std::path::{Path, PathBuf};
use std::process::{Child, Command, Stdio};
use std::sync::mpsc;
use std::thread;
use std::time::Duration;

/// A run that takes longer is ended and counts as a difference.
const LONGEST: Duration = Duration::from_secs(60);

pub struct Program {
    path: PathBuf,
    keep: bool,
}

impl Program {
    /// The program at a path, which is given by an option; with `keep`, every folder stays.
    pub fn new(path: &Path, keep: bool, option: &str) -> Result<Program, String> {
        let told = |error: io::Error| format!("{}: {error}; build it, or give {option} PATH", path.display());
        let path = path.canonicalize().map_err(told)?;
        Ok(Program { path, keep })
    }

    pub fn name(&self) -> String {
        self.path.display().to_string()
    }

    /// Does something in a fresh folder, which stays if that fails.
    pub fn in_folder(&self, label: &str, hold: impl Fn(&Path) -> Result<(), String>) -> Result<(), String> {
        let folder = fresh_folder(label).map_err(|error| format!("no temporary folder: {error}"))?;
        let outcome = hold(&folder);
        if outcome.is_err() || self.keep {
            eprintln!("{label} is kept in {}", folder.display());
        } else {
            fs::remove_dir_all(&folder).map_err(|error| format!("{}: {error}", folder.display()))?;
        }
        outcome
    }

    /// Runs the program in a folder; gives what it printed.
    pub fn execute(&self, folder: &Path) -> Result<Vec<u8>, String> {
        let mut child = Command::new(&self.path)
            .current_dir(folder)
            .stdin(Stdio::null())
            .stdout(Stdio::piped())
            .stderr(Stdio::null())
            .spawn()
            .map_err(|error| format!("the program can't be started: {error}"))?;
        let printed = printed(&mut child);
        let status = child.wait().map_err(|error| format!("no exit status: {error}"))?;
        match status.code() {
            Some(_) => printed,
            None => printed.and(Err(format!("the program died: {status}"))),
        }
    }
}

/// A folder that wasn't there before.
fn fresh_folder(label: &str) -> io::Result<PathBuf> {
    let mut attempt = 0;
    loop {
        let name = format!("compare-{}-{label}-{attempt}", std::process::id());
        let folder = std::env::temp_dir().join(name);
        match fs::create_dir(&folder) {
            Err(error) if error.kind() == io::ErrorKind::AlreadyExists => attempt += 1,
            other => return other.map(|()| folder),
        }
    }
}

/// What a file of a folder holds; nothing if there is none.
pub fn contents(folder: &Path, name: &str) -> Result<Option<Vec<u8>>, String> {
    match fs::read(folder.join(name)) {
        Ok(bytes) => Ok(Some(bytes)),
        Err(error) if error.kind() == io::ErrorKind::NotFound => Ok(None),
        Err(error) => Err(format!("{name}: {error}")),
    }
}

/// Writes a file, if it isn't absent.
pub fn write(folder: &Path, name: &str, contents: &Option<Vec<u8>>) -> Result<(), String> {
    let told = |error| format!("{name} can't be written: {error}");
    contents.as_ref().map_or(Ok(()), |bytes| fs::write(folder.join(name), bytes).map_err(told))
}

/// All that a child prints until it ends; a child that takes too long is ended.
fn printed(child: &mut Child) -> Result<Vec<u8>, String> {
    let mut stdout = child.stdout.take().ok_or("no standard output")?;
    let (sender, receiver) = mpsc::channel();
    thread::spawn(move || {
        let mut bytes = Vec::new();
        let outcome = stdout.read_to_end(&mut bytes).map(|_| bytes);
        let _ = sender.send(outcome);
    });
    match receiver.recv_timeout(LONGEST) {
        Ok(outcome) => outcome.map_err(|error| format!("standard output: {error}")),
        Err(_) => {
            child.kill().map_err(|error| format!("the program can't be ended: {error}"))?;
            Err(format!("the program took longer than {} seconds", LONGEST.as_secs()))
        }
    }
}

/// The first line in which what was printed differs from what is wanted, in words; nothing if they are the same.
pub fn first_line(wanted: &str, printed: &[u8]) -> Option<String> {
    let got = String::from_utf8_lossy(printed);
    if wanted == got {
        return None;
    }
    let (mut left, mut right) = (wanted.lines(), got.lines());
    for number in 1.. {
        match (left.next(), right.next()) {
            (None, None) => break,
            (a, b) if a == b => (),
            (a, b) => {
                let show = |line: Option<&str>| line.map_or("nothing".to_string(), |text| format!("\"{text}\""));
                return Some(format!("line {number} printed is {}, expected {}", show(b), show(a)));
            }
        }
    }
    Some("the lines are the same, their ends are not".to_string())
}

#[cfg(test)]
mod tests {
    use super::*;

    #[test]
    fn the_first_differing_line_is_told() {
        assert_eq!(first_line("a\nb\n", b"a\nb\n"), None);
        assert_eq!(first_line("a\nb\n", b"a\nc\n").unwrap(), "line 2 printed is \"c\", expected \"b\"");
        assert_eq!(first_line("a\nb\n", b"a\n").unwrap(), "line 2 printed is nothing, expected \"b\"");
        assert_eq!(first_line("a\n", b"a").unwrap(), "the lines are the same, their ends are not");
    }
}
