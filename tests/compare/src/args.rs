//! The command line: what to run, and how much of it.

use std::path::{Path, PathBuf};

pub const USAGE: &str =
    "usage: compare [--lists N] [--seed S] [--only K] [--cardrun PATH] [--sheet PATH] [--keep]

  --lists N       how many command lists, and how many files for sheet, to run after the named cases (500); with 0 the second implementation only checks itself
  --seed S        the seed that lists and files follow from (1)
  --only K        run list K and file K of the seed, no other and no named case
  --cardrun PATH  the program to compare (target/bin/cardrun in the folder here or the next one above that has it)
  --sheet PATH    the same for the program sheet
  --keep          leave every folder in place";

#[derive(Debug, PartialEq, Eq)]
pub struct Options {
    pub lists: u64,
    pub seed: u64,
    pub only: Option<u64>,
    pub cardrun: Option<PathBuf>,
    pub sheet: Option<PathBuf>,
    pub keep: bool,
    pub help: bool,
}

impl Default for Options {
    fn default() -> Options {
        Options { lists: 500, seed: 1, only: None, cardrun: None, sheet: None, keep: false, help: false }
    }
}

/// Reads the arguments after the program's name.
pub fn read(arguments: impl IntoIterator<Item = String>) -> Result<Options, String> {
    let mut options = Options::default();
    let mut rest = arguments.into_iter();
    while let Some(argument) = rest.next() {
        let mut value = || rest.next().ok_or(format!("{argument} needs a value"));
        match argument.as_str() {
            "--lists" => options.lists = number(&value()?)?,
            "--seed" => options.seed = number(&value()?)?,
            "--only" => options.only = Some(number(&value()?)?),
            "--cardrun" => options.cardrun = Some(PathBuf::from(value()?)),
            "--sheet" => options.sheet = Some(PathBuf::from(value()?)),
            "--keep" => options.keep = true,
            "--help" | "-h" => options.help = true,
            _ => return Err(format!("unknown argument {argument}")),
        }
    }
    Ok(options)
}

fn number(text: &str) -> Result<u64, String> {
    text.parse().map_err(|_| format!("{text} is not a whole number"))
}

/// The usual place of the program with this name, looked for from the current folder upwards; the bare path if it is
/// nowhere.
pub fn usual_place(program: &str) -> PathBuf {
    let place = Path::new("target/bin").join(program);
    let here = std::env::current_dir().unwrap_or_default();
    let found = here.ancestors().map(|folder| folder.join(&place)).find(|path| path.is_file());
    found.unwrap_or(place)
}

#[cfg(test)]
mod tests {
    use super::*;

    fn options(line: &str) -> Result<Options, String> {
        read(line.split_whitespace().map(String::from))
    }

    #[test]
    fn arguments_are_read() {
        assert_eq!(options(""), Ok(Options::default()));
        let got = options("--lists 20 --seed 7 --only 3 --cardrun a/b --sheet a/c --keep").unwrap();
        let (cardrun, sheet) = (Some(PathBuf::from("a/b")), Some(PathBuf::from("a/c")));
        assert_eq!(got, Options { lists: 20, seed: 7, only: Some(3), cardrun, sheet, keep: true, help: false });
        assert!(options("--lists").is_err());
        assert!(options("--lists many").is_err());
        assert!(options("--list 3").is_err());
    }
}
