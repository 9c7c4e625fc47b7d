//! The command line: which lists to run.

pub const USAGE: &str = "usage: tests/linked [--lists N] [--seed S] [--only K]

  --lists N  how many call lists to run after the named cases (300)
  --seed S   the seed that the lists follow from (1)
  --only K   run list K of the seed, no other and no named case";

#[derive(Debug, PartialEq, Eq)]
pub struct Options {
    pub lists: u64,
    pub seed: u64,
    pub only: Option<u64>,
    pub help: bool,
}

impl Default for Options {
    fn default() -> Options {
        Options { lists: 300, seed: 1, only: None, help: false }
    }
}

/// Reads the arguments after the program's name.
pub fn read(arguments: impl IntoIterator<Item = String>) -> Result<Options, String> {
    let mut options = Options::default();
    let mut rest = arguments.into_iter();
    while let Some(argument) = rest.next() {
        let mut value = || rest.next().ok_or(format!("{argument} needs a value"));
        match argument.as_str() {
            "--lists" => options.lists = number(&value()?)?,
            "--seed" => options.seed = number(&value()?)?,
            "--only" => options.only = Some(number(&value()?)?),
            "--help" | "-h" => options.help = true,
            _ => return Err(format!("unknown argument {argument}")),
        }
    }
    Ok(options)
}

fn number(text: &str) -> Result<u64, String> {
    text.parse().map_err(|_| format!("{text} is not a whole number"))
}

#[cfg(test)]
mod tests {
    use super::*;

    fn options(line: &str) -> Result<Options, String> {
        read(line.split_whitespace().map(String::from))
    }

    #[test]
    fn arguments_are_read() {
        assert_eq!(options(""), Ok(Options::default()));
        let got = options("--lists 20 --seed 7 --only 3").unwrap();
        assert_eq!(got, Options { lists: 20, seed: 7, only: Some(3), help: false });
        assert!(options("--seed").is_err());
        assert!(options("--seed many").is_err());
        assert!(options("--keep").is_err());
    }
}
