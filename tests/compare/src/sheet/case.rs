//! A named sheet: what `use.bin` holds, and what is written down of what the program prints.

use super::text;
use crate::record::{joined, Record};

pub struct Sheet {
    name: String,
    /// What `use.bin` holds; nothing if there is none.
    pub file: Option<Vec<u8>>,
    printed: String,
}

impl Sheet {
    /// A sheet with its figures: bytes for each line, for each cipher and in all.
    pub fn new(name: impl Into<String>, records: &[Record], figures: [u64; 15]) -> Sheet {
        let printed = figures.iter().map(|figure| format!("{figure}\n")).collect();
        Sheet { name: name.into(), file: Some(joined(records)), printed }
    }

    /// A sheet that is refused.
    pub fn refused(name: impl Into<String>, bytes: Vec<u8>, number: u8) -> Sheet {
        Sheet { name: format!("{number}: {}", name.into()), file: Some(bytes), printed: format!("{number}\n") }
    }

    /// A file as it stands, with all that is printed.
    pub fn of(name: impl Into<String>, file: Option<Vec<u8>>, printed: impl Into<String>) -> Sheet {
        Sheet { name: name.into(), file, printed: printed.into() }
    }

    pub fn name(&self) -> &str {
        &self.name
    }

    /// Holds what is written down of the second implementation.
    pub fn check(&self) -> Result<(), String> {
        let text = text(self.file.as_deref());
        if text == self.printed {
            return Ok(());
        }
        let told = format!("it is\n{text}and this is written down:\n{}", self.printed);
        Err(format!("named sheet \"{}\", second implementation: {told}", self.name))
    }
}

#[cfg(test)]
mod tests {
    use super::*;

    #[test]
    fn what_is_wrongly_written_down_is_told() {
        let record = Record { line: 1, cipher: 2, bytes: 3 };
        let right = [0, 3, 0, 0, 0, 0, 0, 0, 0, 3, 0, 0, 0, 0, 3];
        assert_eq!(Sheet::new("a", &[record], right).check(), Ok(()));
        for place in 0..15 {
            let mut wrong = right;
            wrong[place] += 1;
            assert!(Sheet::new("a", &[record], wrong).check().is_err());
        }
        assert_eq!(Sheet::refused("a", vec![9], 20).check(), Ok(()));
        assert!(Sheet::refused("a", vec![9], 21).check().is_err());
        assert!(Sheet::of("a", None, "0\n").check().is_err());
    }
}
