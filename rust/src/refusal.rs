//! Why a command or a record was refused: the code, and what it means.

use std::error::Error;
use std::fmt;
use std::num::NonZeroU8;

/// A refused command, or a record that was refused when it was sealed or opened. The card and the buffers are as they
/// were before it.
#[derive(Clone, Copy, Debug, PartialEq, Eq, Hash)]
pub struct Refusal(NonZeroU8);

impl Refusal {
    /// The refusal with this code, or `None` for 0, which is no refusal.
    pub const fn new(code: u8) -> Option<Refusal> {
        match NonZeroU8::new(code) {
            Some(code) => Some(Refusal(code)),
            None => None,
        }
    }

    /// The code: 1 to 19, or 255 for a damaged card; of a record 4, 7, 12, 16, 23 or 24.
    pub const fn code(self) -> u8 {
        self.0.get()
    }
}

/// What the code means, for example `line over 7 (code 3)`.
impl fmt::Display for Refusal {
    fn fmt(&self, f: &mut fmt::Formatter<'_>) -> fmt::Result {
        write!(f, "{} (code {})", text(self.code()), self.code())
    }
}

impl Error for Refusal {}

fn text(code: u8) -> &'static str {
    match code {
        1 => "command empty or cut short",
        2 => "first byte not 01 to 09",
        3 => "line over 7",
        4 => "cipher not 1 to 6",
        5 => "open, load or resume on an open or loaded line",
        6 => "crypt, park or change on a line that is not open, or close on an idle line",
        7 => "a key or IV byte beyond the cipher's length is not 0",
        8 => "an image whose cipher, position, line, state or padding is wrong",
        9 => "tray length not a multiple of 32, or over 8192",
        10 => "key number not in the tray",
        11 => "data shorter than the count",
        12 => "out shorter than what is to be written",
        13 => "position after the crypt over 2^36",
        14 => "park number not held for the line in the image",
        15 => "no park number left: the line has made 4,294,967,295 parks",
        16 => "key all zero",
        17 => "change or park while a change of key is waiting on the line",
        18 => "change position below the line's position, or above 2^36",
        19 => "start on a line that is not loaded",
        23 => "message over 16,384 bytes or not a multiple of 8, or a sealed length that no such message has",
        24 => "redundancy or padding wrong, or the first 4,096 blocks of the keystream all zero",
        255 => "damaged card",
        _ => "a code that the card does not give",
    }
}

#[cfg(test)]
mod tests {
    use super::*;
    use std::collections::HashSet;

    #[test]
    fn every_code_has_a_text_of_its_own() {
        let codes: Vec<u8> = (1..=19).chain([23, 24, 255]).collect();
        let texts: HashSet<&str> = codes.iter().map(|&code| text(code)).collect();
        assert_eq!(texts.len(), codes.len());
        assert!(!texts.contains(text(20)));
    }

    #[test]
    fn texts_have_the_code() {
        for code in 1..=255 {
            let refusal = Refusal::new(code).unwrap();
            assert_eq!(refusal.code(), code);
            assert!(refusal.to_string().ends_with(&format!(" (code {code})")));
        }
        assert_eq!(Refusal::new(3).unwrap().to_string(), "line over 7 (code 3)");
        assert_eq!(Refusal::new(0), None);
    }
}
