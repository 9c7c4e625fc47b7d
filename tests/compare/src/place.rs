//! What a line of the plain machine is: idle, loaded, or open.

use crate::cipher::{by_number, Cipher};
use crate::line::Line;

/// A loaded line: a cipher, and the bytes that it keeps of a key.
#[derive(Clone)]
pub struct Loaded {
    pub cipher: &'static dyn Cipher,
    kept: Vec<u8>,
}

impl Loaded {
    pub fn new(cipher: &'static dyn Cipher, key: &[u8]) -> Loaded {
        Loaded { cipher, kept: cipher.load(key) }
    }

    /// A line of this cipher with these bytes kept; nothing if no card may hold it.
    pub fn with(cipher: u8, kept: &[u8]) -> Option<Loaded> {
        let cipher = by_number(cipher)?;
        let fits = kept.len() == cipher.kept() && cipher.keeps(kept);
        fits.then(|| Loaded { cipher, kept: kept.to_vec() })
    }

    pub fn kept(&self) -> &[u8] {
        &self.kept
    }

    /// The open line that a start with this IV makes of it.
    pub fn start(&self, iv: &[u8]) -> Line {
        Line::first(self.cipher, self.cipher.start(&self.kept, iv))
    }
}

/// A line's place on the machine.
#[derive(Clone, Default)]
pub enum Place {
    #[default]
    Idle,
    Loaded(Loaded),
    Open(Line),
}

impl Place {
    /// An open line, or an idle one where there is none.
    pub fn of(line: Option<Line>) -> Place {
        line.map_or(Place::Idle, Place::Open)
    }

    pub fn idle(&self) -> bool {
        matches!(self, Place::Idle)
    }

    pub fn loaded(&self) -> Option<&Loaded> {
        match self {
            Place::Loaded(loaded) => Some(loaded),
            _ => None,
        }
    }

    pub fn open(&self) -> Option<&Line> {
        match self {
            Place::Open(line) => Some(line),
            _ => None,
        }
    }

    pub fn open_mut(&mut self) -> Option<&mut Line> {
        match self {
            Place::Open(line) => Some(line),
            _ => None,
        }
    }

    /// The cipher of a line that isn't idle.
    pub fn cipher(&self) -> Option<&'static dyn Cipher> {
        self.loaded().map(|loaded| loaded.cipher).or(self.open().map(|line| line.cipher))
    }
}

#[cfg(test)]
mod tests {
    use super::*;
    use crate::cipher::LAST;

    #[test]
    fn a_start_is_the_open_of_its_key() {
        for number in 1..=LAST {
            let cipher = by_number(number).unwrap();
            let (key, iv) = (vec![3; cipher.shape().key], vec![5; cipher.shape().iv]);
            let mut started = Loaded::new(cipher, &key).start(&iv);
            let mut opened = Line::first(cipher, cipher.init(&key, &iv));
            assert_eq!((started.position, started.state()), (0, opened.state()));
            assert_eq!(started.crypt(&[0; 100]), opened.crypt(&[0; 100]));
        }
    }

    #[test]
    fn a_line_keeps_a_key_that_is_not_blank_and_of_rabbit_a_state() {
        let of = |cipher: u8, length: usize, byte: u8| Loaded::with(cipher, &vec![byte; length]).is_some();
        for (cipher, length) in [(1, 16), (3, 16), (4, 32), (5, 16), (6, 16)] {
            assert!(of(cipher, length, 1) && !of(cipher, length, 0), "{cipher}");
            assert!(!of(cipher, length - 1, 1) && !of(cipher, length + 1, 1), "{cipher}");
        }
        assert!(of(2, 65, 0) && of(2, 65, 1) && !of(2, 65, 2) && !of(2, 16, 1));
        assert!(!of(0, 16, 1) && !of(7, 16, 1));
    }
}
