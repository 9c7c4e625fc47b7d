//! What a keystream generator is: its row in the table of ciphers, and functions on a state of 32-bit words.

use crate::{kcipher2, mugi, rabbit, snow2, zuc};

/// A state, its words in the order of the state bytes; Rabbit's carry is a word of its own at the end.
pub type State = Vec<u32>;

/// A row of the table of ciphers: the number, and lengths in bytes.
#[derive(Clone, Copy, Debug, PartialEq, Eq)]
pub struct Shape {
    pub number: u8,
    pub key: usize,
    pub iv: usize,
    pub unit: usize,
    pub state: usize,
}

/// A keystream generator.
pub trait Cipher: Sync {
    fn shape(&self) -> Shape;

    /// S(0) of a key and an IV, which have the lengths of `shape`.
    fn init(&self, key: &[u8], iv: &[u8]) -> State;

    /// The bytes that a loaded line keeps of a key: the key itself.
    fn load(&self, key: &[u8]) -> Vec<u8> {
        key.to_vec()
    }

    /// How many bytes a loaded line keeps.
    fn kept(&self) -> usize {
        self.shape().key
    }

    /// Whether a loaded line may keep these bytes, whose number is `kept`.
    fn keeps(&self, kept: &[u8]) -> bool {
        kept.iter().any(|&byte| byte != 0)
    }

    /// S(0) of what a loaded line keeps and an IV.
    fn start(&self, kept: &[u8], iv: &[u8]) -> State {
        self.init(kept, iv)
    }

    /// Takes S(i) to S(i+1).
    fn next(&self, state: &mut State);

    /// The unit of keystream bytes that a state gives, first byte first.
    fn strm(&self, state: &State) -> Vec<u8>;

    /// The state as it stands in an image: big-endian words.
    fn state_bytes(&self, state: &State) -> Vec<u8> {
        state.iter().flat_map(|word| word.to_be_bytes()).collect()
    }

    /// The state that has these bytes; their number is that of `shape`.
    fn state_of(&self, bytes: &[u8]) -> State {
        words(bytes)
    }

    /// Whether an image may hold the state.
    fn admits(&self, _state: &State) -> bool {
        true
    }
}

/// The ciphers' numbers go from 1 to this one.
pub const LAST: u8 = 6;

/// The cipher of a number; none but 1 to `LAST`.
pub fn by_number(number: u8) -> Option<&'static dyn Cipher> {
    match number {
        1 => Some(&zuc::Zuc),
        2 => Some(&rabbit::Rabbit),
        3 => Some(&snow2::Snow2 { key: 16 }),
        4 => Some(&snow2::Snow2 { key: 32 }),
        5 => Some(&kcipher2::Kcipher2),
        6 => Some(&mugi::Mugi),
        _ => None,
    }
}

/// The big-endian words of a string of bytes; bytes beyond the last whole word are left out.
pub fn words(bytes: &[u8]) -> Vec<u32> {
    let word = |four: &[u8]| four.iter().fold(0, |w, &byte| (w << 8) | u32::from(byte));
    bytes.chunks_exact(4).map(word).collect()
}

#[cfg(test)]
mod tests {
    use super::*;

    #[test]
    fn state_bytes_are_read_back() {
        for number in 1..=LAST {
            let cipher = by_number(number).unwrap();
            let shape = cipher.shape();
            assert_eq!(shape.number, number);
            let key: Vec<u8> = (1..).take(shape.key).collect();
            let state = cipher.init(&key, &key[..shape.iv]);
            let bytes = cipher.state_bytes(&state);
            assert_eq!(bytes.len(), shape.state);
            assert_eq!(cipher.state_of(&bytes), state);
            assert_eq!(cipher.strm(&state).len(), shape.unit);
            assert!(cipher.admits(&state));
        }
    }

    #[test]
    fn a_load_and_a_start_give_the_state_of_key_and_iv() {
        for number in 1..=LAST {
            let cipher = by_number(number).unwrap();
            let shape = cipher.shape();
            let key: Vec<u8> = (1..).take(shape.key).collect();
            let kept = cipher.load(&key);
            assert_eq!((kept.len(), cipher.keeps(&kept)), (cipher.kept(), true));
            assert_eq!(kept == key, number != 2);
            for iv in [vec![0; shape.iv], (7..).take(shape.iv).collect()] {
                assert_eq!(cipher.start(&kept, &iv), cipher.init(&key, &iv));
            }
        }
    }

    #[test]
    fn no_other_number_is_a_cipher() {
        assert!((0..=255).filter(|&number| by_number(number).is_some()).eq(1..=LAST));
    }
}
