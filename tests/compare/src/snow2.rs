//! SNOW 2.0 (8.2), with keys of 16 and of 32 bytes. Its state is s0..s15, then R1 and R2; the products with alpha
//! and its inverse come from the fields' polynomials.

use crate::aes::t;
use crate::cipher::{words, Cipher, Shape, State};
use crate::field::multiples;

/// The field of bytes: beta is a root of x^8 + x^7 + x^5 + x^3 + 1.
const POLY: u16 = 0x1A9;

/// alpha is a root of y^4 + beta^23 y^3 + beta^245 y^2 + beta^48 y + beta^239.
pub static UP: [u32; 256] = multiples([23, 245, 48, 239], POLY);

/// The equation of alpha divided by beta^239 y gives 1/y = beta^16 y^3 + beta^39 y^2 + beta^6 y + beta^64.
pub static DOWN: [u32; 256] = multiples([16, 39, 6, 64], POLY);

/// The product of alpha and `w`.
pub fn times_alpha(w: u32) -> u32 {
    (w << 8) ^ UP[(w >> 24) as usize]
}

/// The product of alpha's inverse and `w`.
pub fn over_alpha(w: u32) -> u32 {
    (w >> 8) ^ DOWN[(w & 0xFF) as usize]
}

/// F: the sum of s15 and R1, added by XOR to R2.
fn f(s: &State) -> u32 {
    s[15].wrapping_add(s[16]) ^ s[17]
}

/// The state before the first step: from s15 down the key's words and their complements, taken round until
/// all sixteen are filled, with the IV's words added into s9, s10, s12 and s15; R1 and R2 are 0.
pub fn load(key: &[u8], iv: &[u8]) -> State {
    let key = words(key);
    let complements = key.iter().map(|word| !word);
    let round: Vec<u32> = key.iter().copied().chain(complements).collect();
    let mut state: State = (0..16).map(|i| round[(15 - i) % round.len()]).collect();
    for (place, word) in [9, 10, 12, 15].into_iter().zip(words(iv)) {
        state[place] ^= word;
    }
    state.extend([0, 0]);
    state
}

/// Next of 8.2.3, in INIT mode or not.
fn step(s: &mut State, init: bool) {
    let extra = if init { f(s) } else { 0 };
    let word = times_alpha(s[0]) ^ s[2] ^ over_alpha(s[11]) ^ extra;
    let (r1, r2) = (s[17].wrapping_add(s[5]), t(s[16]));
    s.copy_within(1..16, 0);
    s[15] = word;
    s[16] = r1;
    s[17] = r2;
}

/// The cipher with a key of `key` bytes, 16 or 32.
pub struct Snow2 {
    pub key: usize,
}

impl Cipher for Snow2 {
    fn shape(&self) -> Shape {
        let number = if self.key == 16 { 3 } else { 4 };
        Shape { number, key: self.key, iv: 16, unit: 4, state: 72 }
    }

    fn init(&self, key: &[u8], iv: &[u8]) -> State {
        let mut state = load(key, iv);
        for _ in 0..32 {
            step(&mut state, true);
        }
        step(&mut state, false);
        state
    }

    fn next(&self, state: &mut State) {
        step(state, false);
    }

    fn strm(&self, s: &State) -> Vec<u8> {
        (f(s) ^ s[0]).to_be_bytes().to_vec()
    }
}

#[cfg(test)]
mod tests {
    use super::*;

    #[test]
    fn alpha_and_its_inverse_undo_each_other() {
        for byte in 0..=255u32 {
            for shift in [0, 8, 16, 24] {
                let w = byte << shift;
                assert_eq!(over_alpha(times_alpha(w)), w);
                assert_eq!(times_alpha(over_alpha(w)), w);
            }
        }
    }

    #[test]
    fn first_multiples_are_those_of_the_clause() {
        assert_eq!((UP[1], DOWN[1]), (0xE19FCF13, 0x180F40CD));
        assert_eq!((UP[255], DOWN[255]), (0x3F53B5EB, 0xB6F3A5E2));
    }
}
