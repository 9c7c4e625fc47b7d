//! KCipher-2 (8.5). Its state is A0..A4, B0..B10, R1, L1, R2, L2; the four products come from the fields'
//! polynomials.

use crate::aes::t;
use crate::cipher::{words, Cipher, Shape, State};
use crate::field::multiples;

/// Where the words stand in a state.
const A: usize = 0;
const B: usize = 5;
const R1: usize = 16;
const L1: usize = 17;
const R2: usize = 18;
const L2: usize = 19;

/// The multiples of y^4 for each alpha, a root of y^4 + b^p y^3 + b^q y^2 + b^r y + b^s with p, q, r, s as given
/// and b a root of the polynomial after them. The tables of 8.5.6 to 8.5.9 show both.
pub static ALPHA: [[u32; 256]; 4] = [
    multiples([24, 3, 12, 71], 0x1C3),
    multiples([230, 156, 93, 29], 0x12D),
    multiples([34, 16, 199, 248], 0x14D),
    multiples([157, 253, 56, 16], 0x165),
];

/// The product of alpha of index `i` and `w`.
fn times_alpha(i: usize, w: u32) -> u32 {
    (w << 8) ^ ALPHA[i][(w >> 24) as usize]
}

/// NLF of 8.5.10.
fn nlf(a: u32, b: u32, c: u32, d: u32) -> u32 {
    a.wrapping_add(b) ^ c ^ d
}

/// The high word of the output.
fn z_high(s: &State) -> u32 {
    nlf(s[B + 10], s[L2], s[L1], s[A])
}

/// The low word of the output.
fn z_low(s: &State) -> u32 {
    nlf(s[B], s[R2], s[R1], s[A + 4])
}

/// The internal key of twelve words, 8.5.2 a).
fn expand(key: &[u8]) -> Vec<u32> {
    let mut ik = words(key);
    for m in 4..12 {
        let before = match m {
            4 => t(ik[3].rotate_left(8)) ^ 0x0100_0000,
            8 => t(ik[7].rotate_left(8)) ^ 0x0200_0000,
            _ => ik[m - 1],
        };
        ik.push(ik[m - 4] ^ before);
    }
    ik
}

/// The state before the first step, 8.5.2 b).
fn load(key: &[u8], iv: &[u8]) -> State {
    let (ik, iv) = (expand(key), words(iv));
    let a = [4, 3, 2, 1, 0].map(|m: usize| ik[m]);
    let b = [ik[10], ik[11], iv[0], iv[1], ik[8], ik[9], iv[2], iv[3], ik[7], ik[5], ik[6]];
    a.into_iter().chain(b).chain([0; 4]).collect()
}

/// Next of 8.5.3, in INIT mode or not. Bits 30 and 31 of A2 choose the products.
fn step(s: &mut State, init: bool) {
    let (bit30, bit31) = ((s[A + 2] >> 30) & 1, s[A + 2] >> 31);
    let first = times_alpha(if bit30 == 1 { 1 } else { 2 }, s[B]);
    let second = if bit31 == 1 { times_alpha(3, s[B + 8]) } else { s[B + 8] };
    let (extra_a, extra_b) = if init { (z_low(s), z_high(s)) } else { (0, 0) };
    let a4 = times_alpha(0, s[A]) ^ s[A + 3] ^ extra_a;
    let b10 = first ^ s[B + 1] ^ s[B + 6] ^ second ^ extra_b;
    let r1 = t(s[L2].wrapping_add(s[B + 9]));
    let l1 = t(s[R2].wrapping_add(s[B + 4]));
    let (r2, l2) = (t(s[R1]), t(s[L1]));
    s.copy_within(A + 1..A + 5, A);
    s.copy_within(B + 1..B + 11, B);
    s[A + 4] = a4;
    s[B + 10] = b10;
    s[R1..].copy_from_slice(&[r1, l1, r2, l2]);
}

pub struct Kcipher2;

impl Cipher for Kcipher2 {
    fn shape(&self) -> Shape {
        Shape { number: 5, key: 16, iv: 16, unit: 8, state: 80 }
    }

    fn init(&self, key: &[u8], iv: &[u8]) -> State {
        let mut state = load(key, iv);
        for _ in 0..24 {
            step(&mut state, true);
        }
        state
    }

    fn next(&self, state: &mut State) {
        step(state, false);
    }

    fn strm(&self, s: &State) -> Vec<u8> {
        [z_high(s), z_low(s)].iter().flat_map(|word| word.to_be_bytes()).collect()
    }
}

#[cfg(test)]
mod tests {
    use super::*;

    #[test]
    fn first_and_last_multiples_are_those_of_the_clause() {
        let ends = ALPHA.map(|words| (words[1], words[255]));
        let printed =
            [(0xB6086D1A, 0xA1F48BE2), (0xA0F5FC2E, 0x2BDC188F), (0x5BF87F93, 0x9C91A2B4), (0x4559568B, 0x08D445EF)];
        assert_eq!(ends, printed);
    }
}
