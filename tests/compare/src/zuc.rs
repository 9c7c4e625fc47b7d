//! ZUC (8.6 of the amendment). Its state is the cells A0..A15, then R1 and R2; the byte substitutions are worked
//! out from how they are built, SUB1 of three rounds on half bytes and SUB2 of the inverse in a field of bytes.

use crate::cipher::{Cipher, Shape, State};
use crate::field::inverse;

/// 2^31 - 1, the largest value of a cell.
pub const TOP: u32 = (1 << 31) - 1;

/// The constants of 15 bits between key and IV bytes.
const D: [u32; 16] = [
    0b100010011010111,
    0b010011010111100,
    0b110001001101011,
    0b001001101011110,
    0b101011110001001,
    0b011010111100010,
    0b111000100110101,
    0b000100110101111,
    0b100110101111000,
    0b010111100010011,
    0b110101111000100,
    0b001101011110001,
    0b101111000100110,
    0b011110001001101,
    0b111100010011010,
    0b100011110101100,
];

pub static SUB1: [u8; 256] = {
    let mut table = [0; 256];
    let mut a = 0;
    while a < 256 {
        table[a] = sub1(a as u8);
        a += 1;
    }
    table
};

pub static SUB2: [u8; 256] = {
    let mut table = [0; 256];
    let mut a = 0;
    while a < 256 {
        table[a] = sub2(a as u8);
        a += 1;
    }
    table
};

/// Three rounds on the halves of the byte, each adding to one half what a map of half bytes makes of the other,
/// then a rotation by 5. The maps are written as words whose lowest half byte is the image of 0.
const fn sub1(a: u8) -> u8 {
    const P: [u64; 3] = [0x9357_C040_A2FF_E0F9, 0x293F_AE1B_4C07_56D8, 0xDC90_5D33_FAD0_6A62];
    let (mut high, mut low) = (a >> 4, a & 15);
    high ^= (P[0] >> (4 * low)) as u8 & 15;
    low ^= (P[1] >> (4 * high)) as u8 & 15;
    high ^= (P[2] >> (4 * low)) as u8 & 15;
    ((high << 4) | low).rotate_left(5)
}

/// The inverse modulo x^8 + x^7 + x^3 + x + 1, then a linear map given by the images of its bits, then 55 added.
const fn sub2(a: u8) -> u8 {
    const IMAGES: [u8; 8] = [0x97, 0x3E, 0x6D, 0xCB, 0xEE, 0xDD, 0xBB, 0x77];
    let inverted = inverse(a, 0x18B);
    let mut sum = 0x55;
    let mut bit = 0;
    while bit < 8 {
        if (inverted >> bit) & 1 == 1 {
            sum ^= IMAGES[bit];
        }
        bit += 1;
    }
    sum
}

/// L1 of 8.6.6.
pub fn l1(x: u32) -> u32 {
    [2, 10, 18, 24].iter().fold(x, |sum, &r| sum ^ x.rotate_left(r))
}

/// L2 of 8.6.6.
pub fn l2(x: u32) -> u32 {
    [8, 14, 22, 30].iter().fold(x, |sum, &r| sum ^ x.rotate_left(r))
}

/// SS of 8.6.5: the bytes from the top by SUB1, SUB2, SUB1, SUB2.
fn ss(x: u32) -> u32 {
    let [a, b, c, d] = x.to_be_bytes().map(usize::from);
    u32::from_be_bytes([SUB1[a], SUB2[b], SUB1[c], SUB2[d]])
}

/// The leftmost 16 of a cell's 31 bits.
fn high(cell: u32) -> u32 {
    cell >> 15
}

/// The rightmost 16 bits of a cell or word.
fn low(word: u32) -> u32 {
    word & 0xFFFF
}

/// The cells before the first step.
pub fn load(key: &[u8], iv: &[u8]) -> State {
    let cell = |i: usize| (u32::from(key[i]) << 23) | (D[i] << 8) | u32::from(iv[i]);
    let mut state: State = (0..16).map(cell).collect();
    state.extend([0, 0]);
    state
}

/// 8.6.3 c) and d): the sum of the taps and of `extra`, modulo 2^31 - 1, with 2^31 - 1 for 0.
pub fn feedback(a: &[u32], extra: u32) -> u32 {
    let taps = [(15, 1 << 15), (13, 1 << 17), (10, 1 << 21), (4, 1 << 20), (0, 1 + (1 << 8))];
    let sum = taps.iter().fold(u64::from(extra), |sum, &(i, factor)| sum + u64::from(a[i]) * factor);
    match (sum % u64::from(TOP)) as u32 {
        0 => TOP,
        cell => cell,
    }
}

/// W of 8.6.3 b).
fn w(s: &State) -> u32 {
    let x0 = (high(s[15]) << 16) | low(s[14]);
    (x0 ^ s[16]).wrapping_add(s[17])
}

/// Next of 8.6.3, in INIT mode or not.
fn step(s: &mut State, init: bool) {
    let x1 = (low(s[11]) << 16) | high(s[9]);
    let x2 = (low(s[7]) << 16) | high(s[5]);
    let extra = if init { w(s) >> 1 } else { 0 };
    let w1 = s[16].wrapping_add(x1);
    let w2 = s[17] ^ x2;
    let cell = feedback(s, extra);
    s.copy_within(1..16, 0);
    s[15] = cell;
    s[16] = ss(l1((w1 << 16) | (w2 >> 16)));
    s[17] = ss(l2((w2 << 16) | (w1 >> 16)));
}

pub struct Zuc;

impl Cipher for Zuc {
    fn shape(&self) -> Shape {
        Shape { number: 1, key: 16, iv: 16, unit: 4, state: 72 }
    }

    fn init(&self, key: &[u8], iv: &[u8]) -> State {
        let mut state = load(key, iv);
        for _ in 0..32 {
            step(&mut state, true);
        }
        step(&mut state, false);
        state
    }

    fn next(&self, state: &mut State) {
        step(state, false);
    }

    fn strm(&self, s: &State) -> Vec<u8> {
        let x3 = (low(s[2]) << 16) | high(s[0]);
        (w(s) ^ x3).to_be_bytes().to_vec()
    }

    fn admits(&self, state: &State) -> bool {
        state[..16].iter().all(|cell| (1..=TOP).contains(cell))
    }
}

#[cfg(test)]
mod tests {
    use super::*;

    #[test]
    fn substitutions_are_permutations() {
        for table in [&SUB1, &SUB2] {
            let mut sorted = *table;
            sorted.sort();
            assert!(sorted.iter().enumerate().all(|(i, &b)| i == usize::from(b)));
        }
    }

    #[test]
    fn constants_have_the_values_of_document_01() {
        let values = [
            0x44D7, 0x26BC, 0x626B, 0x135E, 0x5789, 0x35E2, 0x7135, 0x09AF, 0x4D78, 0x2F13, 0x6BC4, 0x1AF1, 0x5E26,
            0x3C4D, 0x789A, 0x47AC,
        ];
        assert_eq!(D, values);
    }

    #[test]
    fn a_sum_of_zero_becomes_the_largest_cell() {
        assert_eq!(feedback(&[TOP; 16], 0), TOP);
        assert_eq!(feedback(&[TOP; 16], TOP), TOP);
        assert_eq!(feedback(&[TOP; 16], 1), 1);
    }
}
