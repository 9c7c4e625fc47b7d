//! MUGI (8.1). Its state is a0..a2, then b0..b15, blocks of 64 bits that are two words of a state each, the high one
//! first.

use crate::aes::column;
use crate::cipher::{words, Cipher, Shape, State};

/// A string of 64 bits.
type Block = u64;

/// The constants of 8.1.1.
const D: [Block; 3] = [0x6A09_E667_F3BC_C908, 0xBB67_AE85_84CA_A73B, 0x3C6E_F372_FE94_F82B];

/// How many blocks a has; b's come after them.
const A: usize = 3;

/// The blocks of a string of words.
fn blocks(words: &[u32]) -> Vec<Block> {
    words.chunks_exact(2).map(|pair| (Block::from(pair[0]) << 32) | Block::from(pair[1])).collect()
}

/// A state with these blocks.
fn state(a: &[Block; A], b: &[Block]) -> State {
    a.iter().chain(b).flat_map(|block| [(block >> 32) as u32, *block as u32]).collect()
}

/// F of 8.1.7: the columns of both halves, with the first two bytes of one and of the other exchanged.
fn f(x: Block, t: Block) -> Block {
    let [x0, x1, x2, x3, x4, x5, x6, x7] = (x ^ t).to_be_bytes();
    let [q0, q1, q2, q3] = column([x0, x1, x2, x3]);
    let [q4, q5, q6, q7] = column([x4, x5, x6, x7]);
    Block::from_be_bytes([q4, q5, q2, q3, q0, q1, q6, q7])
}

/// rho1 of 8.1.5.
fn rho(a: &mut [Block; A], w1: Block, w2: Block) {
    let [a0, a1, a2] = *a;
    *a = [a1, a2 ^ f(a1, w1) ^ D[1], a0 ^ f(a1, w2.rotate_left(17)) ^ D[2]];
}

/// lambda1 of 8.1.6: b moves up by a block, and three blocks go in by XOR.
fn lambda(b: &mut [Block], a0: Block) {
    let (b7, b13) = (b[7], b[13]);
    b.rotate_right(1);
    b[0] ^= a0;
    b[4] ^= b7;
    b[10] ^= b13.rotate_left(32);
}

/// Next of 8.1.3.
fn step(s: &mut State) {
    let mut all = blocks(s);
    let (first, b) = all.split_at_mut(A);
    let mut a = [first[0], first[1], first[2]];
    rho(&mut a, b[4], b[10]);
    lambda(b, first[0]);
    *s = state(&a, b);
}

/// What a key or an IV, of 16 bytes, comes to as three blocks: steps a) and d) of 8.1.2.
fn spread(bytes: &[u8]) -> [Block; A] {
    let halves = blocks(&words(bytes));
    let (left, right) = (halves[0], halves[1]);
    [left, right, left.rotate_left(7) ^ right.rotate_right(7) ^ D[0]]
}

/// Steps a) to f) of 8.1.2: sixteen times rho1 on the key gives b, from b15 down; sixteen times more, with the IV
/// added, gives a.
fn load(key: &[u8], iv: &[u8]) -> State {
    let (mut a, mut b) = (spread(key), [0; 16]);
    for block in b.iter_mut().rev() {
        rho(&mut a, 0, 0);
        *block = a[0];
    }
    for (block, part) in a.iter_mut().zip(spread(iv)) {
        *block ^= part;
    }
    for _ in 0..16 {
        rho(&mut a, 0, 0);
    }
    state(&a, &b)
}

pub struct Mugi;

impl Cipher for Mugi {
    fn shape(&self) -> Shape {
        Shape { number: 6, key: 16, iv: 16, unit: 8, state: 152 }
    }

    fn init(&self, key: &[u8], iv: &[u8]) -> State {
        let mut state = load(key, iv);
        for _ in 0..16 {
            step(&mut state);
        }
        state
    }

    fn next(&self, state: &mut State) {
        step(state);
    }

    /// The block a2.
    fn strm(&self, s: &State) -> Vec<u8> {
        s[4..6].iter().flat_map(|word| word.to_be_bytes()).collect()
    }
}

#[cfg(test)]
mod tests {
    use super::*;

    fn key_and_iv() -> (Vec<u8>, Vec<u8>) {
        ((0..16).collect(), (0..16).rev().map(|i| i << 4).collect())
    }

    #[test]
    fn rho_is_that_of_annex_c() {
        let mut a = spread(&key_and_iv().0);
        assert_eq!(a, [0x0001020304050607, 0x08090A0B0C0D0E0F, 0x7498F5F1E727D094]);
        rho(&mut a, 0, 0);
        assert_eq!(a, [0x08090A0B0C0D0E0F, 0x9724D9144C5D8926, 0x64B47311D52100A5]);
    }

    #[test]
    fn set_up_is_that_of_annex_c() {
        let (key, iv) = key_and_iv();
        let mut s = load(&key, &iv);
        let loaded = blocks(&s);
        assert_eq!(loaded[..A], [0x4E466DFFCB92DB48, 0xF5EB67B928359D8B, 0x5D3C31A0AF9CD78F]);
        assert_eq!(loaded[A..A + 2], [0x7DEA261CB61D4FEA, 0xBFE2485AC2696CC7]);
        assert_eq!(loaded[A + 14..], [0x9724D9144C5D8926, 0x08090A0B0C0D0E0F]);
        step(&mut s);
        let next = blocks(&s);
        assert_eq!(next[..A], [0xF5EB67B928359D8B, 0xACE6A90BDE0AF786, 0x529108C358FA4ADA]);
        let fed = [next[A], next[A + 4], next[A + 10]];
        assert_eq!(fed, [0x464F67F4C79FD547, 0xDDBD859802A3037A, 0x7CC1D86F463A1830]);
    }
}
