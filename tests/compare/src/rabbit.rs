//! Rabbit (7.3 of the amendment). Its state is X0..X7, C0..C7 and the carry; bytes of key, IV and keystream count
//! from the lowest (C.4.1), and S(0) is the state that the clause calls S1, from which annex C takes the first
//! block.

use crate::cipher::{words, Cipher, Shape, State};

/// Where the counters and the carry stand in a state.
const C: usize = 8;
const CARRY: usize = 16;

/// A of index j: eight digits of 4D3 repeated, from digit j mod 3 on.
fn a(j: usize) -> u32 {
    let digits: u64 = 0x4D34D34D34;
    (digits >> (4 * (2 - j % 3))) as u32
}

/// g of 7.3.5: the halves of the square of the sum, added by XOR.
pub fn g(u: u32, v: u32) -> u32 {
    let square = u64::from(u.wrapping_add(v)).pow(2);
    (square as u32) ^ ((square >> 32) as u32)
}

/// Steps 2 to 4 of 7.3.3: the counters, with a carry from each to the next and on to the next step.
fn count(s: &mut State) {
    let mut carry = u64::from(s[CARRY]);
    for j in 0..8 {
        let sum = u64::from(s[C + j]) + u64::from(a(j)) + carry;
        s[C + j] = sum as u32;
        carry = sum >> 32;
    }
    s[CARRY] = carry as u32;
}

/// Next of 7.3.3.
fn step(s: &mut State) {
    count(s);
    let mut gs = [0; 8];
    for (j, value) in gs.iter_mut().enumerate() {
        *value = g(s[j], s[C + j]);
    }
    for j in 0..8 {
        let (before, second) = (gs[(j + 7) % 8], gs[(j + 6) % 8]);
        let (r, q) = if j % 2 == 0 { (16, 16) } else { (8, 0) };
        s[j] = gs[j].wrapping_add(before.rotate_left(r)).wrapping_add(second.rotate_left(q));
    }
}

fn steps(s: &mut State, times: usize) {
    (0..times).for_each(|_| step(s));
}

/// The state before the first step: 16-bit parts of the key, by 7.3.2 step 2.
pub fn load(key: &[u8]) -> State {
    let k = |i: usize| u32::from(key[2 * (i % 8)]) | (u32::from(key[2 * (i % 8) + 1]) << 8);
    let joined = |high: usize, low: usize| (k(high) << 16) | k(low);
    let even = |j: usize| j.is_multiple_of(2);
    let x = |j: usize| {
        if even(j) {
            joined(j + 1, j)
        } else {
            joined(j + 5, j + 4)
        }
    };
    let c = |j: usize| {
        if even(j) {
            joined(j + 4, j + 5)
        } else {
            joined(j, j + 1)
        }
    };
    (0..8).map(x).chain((0..8).map(c)).chain([0]).collect()
}

/// The state of a key after step 3 of 7.3.2, which no IV is in.
pub fn master(key: &[u8]) -> State {
    let mut state = load(key);
    steps(&mut state, 4);
    state
}

/// S(0) of such a state and an IV, by steps 4 and 5 and the step to S1.
pub fn started(mut state: State, iv: &[u8]) -> State {
    add_iv(&mut state, iv);
    steps(&mut state, 4 + 1);
    state
}

/// Step 4 of 7.3.2: into counter j go X of index j + 4 and two 16-bit parts of the IV.
fn add_iv(s: &mut State, iv: &[u8]) {
    let part = |i: usize| u32::from(iv[2 * i]) | (u32::from(iv[2 * i + 1]) << 8);
    let pairs = [(1, 0), (3, 1), (3, 2), (2, 0)];
    for j in 0..8 {
        let (high, low) = pairs[j % 4];
        s[C + j] ^= s[(j + 4) % 8] ^ (part(high) << 16) ^ part(low);
    }
}

pub struct Rabbit;

impl Cipher for Rabbit {
    fn shape(&self) -> Shape {
        Shape { number: 2, key: 16, iv: 8, unit: 16, state: 65 }
    }

    fn init(&self, key: &[u8], iv: &[u8]) -> State {
        started(master(key), iv)
    }

    /// The bytes of the state that the key alone gives, in the key's stead.
    fn load(&self, key: &[u8]) -> Vec<u8> {
        self.state_bytes(&master(key))
    }

    fn kept(&self) -> usize {
        self.shape().state
    }

    fn keeps(&self, kept: &[u8]) -> bool {
        self.admits(&self.state_of(kept))
    }

    fn start(&self, kept: &[u8], iv: &[u8]) -> State {
        started(self.state_of(kept), iv)
    }

    fn next(&self, state: &mut State) {
        step(state);
    }

    /// Two 16-bit parts for each X of even index, lowest part first, each with its low byte first.
    fn strm(&self, s: &State) -> Vec<u8> {
        let parts = (0..8).step_by(2).flat_map(|j| {
            let (fifth, third) = (s[(j + 5) % 8], s[(j + 3) % 8]);
            [s[j] as u16 ^ (fifth >> 16) as u16, (s[j] >> 16) as u16 ^ third as u16]
        });
        parts.flat_map(u16::to_le_bytes).collect()
    }

    fn state_bytes(&self, state: &State) -> Vec<u8> {
        let mut bytes: Vec<u8> = state[..CARRY].iter().flat_map(|w| w.to_be_bytes()).collect();
        bytes.push(state[CARRY] as u8);
        bytes
    }

    fn state_of(&self, bytes: &[u8]) -> State {
        let mut state = words(&bytes[..64]);
        state.push(u32::from(bytes[64]));
        state
    }

    fn admits(&self, state: &State) -> bool {
        state[CARRY] <= 1
    }
}

#[cfg(test)]
mod tests {
    use super::*;

    #[test]
    fn constants_are_those_of_the_clause() {
        let printed = [0x4D34D34D, 0xD34D34D3, 0x34D34D34, 0x4D34D34D, 0xD34D34D3, 0x34D34D34, 0x4D34D34D, 0xD34D34D3];
        assert!((0..8).all(|j| a(j) == printed[j]));
    }

    #[test]
    fn key_expansion_is_that_of_annex_c() {
        let key: Vec<u8> = (0..16).collect();
        let s = load(&key);
        assert_eq!(s[..4], [0x03020100, 0x0D0C0B0A, 0x07060504, 0x01000F0E]);
        assert_eq!(s[8..12], [0x09080B0A, 0x03020504, 0x0D0C0F0E, 0x07060908]);
    }
}
