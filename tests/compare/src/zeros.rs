//! ZUC's rarest step: cells, and keys with IVs, from which the sum that is fed back is 0 modulo 2^31 - 1, so that
//! it has to be mended. A random state has one chance in 2^31.

use crate::random::Random;
use crate::zuc::{feedback, load, TOP};

const P: u64 = TOP as u64;

/// Chooses cell 0 so that the sum is 0 in an ordinary step.
pub fn cells(cells: &mut [u32; 16]) {
    cells[0] = mended_cell(cells, 0);
}

/// The cell 0 with which the sum, `extra` included, is 0. The sum goes up by 257 with each 1 added to the cell, so
/// the cell goes up by what the sum lacks, divided by 257.
fn mended_cell(cells: &[u32], extra: u32) -> u32 {
    let lacks = P - u64::from(feedback(cells, extra));
    let cell = (u64::from(cells[0]) + lacks * PART) % P;
    if cell == 0 {
        TOP
    } else {
        cell as u32
    }
}

/// The inverse of 257 modulo the prime 2^31 - 1, as the power 2^31 - 3.
const PART: u64 = {
    let (mut result, mut square, mut rest) = (1, 257, P - 2);
    while rest > 0 {
        if rest % 2 == 1 {
            result = result * square % P;
        }
        square = square * square % P;
        rest /= 2;
    }
    result
};

/// The bits of a cell that hold its constant.
const MIDDLE: u32 = 0x007F_FF00;

/// A key and an IV, 16 bytes each, whose first INIT step feeds back 0 before it is mended. Bytes 4 of both are
/// tried until the cell 0 that makes it so has the constant of that cell in it.
pub fn key_and_iv(random: &mut Random) -> (Vec<u8>, Vec<u8>) {
    loop {
        let (mut key, mut iv) = (random.bytes(16), random.bytes(16));
        let mut cells = load(&key, &iv);
        let extra = first_extra(&cells);
        for (k, v) in (0..=255).flat_map(|k: u8| (0..=255).map(move |v: u8| (k, v))) {
            cells[4] = (cells[4] & MIDDLE) | (u32::from(k) << 23) | u32::from(v);
            let cell = mended_cell(&cells, extra);
            if (cell ^ cells[0]) & MIDDLE == 0 {
                (key[4], iv[4]) = (k, v);
                (key[0], iv[0]) = ((cell >> 23) as u8, cell as u8);
                return (key, iv);
            }
        }
    }
}

/// What the first INIT step adds to the taps: W without its lowest bit, where W is X0 as R1 and R2 are 0.
fn first_extra(cells: &[u32]) -> u32 {
    (((cells[15] >> 15) << 16) | (cells[14] & 0xFFFF)) >> 1
}

#[cfg(test)]
mod tests {
    use super::*;

    #[test]
    fn cells_are_made_to_sum_to_zero() {
        let mut random = Random::new(1, 2);
        for _ in 0..100 {
            let mut some = [0; 16].map(|_: u32| random.between(1, P) as u32);
            cells(&mut some);
            assert_eq!(feedback(&some, 0), TOP);
            assert_eq!(feedback(&some, 1), 1);
        }
    }

    #[test]
    fn keys_are_found_whose_first_step_feeds_back_zero() {
        let mut random = Random::new(1, 3);
        for _ in 0..3 {
            let (key, iv) = key_and_iv(&mut random);
            let loaded = load(&key, &iv);
            assert_eq!(feedback(&loaded, first_extra(&loaded)), TOP);
            assert_eq!(feedback(&loaded, first_extra(&loaded) + 1), 1);
        }
    }
}
