//! AES's byte substitution, from the inverse in its field and its affine map, and its product of a column of four
//! bytes: with the first byte highest it is that of MUGI (8.1.7), with the first byte lowest the function T of SNOW
//! 2.0 (8.2.5), which is Sub of KCipher-2 too (8.5.5).

use crate::field::{inverse, times_x};

const POLY: u16 = 0x11B;

/// SUB[a] is the affine map of the inverse of a.
pub static SUB: [u8; 256] = {
    let mut table = [0; 256];
    let mut a = 0;
    while a < 256 {
        table[a] = affine(inverse(a as u8, POLY));
        a += 1;
    }
    table
};

/// Bit i of the result is the sum of bits i, i + 4, ..., i + 7 of `a`, indices modulo 8, and of bit i of 63.
const fn affine(a: u8) -> u8 {
    a ^ a.rotate_left(1) ^ a.rotate_left(2) ^ a.rotate_left(3) ^ a.rotate_left(4) ^ 0x63
}

/// Each byte substituted, then the product with (x+1)y^3 + y^2 + y + x modulo y^4 + 1, byte i the coefficient of y^i.
pub fn column(bytes: [u8; 4]) -> [u8; 4] {
    let mut q = [0; 4];
    for (j, byte) in bytes.into_iter().enumerate() {
        let once = SUB[byte as usize];
        let twice = times_x(once, POLY);
        let factors = [twice, once, once, twice ^ once];
        for (i, product) in factors.into_iter().enumerate() {
            q[(i + j) % 4] ^= product;
        }
    }
    q
}

/// T(w).
pub fn t(w: u32) -> u32 {
    u32::from_le_bytes(column(w.to_le_bytes()))
}

#[cfg(test)]
mod tests {
    use super::*;

    #[test]
    fn substitution_has_the_printed_corners() {
        assert_eq!([SUB[0], SUB[1], SUB[0x53], SUB[255]], [0x63, 0x7C, 0xED, 0x16]);
    }

    #[test]
    fn column_product_is_that_of_the_aes_standard() {
        // The inverse substitution of DB 13 53 45, whose MixColumn is 8E 4D A1 BC.
        let unsub = |b: u8| SUB.iter().position(|&s| s == b).unwrap() as u8;
        let word = u32::from_le_bytes([0xDB, 0x13, 0x53, 0x45].map(unsub));
        assert_eq!(t(word).to_le_bytes(), [0x8E, 0x4D, 0xA1, 0xBC]);
    }
}
