//! The field of bytes, GF(2^8), worked out bit by bit. Its polynomial is a parameter, written with its x^8: 0x11B
//! is AES's.

/// The product of `a` and x.
pub const fn times_x(a: u8, poly: u16) -> u8 {
    let doubled = (a as u16) << 1;
    if doubled > 0xFF {
        (doubled ^ poly) as u8
    } else {
        doubled as u8
    }
}

/// The product of `a` and `b`, by Horner's rule over the bits of `b` from the top.
pub const fn times(a: u8, b: u8, poly: u16) -> u8 {
    let mut product = 0;
    let mut bit = 8;
    while bit > 0 {
        bit -= 1;
        product = times_x(product, poly);
        if (b >> bit) & 1 == 1 {
            product ^= a;
        }
    }
    product
}

/// x to the power `n`; 1 for n = 0.
pub const fn power_of_x(n: u32, poly: u16) -> u8 {
    let mut power = 1;
    let mut i = 0;
    while i < n {
        power = times_x(power, poly);
        i += 1;
    }
    power
}

/// The inverse of `a`, as the power 254 = 2 + 4 + ... + 128; 0 for 0.
pub const fn inverse(a: u8, poly: u16) -> u8 {
    let mut square = a;
    let mut product = 1;
    let mut i = 0;
    while i < 7 {
        square = times(square, square, poly);
        product = times(product, square, poly);
        i += 1;
    }
    product
}

/// For each byte c the word whose bytes, first to last, are c times x to the powers `exponents`.
///
/// A word is a polynomial of degree 3 over the bytes. If y^4 has these coefficients, the word for c is c·y^4, so
/// that y·w is w shifted up by a byte plus the word for the byte that falls out.
pub const fn multiples(exponents: [u32; 4], poly: u16) -> [u32; 256] {
    let mut words = [0; 256];
    let mut c = 0;
    while c < 256 {
        let mut part = 0;
        while part < 4 {
            let byte = times(c as u8, power_of_x(exponents[part], poly), poly);
            words[c] = (words[c] << 8) | byte as u32;
            part += 1;
        }
        c += 1;
    }
    words
}

#[cfg(test)]
mod tests {
    use super::*;

    const POLYNOMIALS: [u16; 7] = [0x11B, 0x18B, 0x1A9, 0x1C3, 0x12D, 0x14D, 0x165];

    #[test]
    fn every_byte_but_zero_has_an_inverse() {
        for poly in POLYNOMIALS {
            for a in 1..=255 {
                assert_eq!(times(a, inverse(a, poly), poly), 1);
            }
            assert_eq!(inverse(0, poly), 0);
        }
    }

    #[test]
    fn x_has_order_255_in_the_fields_of_the_alphas() {
        for poly in &POLYNOMIALS[2..] {
            assert!((1..255).all(|n| power_of_x(n, *poly) != 1));
            assert_eq!(power_of_x(255, *poly), 1);
        }
    }
}
