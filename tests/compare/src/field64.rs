//! The field of blocks, GF(2^64), worked out bit by bit. The first bit of a block is the coefficient of x^63 (annex B).

/// x^64 + x^4 + x^3 + x + 1 (6.2.3, NOTE 2).
const POLY: u128 = (1 << 64) | 0x1B;

/// The product of two blocks: that of the polynomials, and what a division by `POLY` leaves of it.
pub fn times(a: u64, b: u64) -> u64 {
    divided(product(a.into(), b.into()), POLY).1 as u64
}

/// The inverse of a block that isn't 0, by Euclid's algorithm (annex B).
pub fn inverse(a: u64) -> u64 {
    assert_ne!(a, 0, "0 has no inverse");
    let (mut above, mut below) = ((POLY, 0), (a.into(), 1));
    while below.0 != 0 {
        let (quotient, rest) = divided(above.0, below.0);
        (above, below) = (below, (rest, above.1 ^ product(quotient, below.1)));
    }
    above.1 as u64
}

/// The product of two polynomials whose degrees are below 128 together.
fn product(a: u128, b: u128) -> u128 {
    (0..=64).filter(|power| (b >> power) & 1 == 1).fold(0, |sum, power| sum ^ (a << power))
}

/// The quotient and the rest of a division of polynomials; the divisor isn't 0.
fn divided(a: u128, by: u128) -> (u128, u128) {
    let (mut quotient, mut rest) = (0, a);
    while rest.leading_zeros() <= by.leading_zeros() {
        let power = by.leading_zeros() - rest.leading_zeros();
        quotient ^= 1 << power;
        rest ^= by << power;
    }
    (quotient, rest)
}

#[cfg(test)]
mod tests {
    use super::*;
    use crate::random::Random;

    const X: u64 = 2;

    /// `a` to the power 2^n.
    fn squared(a: u64, n: usize) -> u64 {
        (0..n).fold(a, |a, _| times(a, a))
    }

    #[test]
    fn products_are_those_of_polynomials() {
        assert_eq!(times(0b1011, 0b110), 0b11_1010);
        assert_eq!(times(1 << 63, X), 0x1B);
        assert_eq!(times(1 << 63, 1 << 63), times(0x1B, 1 << 62));
        assert_eq!(times(0x1B, 1 << 62), (3 << 62) ^ (0x1B << 2) ^ (0x1B << 1));
    }

    #[test]
    fn the_polynomial_has_no_factor() {
        // x^(2^64) is x, and x^(2^32) - x has no factor in common with the polynomial: it has an inverse.
        assert_eq!(squared(X, 64), X);
        let difference = squared(X, 32) ^ X;
        assert_eq!(times(difference, inverse(difference)), 1);
    }

    #[test]
    fn blocks_have_inverses_and_products_are_a_fields() {
        let mut random = Random::new(1, 64);
        for a in (0..64).map(|power| 1 << power).chain([u64::MAX]) {
            assert_eq!(times(a, inverse(a)), 1);
        }
        for _ in 0..500 {
            let [a, b, c] = [random.draw(), random.draw(), random.draw()];
            assert_eq!(times(a, b), times(b, a));
            assert_eq!(times(a, times(b, c)), times(times(a, b), c));
            assert_eq!(times(a, b ^ c), times(a, b) ^ times(a, c));
            assert_eq!(times(a, inverse(a)), 1);
            assert_eq!(squared(a, 64), a);
        }
    }
}
