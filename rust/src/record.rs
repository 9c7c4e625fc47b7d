//! Records that are sealed as a whole, so that a changed one is refused when it is opened.

use crate::command::{IV, KEY};
use crate::{raw_seal, raw_unseal, Cipher, Refusal};

/// The longest message that can be sealed, in bytes.
pub const MESSAGE: usize = 16_384;

/// The bytes that sealing adds to a message.
pub const SEAL: usize = 16;

/// The bytes of a redundancy.
pub const REDUNDANCY: usize = 8;

/// Seals a message of at most [`MESSAGE`] bytes, a multiple of 8 (MULTI-S01 of ISO/IEC 18033-4). The sealed message has
/// [`SEAL`] bytes more and goes to the start of `out`; the bytes after it are not changed. Returns how many were written.
///
/// Key and IV stand in their arrays as in [`command::open_own`](crate::command::open_own). The redundancy is eight bytes
/// that both ends know; it need not be secret. An empty message can be sealed.
///
/// A pair of key and IV seals one message. Do not use it for a second message, nor for a line: both would use the same
/// keystream, and no check notices it.
///
/// Refused with code 23, 4, 7, 16, 12 or 24, the first that applies; `out` is then as it was.
///
/// ```
/// use pipeshear::{seal, unseal, Cipher, SEAL};
///
/// let (mut key, iv, redundancy) = ([0; 32], [9; 16], [0; 8]);
/// key[..16].copy_from_slice(b"the record's key");
/// let message = b"room 107, 12 min";
///
/// let mut sealed = [0; 16 + SEAL];
/// assert_eq!(seal(Cipher::Zuc, &key, &iv, &redundancy, message, &mut sealed)?, 32);
///
/// let mut opened = [0; 16];
/// assert_eq!(unseal(Cipher::Zuc, &key, &iv, &redundancy, &sealed, &mut opened)?, 16);
/// assert_eq!(&opened, message);
///
/// sealed[3] ^= 1;
/// let refusal = unseal(Cipher::Zuc, &key, &iv, &redundancy, &sealed, &mut opened).unwrap_err();
/// assert_eq!(refusal.code(), 24);
/// # Ok::<(), pipeshear::Refusal>(())
/// ```
pub fn seal(
    cipher: Cipher,
    key: &[u8; KEY],
    iv: &[u8; IV],
    redundancy: &[u8; REDUNDANCY],
    message: &[u8],
    out: &mut [u8],
) -> Result<usize, Refusal> {
    let mut written = [0];
    answer(raw_seal(cipher.number(), key, iv, redundancy, message, out, &mut written), written)
}

/// Opens a sealed message with the cipher, key, IV and redundancy that it was sealed with. The message, which has
/// [`SEAL`] bytes fewer, goes to the start of `out`; the bytes after it are not changed. Returns how many were written.
///
/// Nothing is written before the whole is tested: a sealed message whose redundancy or padding is wrong is refused with
/// code 24, and `out` is as it was. One of which a single block of eight bytes was changed is always refused. Another text
/// that nobody sealed may be accepted by chance: annex D of ISO/IEC 18033-4 gives (u - 2) in 2^64 for a forged text of u
/// blocks. The other refusals are those of [`seal()`].
pub fn unseal(
    cipher: Cipher,
    key: &[u8; KEY],
    iv: &[u8; IV],
    redundancy: &[u8; REDUNDANCY],
    sealed: &[u8],
    out: &mut [u8],
) -> Result<usize, Refusal> {
    let mut written = [0];
    answer(raw_unseal(cipher.number(), key, iv, redundancy, sealed, out, &mut written), written)
}

/// The bytes written, or the refusal.
fn answer(code: u8, written: [usize; 1]) -> Result<usize, Refusal> {
    Refusal::new(code).map_or(Ok(written[0]), Err)
}

#[cfg(test)]
mod tests {
    use super::*;

    const TERMS: (Cipher, [u8; KEY], [u8; IV], [u8; REDUNDANCY]) = (Cipher::Snow2Key32, [7; KEY], [8; IV], [9; 8]);

    /// The message sealed, in a buffer that it fills.
    fn sealed(message: &[u8]) -> Result<Vec<u8>, Refusal> {
        let (cipher, key, iv, redundancy) = TERMS;
        let mut out = vec![0; message.len() + SEAL];
        let written = seal(cipher, &key, &iv, &redundancy, message, &mut out)?;
        assert_eq!(written, out.len());
        Ok(out)
    }

    #[test]
    fn every_cipher_opens_what_it_seals() {
        use Cipher::*;
        for cipher in [Zuc, Rabbit, Snow2Key16, Snow2Key32, KCipher2, Mugi] {
            let (mut key, mut iv) = ([0; KEY], [0; IV]);
            key[..16].fill(3);
            iv[..8].fill(4);
            let (mut out, mut back) = ([5; 60], [6; 60]);
            assert_eq!(seal(cipher, &key, &iv, &[1; 8], &[2; 40], &mut out), Ok(56));
            assert_eq!(out[56..], [5; 4]);
            assert_eq!(unseal(cipher, &key, &iv, &[1; 8], &out[..56], &mut back), Ok(40));
            assert_eq!((&back[..40], &back[40..]), (&[2; 40][..], &[6; 20][..]));
        }
    }

    #[test]
    fn the_shortest_and_the_longest_message_are_sealed() {
        assert_eq!(sealed(&[]).unwrap().len(), SEAL);
        assert_eq!(sealed(&[1; MESSAGE]).unwrap().len(), MESSAGE + SEAL);
        assert_eq!(sealed(&[1; MESSAGE + 8]).unwrap_err().code(), 23);
        assert_eq!(sealed(&[1; 9]).unwrap_err().code(), 23);
    }

    #[test]
    fn a_refusal_leaves_out_as_it_was() {
        let (cipher, key, iv, redundancy) = TERMS;
        let mut changed = sealed(b"room 107, 12 min").unwrap();
        changed[31] ^= 0x80;
        let mut out = [5; 16];
        let code = |refused: Result<usize, Refusal>| refused.unwrap_err().code();
        assert_eq!(code(unseal(cipher, &key, &iv, &redundancy, &changed, &mut out)), 24);
        assert_eq!(code(unseal(cipher, &key, &iv, &redundancy, &changed, &mut out[..15])), 12);
        assert_eq!(code(unseal(cipher, &key, &iv, &redundancy, &changed[1..], &mut out)), 23);
        assert_eq!(code(seal(Cipher::Zuc, &key, &iv, &redundancy, &[], &mut out)), 7);
        assert_eq!(code(seal(cipher, &[0; KEY], &iv, &redundancy, &[], &mut out)), 16);
        assert_eq!(out, [5; 16]);
    }
}
