//! The ciphers that a line can be opened with.

/// A cipher, with the lengths of its key and IV in bytes. A shorter key or IV stands first, with zeros after it.
#[derive(Clone, Copy, Debug, PartialEq, Eq, Hash)]
#[non_exhaustive]
pub enum Cipher {
    /// ZUC: key 16, IV 16.
    Zuc = 1,
    /// Rabbit: key 16, IV 8.
    Rabbit = 2,
    /// SNOW 2.0 with a key of 16 bytes: IV 16.
    Snow2Key16 = 3,
    /// SNOW 2.0 with a key of 32 bytes: IV 16.
    Snow2Key32 = 4,
    /// KCipher-2: key 16, IV 16.
    KCipher2 = 5,
    /// MUGI: key 16, IV 16.
    Mugi = 6,
}

impl Cipher {
    /// The cipher's number in commands and images.
    pub const fn number(self) -> u8 {
        self as u8
    }
}
