//! A card as a value: its words, and the call on them.

use crate::{raw_call, Refusal};
use std::fmt;

/// A card of eight lines. A new one has all lines idle and has made no park.
///
/// The words of a card determine the keystreams of its lines, and a loaded line has its key in them: protect them like
/// keys. They are not shown by `Debug` and not wiped on drop. A clone continues the same keystreams as the card it was made
/// from and accepts the same images, so continue with only one of the two.
#[derive(Clone, PartialEq, Eq)]
pub struct Card {
    words: [u32; Card::WORDS],
}

/// What an accepted command used and wrote.
#[derive(Clone, Copy, Debug, PartialEq, Eq)]
pub struct Counts {
    /// Bytes used of the command: its whole length, without what comes after it.
    pub used_command: usize,
    /// Bytes used of the data.
    pub used_data: usize,
    /// Bytes written to out, from the first on.
    pub written: usize,
}

impl Card {
    /// The words of a card.
    pub const WORDS: usize = 672;

    /// A fresh card, with all lines idle and no park made.
    pub const fn new() -> Card {
        Card { words: [0; Card::WORDS] }
    }

    /// A card from its saved words. They are not checked here: if they are not a valid card, the next call is refused
    /// with code 255.
    ///
    /// ```
    /// use pipeshear::{command, Card};
    ///
    /// let kept = *Card::new().words();
    /// assert_eq!(Card::from_words(kept), Card::new());
    /// let refusal = Card::from_words([1; Card::WORDS]).call(&command::close(0), &[], &[], &mut []).unwrap_err();
    /// assert_eq!(refusal.code(), 255);
    /// ```
    pub const fn from_words(words: [u32; Card::WORDS]) -> Card {
        Card { words }
    }

    /// The words of the card, for saving.
    pub const fn words(&self) -> &[u32; Card::WORDS] {
        &self.words
    }

    /// Runs the first command in `command`; bytes after it are ignored.
    ///
    /// The key tray has 32 bytes for each key and is read only by an open from the tray, by a change of key and by a load.
    /// A crypt takes its bytes from the start of `data`. Crypt and park write to the start of `out`; the bytes after those
    /// written are not changed. A refused command changes neither the card nor `out`.
    ///
    /// ```
    /// use pipeshear::{command, Card, IMAGE};
    ///
    /// let refusal = Card::new().call(&command::park(4), &[], &[], &mut [0; IMAGE]).unwrap_err();
    /// let text = "crypt, park or change on a line that is not open, or close on an idle line (code 6)";
    /// assert_eq!(refusal.to_string(), text);
    /// ```
    pub fn call(&mut self, command: &[u8], tray: &[u8], data: &[u8], out: &mut [u8]) -> Result<Counts, Refusal> {
        let mut counts = [0; 3];
        let code = raw_call(&mut self.words, command, tray, data, out, &mut counts);
        let [used_command, used_data, written] = counts;
        match Refusal::new(code) {
            None => Ok(Counts { used_command, used_data, written }),
            Some(refusal) => Err(refusal),
        }
    }
}

impl Default for Card {
    fn default() -> Card {
        Card::new()
    }
}

/// Does not show the words.
impl fmt::Debug for Card {
    fn fmt(&self, f: &mut fmt::Formatter<'_>) -> fmt::Result {
        f.debug_struct("Card").finish_non_exhaustive()
    }
}

#[cfg(test)]
mod tests {
    use super::*;
    use crate::{command, Cipher, IMAGE};

    fn opened() -> Card {
        let mut card = Card::new();
        card.call(&command::open_own(4, Cipher::Zuc, &key(16), &[0; 16]), &[], &[], &mut []).unwrap();
        card
    }

    /// The ciphers, with the lengths of their keys.
    const CIPHERS: [(Cipher, usize); 6] = [
        (Cipher::Zuc, 16),
        (Cipher::Rabbit, 16),
        (Cipher::Snow2Key16, 16),
        (Cipher::Snow2Key32, 32),
        (Cipher::KCipher2, 16),
        (Cipher::Mugi, 16),
    ];

    /// A key of that many bytes, of which only the last is not 0.
    fn key(length: usize) -> [u8; command::KEY] {
        let mut key = [0; command::KEY];
        key[length - 1] = 1;
        key
    }

    #[test]
    fn a_fresh_card_is_idle() {
        let mut card = Card::default();
        assert_eq!(card.words(), &[0; Card::WORDS]);
        for line in 0..8 {
            let refusal = card.call(&command::close(line), &[], &[], &mut []).unwrap_err();
            assert_eq!(refusal.code(), 6);
        }
        assert_eq!(card, Card::new());
    }

    #[test]
    fn a_card_that_was_kept_goes_on() {
        let mut card = opened();
        let mut kept = Card::from_words(*card.words());
        let (mut one, mut other) = ([0; 33], [0; 33]);
        let counts = card.call(&command::crypt(4, 33), &[], &[9; 33], &mut one);
        assert_eq!(counts, kept.call(&command::crypt(4, 33), &[], &[9; 33], &mut other));
        assert_eq!((one, card), (other, kept));
    }

    #[test]
    fn a_damaged_card_is_255_and_nothing_is_changed() {
        let words = *opened().words();
        for place in (0..Card::WORDS).filter(|&place| words[place] == 0) {
            let mut damaged = words;
            damaged[place] = 17;
            let (mut card, mut out) = (Card::from_words(damaged), [7; 5]);
            match card.call(&command::crypt(4, 5), &[], &[1; 5], &mut out) {
                Err(refusal) => assert_eq!((refusal.code(), card.words(), out), (255, &damaged, [7; 5])),
                // Line 4 may be at byte 17 as well, and 17 parks may have been made from any line.
                Ok(_) => assert!(place == 4 * 82 + 3 || (656..664).contains(&place)),
            }
        }
    }

    #[test]
    fn an_image_is_taken_up_once() {
        let (mut card, mut image) = (opened(), [0; IMAGE]);
        card.call(&command::park(4), &[], &[], &mut image).unwrap();
        let mut kept = Card::from_words(*card.words());
        kept.call(&command::resume(0, &image), &[], &[], &mut []).unwrap();
        for mut other in [kept, Card::new()] {
            let before = other.clone();
            let refusal = other.call(&command::resume(1, &image), &[], &[], &mut []).unwrap_err();
            assert_eq!((refusal.code(), other), (14, before));
        }
    }

    #[test]
    fn two_lines_hold_the_same_number() {
        let (mut card, mut one, mut other) = (opened(), [0; IMAGE], [0; IMAGE]);
        card.call(&command::open_own(6, Cipher::Rabbit, &key(16), &[0; 16]), &[], &[], &mut []).unwrap();
        card.call(&command::park(6), &[], &[], &mut other).unwrap();
        card.call(&command::park(4), &[], &[], &mut one).unwrap();
        assert_eq!((&one[9..14], &other[9..14]), (&[4, 0, 0, 0, 1][..], &[6, 0, 0, 0, 1][..]));
        card.call(&command::resume(6, &one), &[], &[], &mut []).unwrap();
        card.call(&command::resume(4, &other), &[], &[], &mut []).unwrap();
        for image in [one, other] {
            assert_eq!(card.call(&command::resume(0, &image), &[], &[], &mut []).unwrap_err().code(), 14);
        }
        one[9] = 8;
        assert_eq!(card.call(&command::resume(0, &one), &[], &[], &mut []).unwrap_err().code(), 8);
    }

    #[test]
    fn a_line_has_numbers_left_while_another_has_none() {
        let mut words = *opened().words();
        words[656 + 4] = u32::MAX;
        let mut card = Card::from_words(words);
        card.call(&command::open_own(5, Cipher::Zuc, &key(16), &[0; 16]), &[], &[], &mut []).unwrap();
        assert_eq!(card.call(&command::park(4), &[], &[], &mut [0; IMAGE]).unwrap_err().code(), 15);
        card.call(&command::park(5), &[], &[], &mut [0; IMAGE]).unwrap();
        assert_eq!((card.words()[656 + 5], card.words()[664 + 5]), (1, 1));
    }

    #[test]
    fn a_blank_key_is_16_and_nothing_is_changed() {
        let (blank, mut iv) = ([0; command::KEY], [0; command::IV]);
        iv[0] = 9;
        let refused = |command: &[u8], tray: &[u8]| {
            let (mut card, before) = (opened(), opened());
            let refusal = card.call(command, tray, &[], &mut []).unwrap_err();
            assert_eq!((refusal.code(), card), (16, before));
        };
        for (cipher, length) in CIPHERS {
            refused(&command::open_own(0, cipher, &blank, &iv), &key(length));
            refused(&command::open_tray(0, cipher, 1, &iv), &[key(length), blank].concat());
        }
    }

    #[test]
    fn a_key_with_its_last_byte_alone_is_taken() {
        for (cipher, length) in CIPHERS {
            let (mut one, mut other) = (Card::new(), Card::new());
            one.call(&command::open_own(7, cipher, &key(length), &[0; 16]), &[0; command::KEY], &[], &mut []).unwrap();
            other.call(&command::open_tray(7, cipher, 0, &[0; 16]), &key(length), &[], &mut []).unwrap();
            assert!(one == other && one != Card::new());
        }
    }

    /// A tray of one key for every cipher.
    fn tray() -> [u8; command::KEY] {
        let mut tray = [0; command::KEY];
        tray[..16].fill(7);
        tray
    }

    #[test]
    fn a_change_of_key_is_that_of_a_line_opened_with_the_new_key() {
        let mut iv = [0; command::IV];
        iv[..8].fill(5);
        for (cipher, length) in CIPHERS {
            let (mut card, mut other, mut out) = (Card::new(), Card::new(), [0; 40]);
            card.call(&command::open_own(4, cipher, &key(length), &[0; 16]), &[], &[], &mut []).unwrap();
            let mut same = card.clone();
            other.call(&command::open_tray(4, cipher, 0, &iv), &tray(), &[], &mut []).unwrap();
            let (mut old, mut new) = ([0; 13], [0; 27]);
            same.call(&command::crypt(4, 13), &[], &[1; 13], &mut old).unwrap();
            other.call(&command::crypt(4, 27), &[], &[1; 27], &mut new).unwrap();
            card.call(&command::change_key(4, 0, &iv, 13), &tray(), &[], &mut []).unwrap();
            card.call(&command::crypt(4, 40), &[], &[1; 40], &mut out).unwrap();
            assert_eq!(out[..], [&old[..], &new].concat());
            assert_eq!(card, other);
        }
    }

    #[test]
    fn a_change_of_key_waits_and_refuses_another_and_a_park() {
        let mut card = opened();
        let change = |position: u64| command::change_key(4, 0, &[5; 16], position);
        assert_eq!(card.call(&change((1 << 36) + 1), &tray(), &[], &mut []).unwrap_err().code(), 18);
        card.call(&change(9), &tray(), &[], &mut []).unwrap();
        let before = card.clone();
        assert_eq!(card.call(&change(20), &tray(), &[], &mut []).unwrap_err().code(), 17);
        assert_eq!(card.call(&command::park(4), &[], &[], &mut [0; IMAGE]).unwrap_err().code(), 17);
        assert_eq!(card, before);
        card.call(&command::crypt(4, 9), &[], &[0; 9], &mut [0; 9]).unwrap();
        card.call(&command::park(4), &[], &[], &mut [0; IMAGE]).unwrap();
    }

    #[test]
    fn a_close_drops_a_change_of_key() {
        let mut card = opened();
        card.call(&command::change_key(4, 0, &[5; 16], 9), &tray(), &[], &mut []).unwrap();
        card.call(&command::close(4), &[], &[], &mut []).unwrap();
        assert_eq!(card, Card::new());
    }

    #[test]
    fn a_load_and_a_start_are_an_open() {
        let mut iv = [0; command::IV];
        iv[..8].fill(5);
        for (cipher, _) in CIPHERS {
            let (mut card, mut other) = (Card::new(), Card::new());
            other.call(&command::open_tray(4, cipher, 0, &iv), &tray(), &[], &mut []).unwrap();
            card.call(&command::load(4, cipher, 0), &tray(), &[], &mut []).unwrap();
            assert!(card != other && card != Card::new());
            card.call(&command::start(4, &iv), &[], &[], &mut []).unwrap();
            assert_eq!(card, other);
        }
    }

    #[test]
    fn a_loaded_line_takes_a_start_or_a_close_and_nothing_else() {
        for (cipher, _) in CIPHERS {
            let mut card = Card::new();
            card.call(&command::load(4, cipher, 0), &tray(), &[], &mut []).unwrap();
            let before = card.clone();
            let mut code = |command: &[u8]| {
                let refusal = card.call(command, &tray(), &[0; 9], &mut [0; IMAGE]).unwrap_err();
                assert_eq!(card, before);
                refusal.code()
            };
            assert_eq!(code(&command::open_tray(4, cipher, 0, &[0; 16])), 5);
            assert_eq!(code(&command::open_own(4, cipher, &tray(), &[0; 16])), 5);
            assert_eq!(code(&command::resume(4, &[0; IMAGE])), 5);
            assert_eq!(code(&command::load(4, cipher, 0)), 5);
            assert_eq!(code(&command::crypt(4, 9)), 6);
            assert_eq!(code(&command::park(4)), 6);
            assert_eq!(code(&command::change_key(4, 0, &[0; 16], 0)), 6);
            assert_eq!(code(&command::start(3, &[0; 16])), 19);
            card.call(&command::close(4), &[], &[], &mut []).unwrap();
            assert_eq!(card, Card::new());
        }
    }

    #[test]
    fn a_start_of_a_line_that_is_not_loaded_is_19() {
        for mut card in [Card::new(), opened()] {
            let before = card.clone();
            let refusal = card.call(&command::start(4, &[5; 16]), &tray(), &[], &mut []).unwrap_err();
            assert_eq!((refusal.code(), card), (19, before));
        }
    }

    #[test]
    fn a_loaded_line_that_is_damaged_is_255() {
        let mut card = Card::new();
        card.call(&command::load(4, Cipher::Zuc, 0), &tray(), &[], &mut []).unwrap();
        let words = *card.words();
        for place in (4 * 82..5 * 82).filter(|&place| words[place] == 0) {
            let mut damaged = words;
            damaged[place] = 1;
            let refusal = Card::from_words(damaged).call(&command::close(4), &[], &[], &mut []).unwrap_err();
            assert_eq!(refusal.code(), 255);
        }
    }

    #[test]
    fn debug_shows_no_words() {
        assert_eq!(format!("{:?}", opened()), "Card { .. }");
    }
}
