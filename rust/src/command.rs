//! Commands as bytes. Operands are not checked here: the card accepts or refuses the command.
//!
//! Lines are 0 to 7. Other bytes may follow a command, such as the next command.

use crate::{Cipher, IMAGE};

/// The bytes of a key in a command and in the key tray.
pub const KEY: usize = 32;

/// The bytes of an IV in a command.
pub const IV: usize = 16;

/// Opens an idle line with key `key_number` of the tray, which is the tray's bytes from 32 times that number on. A key
/// that is all zero in the cipher's length, such as an empty record, is refused with code 16.
pub fn open_tray(line: u8, cipher: Cipher, key_number: u8, iv: &[u8; IV]) -> [u8; 4 + IV] {
    let mut bytes = [0; 4 + IV];
    bytes[..4].copy_from_slice(&[0x01, line, cipher.number(), key_number]);
    bytes[4..].copy_from_slice(iv);
    bytes
}

/// Opens an idle line with the key in the command. One that is all zero in the cipher's length is refused with code 16.
pub fn open_own(line: u8, cipher: Cipher, key: &[u8; KEY], iv: &[u8; IV]) -> [u8; 3 + KEY + IV] {
    let mut bytes = [0; 3 + KEY + IV];
    bytes[..3].copy_from_slice(&[0x02, line, cipher.number()]);
    bytes[3..3 + KEY].copy_from_slice(key);
    bytes[3 + KEY..].copy_from_slice(iv);
    bytes
}

/// Enciphers or deciphers the first `count` bytes of data and writes them to the start of out. A change of key may come
/// due among them.
pub fn crypt(line: u8, count: u16) -> [u8; 4] {
    let [high, low] = count.to_be_bytes();
    [0x03, line, high, low]
}

/// Writes an open line's image to the start of out and makes the line idle. The image contains the line and the number
/// of this park among the line's own, which the card holds in place of the number that was last parked from this line. A
/// line on which a change of key is waiting cannot be parked: the park is refused with code 17.
pub fn park(line: u8) -> [u8; 2] {
    [0x04, line]
}

/// Opens an idle line from an image, at the byte where the parked line stopped. The card must hold the image's park
/// number for the line in the image, whatever line resumes, and the resume uses it up: an image can be resumed once.
pub fn resume(line: u8, image: &[u8; IMAGE]) -> [u8; 2 + IMAGE] {
    let mut bytes = [0; 2 + IMAGE];
    bytes[..2].copy_from_slice(&[0x05, line]);
    bytes[2..].copy_from_slice(image);
    bytes
}

/// Makes an open or loaded line idle. A change of key that is waiting on it is dropped, and so is the key that was
/// loaded.
pub fn close(line: u8) -> [u8; 2] {
    [0x06, line]
}

/// Changes the key of an open line: from `position` on, its bytes use the keystream of key `key_number` of the tray and
/// this IV, with the line's own cipher, from that keystream's first byte on. The line's position counts from 0 there.
///
/// The position is one of the line's keystream at the time of the command, in bytes: the line's own, so that the next
/// byte is the first with the new key, up to 2^36. Below the line's own or above 2^36 it is refused with code 18. Until
/// the change comes due, a second one and a park are refused with code 17.
pub fn change_key(line: u8, key_number: u8, iv: &[u8; IV], position: u64) -> [u8; 11 + IV] {
    let mut bytes = [0; 11 + IV];
    bytes[..3].copy_from_slice(&[0x07, line, key_number]);
    bytes[3..3 + IV].copy_from_slice(iv);
    bytes[3 + IV..].copy_from_slice(&position.to_be_bytes());
    bytes
}

/// Loads an idle line with key `key_number` of the tray, ahead of its call: a [`start`] with the IV opens it. The key is
/// checked as in an open from the tray; the tray may be another one, or empty, when the line is started.
///
/// A loaded line keeps its cipher and what the start needs of the key. Until it is started, opens, loads and resumes of
/// the line are refused with code 5, and crypts, parks and changes with code 6; a [`close`] empties it.
pub fn load(line: u8, cipher: Cipher, key_number: u8) -> [u8; 4] {
    [0x08, line, cipher.number(), key_number]
}

/// Opens a loaded line with this IV. The line is then as after an open with its cipher, its key and this IV; the key is
/// not kept. On a line that is not loaded, an open one too, a start is refused with code 19.
pub fn start(line: u8, iv: &[u8; IV]) -> [u8; 2 + IV] {
    let mut bytes = [0; 2 + IV];
    bytes[..2].copy_from_slice(&[0x09, line]);
    bytes[2..].copy_from_slice(iv);
    bytes
}

#[cfg(test)]
mod tests {
    use super::*;
    use crate::{Card, Counts};

    /// The counts of a command that must be accepted, with a tray of one key and nine bytes of data.
    fn counts(card: &mut Card, command: &[u8], out: &mut [u8]) -> (usize, usize, usize) {
        let mut tray = [0; KEY];
        tray[..16].fill(7);
        let Counts { used_command, used_data, written } = card.call(command, &tray, &[0; 9], out).unwrap();
        (used_command, used_data, written)
    }

    #[test]
    fn each_command_is_taken() {
        let (mut card, mut out) = (Card::new(), [0; IMAGE]);
        assert_eq!(counts(&mut card, &open_tray(7, Cipher::Mugi, 0, &[9; IV]), &mut out), (20, 0, 0));
        assert_eq!(counts(&mut card, &open_own(1, Cipher::Snow2Key32, &[8; KEY], &[9; IV]), &mut out), (51, 0, 0));
        assert_eq!(counts(&mut card, &crypt(7, 9), &mut out), (4, 9, 9));
        assert_eq!(counts(&mut card, &change_key(7, 0, &[3; IV], 9), &mut out), (27, 0, 0));
        assert_eq!(counts(&mut card, &change_key(1, 0, &[3; IV], 9), &mut out), (27, 0, 0));
        assert_eq!(counts(&mut card, &crypt(1, 9), &mut out), (4, 9, 9));
        assert_eq!(counts(&mut card, &park(7), &mut out), (2, 0, IMAGE));
        assert_eq!(counts(&mut card, &resume(0, &out), &mut []), (2 + IMAGE, 0, 0));
        assert_eq!(counts(&mut card, &close(0), &mut out), (2, 0, 0));
        assert_eq!(counts(&mut card, &close(1), &mut out), (2, 0, 0));
        assert_eq!(counts(&mut card, &load(3, Cipher::KCipher2, 0), &mut out), (4, 0, 0));
        assert_eq!(counts(&mut card, &start(3, &[3; IV]), &mut out), (18, 0, 0));
        assert_eq!(counts(&mut card, &close(3), &mut out), (2, 0, 0));
        assert_eq!(counts(&mut card, &load(3, Cipher::Rabbit, 0), &mut out), (4, 0, 0));
        assert_eq!(counts(&mut card, &close(3), &mut out), (2, 0, 0));
        // All lines are idle and no number is held; one park was made, from line 7.
        let mut words = *card.words();
        assert_eq!(std::mem::take(&mut words[656 + 7]), 1);
        assert_eq!(Card::from_words(words), Card::new());
    }

    #[test]
    fn an_image_has_the_line_and_the_number_of_its_park() {
        let (mut card, mut out) = (Card::new(), [0; IMAGE]);
        for (line, number) in [(7, 1), (7, 2), (0, 1), (7, 3), (3, 1), (0, 2)] {
            counts(&mut card, &open_tray(line, Cipher::Mugi, 0, &[9; IV]), &mut out);
            counts(&mut card, &park(line), &mut out);
            assert_eq!(out[9..14], [line, 0, 0, 0, number]);
        }
    }

    #[test]
    fn operands_stand_in_their_places() {
        let (key, iv) = ([0xAA; KEY], [0xBB; IV]);
        assert_eq!(open_tray(6, Cipher::Zuc, 255, &iv)[..5], [1, 6, 1, 255, 0xBB]);
        assert_eq!(open_own(6, Cipher::Rabbit, &key, &iv)[..4], [2, 6, 2, 0xAA]);
        assert_eq!(open_own(6, Cipher::Rabbit, &key, &iv)[34..36], [0xAA, 0xBB]);
        assert_eq!(crypt(6, 0x1234), [3, 6, 0x12, 0x34]);
        assert_eq!(resume(6, &[0xCC; IMAGE])[..3], [5, 6, 0xCC]);
        assert_eq!(resume(6, &[0xCC; IMAGE]).len(), 168);
        let change = change_key(6, 255, &iv, 0x0102_0304_0506_0708);
        assert_eq!(change[..4], [7, 6, 255, 0xBB]);
        assert_eq!(change[18..], [0xBB, 1, 2, 3, 4, 5, 6, 7, 8]);
        assert_eq!(change.len(), 27);
        assert_eq!(load(6, Cipher::Mugi, 255), [8, 6, 6, 255]);
        assert_eq!(start(6, &iv)[..3], [9, 6, 0xBB]);
        assert_eq!(start(6, &iv).len(), 18);
    }
}
