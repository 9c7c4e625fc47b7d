//! The key and the IV that a command names, and what is judged of them. The cipher that they are for is an open's or a
//! load's own, or that of the line that is started or whose key is changed.

use crate::cipher::{Cipher, State};
use crate::command::{CHANGE_KEY, IV, LOAD, OPEN_OWN, OPEN_TRAY, RECORD, START};

/// The longest tray.
pub const TRAY: usize = 8_192;

/// Whether a command of this kind takes its key from the tray.
pub fn from_tray(kind: u8) -> bool {
    [OPEN_TRAY, CHANGE_KEY, LOAD].contains(&kind)
}

/// Whether a command of this kind has a key.
pub fn has_key(kind: u8) -> bool {
    kind == OPEN_OWN || from_tray(kind)
}

/// Whether a command of this kind has an IV.
pub fn has_iv(kind: u8) -> bool {
    [OPEN_TRAY, OPEN_OWN, CHANGE_KEY, START].contains(&kind)
}

/// Whether the tray has a length that number 9 refuses.
pub fn bad_length(tray: &[u8]) -> bool {
    !tray.len().is_multiple_of(RECORD) || tray.len() > TRAY
}

/// Whether the tray has no key of the number that the command names.
pub fn not_there(command: &[u8], tray: &[u8]) -> bool {
    RECORD * (key_number(command) + 1) > tray.len()
}

/// Whether a byte beyond the cipher's key or IV isn't 0, of what the command has of the two.
pub fn stray(cipher: &dyn Cipher, command: &[u8], tray: &[u8]) -> bool {
    let (kind, shape) = (command[0], cipher.shape());
    has_key(kind) && !all_zero(&record(command, tray)[shape.key..])
        || has_iv(kind) && !all_zero(&iv_field(command)[shape.iv..])
}

/// Whether the key is all zero in the cipher's own length.
pub fn blank(cipher: &dyn Cipher, command: &[u8], tray: &[u8]) -> bool {
    all_zero(key(cipher, command, tray))
}

/// The key, in the cipher's own length.
pub fn key<'a>(cipher: &dyn Cipher, command: &'a [u8], tray: &'a [u8]) -> &'a [u8] {
    &record(command, tray)[..cipher.shape().key]
}

/// The IV, in the cipher's own length.
pub fn iv<'a>(cipher: &dyn Cipher, command: &'a [u8]) -> &'a [u8] {
    &iv_field(command)[..cipher.shape().iv]
}

/// S(0) of the key and the IV.
pub fn start(cipher: &dyn Cipher, command: &[u8], tray: &[u8]) -> State {
    cipher.init(key(cipher, command, tray), iv(cipher, command))
}

/// The number of the tray's key.
fn key_number(command: &[u8]) -> usize {
    usize::from(if command[0] == CHANGE_KEY { command[2] } else { command[3] })
}

/// The record that the key stands in: the tray's or the command's own.
fn record<'a>(command: &'a [u8], tray: &'a [u8]) -> &'a [u8] {
    if command[0] == OPEN_OWN {
        &command[3..3 + RECORD]
    } else {
        &tray[RECORD * key_number(command)..][..RECORD]
    }
}

/// The IV operand.
fn iv_field(command: &[u8]) -> &[u8] {
    let start = match command[0] {
        OPEN_TRAY => 4,
        OPEN_OWN => 3 + RECORD,
        START => 2,
        _ => 3,
    };
    &command[start..start + IV]
}

fn all_zero(bytes: &[u8]) -> bool {
    bytes.iter().all(|&byte| byte == 0)
}
