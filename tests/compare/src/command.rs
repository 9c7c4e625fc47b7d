//! The nine commands as bytes: their lengths, where their operands stand, and writers for them.

pub const OPEN_TRAY: u8 = 1;
pub const OPEN_OWN: u8 = 2;
pub const CRYPT: u8 = 3;
pub const PARK: u8 = 4;
pub const RESUME: u8 = 5;
pub const CLOSE: u8 = 6;
pub const CHANGE_KEY: u8 = 7;
pub const LOAD: u8 = 8;
pub const START: u8 = 9;

/// The length of an image, and where the line that parked it, the number of its park and the state stand in it.
pub const IMAGE: usize = 166;
pub const LINE_AT: usize = 9;
pub const NUMBER_AT: usize = LINE_AT + 1;
pub const STATE_AT: usize = NUMBER_AT + 4;

/// The length of a tray record, and of the key in command 02.
pub const RECORD: usize = 32;

/// The length of an IV in a command.
pub const IV: usize = 16;

/// Where the position stands in a change of key.
pub const POSITION_AT: usize = 3 + IV;

/// The whole length of the command with this first byte; nothing if there is none.
pub fn length(first: u8) -> Option<usize> {
    match first {
        OPEN_TRAY => Some(4 + IV),
        OPEN_OWN => Some(3 + RECORD + IV),
        CRYPT => Some(4),
        PARK | CLOSE => Some(2),
        RESUME => Some(2 + IMAGE),
        CHANGE_KEY => Some(POSITION_AT + 8),
        LOAD => Some(4),
        START => Some(2 + IV),
        _ => None,
    }
}

pub fn open_tray(line: u8, cipher: u8, key_number: u8, iv: &[u8]) -> Vec<u8> {
    [&[OPEN_TRAY, line, cipher, key_number], iv].concat()
}

pub fn open_own(line: u8, cipher: u8, key: &[u8], iv: &[u8]) -> Vec<u8> {
    [&[OPEN_OWN, line, cipher], key, iv].concat()
}

pub fn crypt(line: u8, count: u16) -> Vec<u8> {
    let [high, low] = count.to_be_bytes();
    vec![CRYPT, line, high, low]
}

pub fn park(line: u8) -> Vec<u8> {
    vec![PARK, line]
}

pub fn resume(line: u8, image: &[u8]) -> Vec<u8> {
    [&[RESUME, line], image].concat()
}

pub fn close(line: u8) -> Vec<u8> {
    vec![CLOSE, line]
}

pub fn change_key(line: u8, key_number: u8, iv: &[u8], position: u64) -> Vec<u8> {
    [&[CHANGE_KEY, line, key_number], iv, &position.to_be_bytes()].concat()
}

pub fn load(line: u8, cipher: u8, key_number: u8) -> Vec<u8> {
    vec![LOAD, line, cipher, key_number]
}

pub fn start(line: u8, iv: &[u8]) -> Vec<u8> {
    [&[START, line], iv].concat()
}

/// The count of a crypt.
pub fn count(crypt: &[u8]) -> usize {
    usize::from(crypt[2]) * 256 + usize::from(crypt[3])
}

/// The position of a change of key.
pub fn position(change: &[u8]) -> u64 {
    eight_bytes(&change[POSITION_AT..])
}

/// The position that an image is at.
pub fn image_position(image: &[u8]) -> u64 {
    eight_bytes(&image[1..])
}

fn eight_bytes(bytes: &[u8]) -> u64 {
    bytes[..8].iter().fold(0, |number, &byte| (number << 8) | u64::from(byte))
}

/// A park: the line, and the number that the park has among those of the line.
pub type Park = (u8, u32);

/// The park that an image is from.
pub fn park_of(image: &[u8]) -> Park {
    let number = image[NUMBER_AT..STATE_AT].iter().fold(0, |number, &byte| (number << 8) | u32::from(byte));
    (image[LINE_AT], number)
}

/// The image as one of another park.
pub fn of_park(image: &[u8], (line, number): Park) -> Vec<u8> {
    [&image[..LINE_AT], &[line], &number.to_be_bytes(), &image[STATE_AT..]].concat()
}

/// The image with another number.
pub fn numbered(image: &[u8], number: u32) -> Vec<u8> {
    of_park(image, (image[LINE_AT], number))
}

/// The image with another line.
pub fn from_line(image: &[u8], line: u8) -> Vec<u8> {
    of_park(image, (line, park_of(image).1))
}

/// `bytes`, then zeros up to `length`.
pub fn padded(bytes: &[u8], length: usize) -> Vec<u8> {
    let mut whole = bytes.to_vec();
    whole.resize(length, 0);
    whole
}
