//! A line of the plain machine: a cipher, a base state, a base unit and a position, and the change of key that waits, if
//! one does. Every keystream byte is found by stepping from the base; nothing else is kept.

use crate::cipher::{by_number, Cipher, State};
use crate::command::{self, Park, IMAGE};

/// No keystream byte has a number of 2^36 or more.
pub const END: u64 = 1 << 36;

/// A change of key that waits: the position from which on the new stream goes, and that stream's S(0).
#[derive(Clone)]
pub struct Waiting {
    pub due: u64,
    pub start: State,
}

/// An open line.
#[derive(Clone)]
pub struct Line {
    pub cipher: &'static dyn Cipher,
    base: State,
    base_unit: u64,
    pub position: u64,
    pub waiting: Option<Waiting>,
}

impl Line {
    /// A line at the first byte of the stream with this S(0).
    pub fn first(cipher: &'static dyn Cipher, start: State) -> Line {
        Line { cipher, base: start, base_unit: 0, position: 0, waiting: None }
    }

    /// The line of the image that stands first in `bytes`, whatever park it is of; nothing where number 8 applies.
    pub fn from_image(bytes: &[u8]) -> Option<Line> {
        let image = &bytes[..IMAGE];
        let cipher = by_number(image[0])?;
        let shape = cipher.shape();
        let position = command::image_position(image);
        let (state, padding) = image[command::STATE_AT..].split_at(shape.state);
        let base = cipher.state_of(state);
        let zeros = padding.iter().all(|&byte| byte == 0);
        let fits = position <= END && zeros && cipher.admits(&base) && image[command::LINE_AT] < 8;
        fits.then(|| Line { cipher, base, base_unit: position / shape.unit as u64, position, waiting: None })
    }

    /// The image that this park makes.
    pub fn image(&self, (line, number): Park) -> Vec<u8> {
        let state = self.cipher.state_bytes(&self.state());
        let (position, number) = (self.position.to_be_bytes(), number.to_be_bytes());
        let image = [&[self.cipher.shape().number], &position[..], &[line], &number, &state].concat();
        command::padded(&image, IMAGE)
    }

    /// S(n div u) at the line's position n: Next applied (n div u) - m times to the base.
    pub fn state(&self) -> State {
        let unit = self.position / self.cipher.shape().unit as u64;
        let mut state = self.base.clone();
        for _ in self.base_unit..unit {
            self.cipher.next(&mut state);
        }
        state
    }

    /// Changes the key: from position `due` on, which isn't below the line's, the stream is the one with this S(0).
    pub fn change(&mut self, due: u64, start: State) {
        self.waiting = Some(Waiting { due, start });
        self.come_due();
    }

    /// Lets a change wait whose position and S(0) stand in an image of the line's cipher; tells whether a card may hold
    /// it, which needs an image that number 8 lets pass and a position above the line's.
    pub fn wait(&mut self, image: &[u8]) -> bool {
        let change = Line::from_image(image).filter(|change| change.position > self.position);
        self.waiting = change.map(|change| Waiting { due: change.position, start: change.base });
        self.waiting.is_some()
    }

    /// Takes a text through the line: up to a change that waits by its stream, and from there on by the new one.
    pub fn crypt(&mut self, text: &[u8]) -> Vec<u8> {
        let before = self.waiting.as_ref().map_or(END, |change| change.due - self.position);
        let (old, new) = text.split_at(before.min(text.len() as u64) as usize);
        [self.along(old), self.along(new)].concat()
    }

    /// The position after so many bytes, in the stream that the line goes on with then.
    pub fn after(&self, count: usize) -> u64 {
        let end = self.position + count as u64;
        match &self.waiting {
            Some(change) if change.due <= end => end - change.due,
            _ => end,
        }
    }

    /// How many bytes can be taken through the line before a position is over 2^36.
    pub fn left(&self) -> u64 {
        self.waiting.as_ref().map_or(END, |change| change.due + END) - self.position
    }

    /// Takes a text that ends before a change, or where it comes due, through the line's stream.
    fn along(&mut self, text: &[u8]) -> Vec<u8> {
        let out = text.iter().zip(self.keystream(text.len())).map(|(byte, key)| byte ^ key).collect();
        self.position += text.len() as u64;
        self.come_due();
        out
    }

    /// The `count` keystream bytes from the line's position on.
    fn keystream(&self, count: usize) -> Vec<u8> {
        if count == 0 {
            return Vec::new();
        }
        let mut state = self.state();
        let within = (self.position % self.cipher.shape().unit as u64) as usize;
        let mut bytes = self.cipher.strm(&state)[within..].to_vec();
        while bytes.len() < count {
            self.cipher.next(&mut state);
            bytes.extend(self.cipher.strm(&state));
        }
        bytes.truncate(count);
        bytes
    }

    /// Goes over to the new stream, at its first byte, if a change waits whose position is the line's.
    fn come_due(&mut self) {
        if let Some(change) = self.waiting.take_if(|change| change.due == self.position) {
            *self = Line::first(self.cipher, change.start);
        }
    }
}

#[cfg(test)]
mod tests {
    use super::*;
    use crate::cipher::LAST;

    /// The line of a cipher and a key of this byte, at its first byte.
    fn line(cipher: u8, byte: u8) -> Line {
        let cipher = by_number(cipher).unwrap();
        let shape = cipher.shape();
        Line::first(cipher, cipher.init(&vec![byte; shape.key], &vec![9; shape.iv]))
    }

    /// A line's bytes as one crypt of zeros gives them.
    fn stream(cipher: u8, byte: u8, count: usize) -> Vec<u8> {
        line(cipher, byte).crypt(&vec![0; count])
    }

    #[test]
    fn the_old_stream_goes_up_to_a_change_and_the_new_one_from_there_on() {
        for cipher in 1..=LAST {
            let (old, new) = (stream(cipher, 1, 40), stream(cipher, 2, 40));
            for due in 0..=34 {
                for frame in [1, 3, 16, 17, 40] {
                    let mut l = line(cipher, 1);
                    l.change(due, line(cipher, 2).base);
                    let got: Vec<u8> = [0; 40].chunks(frame).flat_map(|text| l.crypt(text)).collect();
                    let due = due as usize;
                    assert_eq!(got, [&old[..due], &new[..40 - due]].concat());
                    assert_eq!(l.position, 40 - due as u64);
                    assert!(l.waiting.is_none());
                }
            }
        }
    }

    #[test]
    fn a_change_waits_until_its_position_is_the_lines() {
        for cipher in 1..=LAST {
            let (mut l, start) = (line(cipher, 1), line(cipher, 2).base);
            l.change(7, start.clone());
            for (count, position) in [(0, 0), (6, 6), (0, 6)] {
                l.crypt(&vec![0; count]);
                assert_eq!((l.position, l.waiting.is_some()), (position, true));
                assert_ne!(l.state(), start);
            }
            l.crypt(&[0]);
            assert_eq!((l.position, l.waiting.is_some(), l.state()), (0, false, start));
        }
    }

    #[test]
    fn positions_are_counted_in_each_stream_by_itself() {
        let mut l = line(1, 1);
        l.position = END - 3;
        assert_eq!((l.left(), l.after(3), l.after(4)), (3, END, END + 1));
        l.change(END, line(1, 2).base);
        assert_eq!((l.left(), l.after(2), l.after(3), l.after(9)), (END + 3, END - 1, 0, 6));
        l.position = END;
        l.come_due();
        assert_eq!((l.position, l.left(), l.after(9)), (0, END, 9));
    }
}
