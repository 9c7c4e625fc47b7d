//! Lines parked and resumed, on the same line and on others, at a unit's end and within a unit: what comes before
//! and after is one stream, and an image is resumed once.

use super::published::{self, text, Published};
use super::Case;
use crate::builder::Builder;
use crate::command::{self, Park, IMAGE, STATE_AT};
use crate::images::image;
use crate::random::Random;

pub fn cases() -> Vec<Case> {
    let each = |p: &Published| {
        [
            once(p, "at a unit's end", &[3, 13], &[5, 11]),
            once(p, "within a unit", &[1, 2, 3, 5], &[7, 13, 1]),
            everywhere(p),
            over_and_over(p),
            together(p),
            one_after_the_other(p),
        ]
    };
    published::each().iter().flat_map(each).collect()
}

/// A list in the making with this data and no tray.
pub fn list(data: Vec<u8>) -> Builder {
    Builder::new(Random::new(0, 0), Vec::new(), data)
}

/// Adds frames on a line.
pub fn frames(b: &mut Builder, line: u8, counts: &[u16]) {
    for &count in counts {
        b.put(&command::crypt(line, count));
    }
}

/// Parks a line; gives the image.
pub fn park(b: &mut Builder, line: u8) -> Vec<u8> {
    b.put(&command::park(line));
    b.all_images().pop().unwrap_or_default()
}

/// Parks one line and resumes on another.
fn carry(b: &mut Builder, from: u8, to: u8) {
    let image = park(b, from);
    b.put(&command::resume(to, &image));
}

/// The first bytes of an image: the cipher, the position and the park.
pub fn head(p: &Published, position: usize, park: Park) -> Vec<u8> {
    image(p.cipher, position as u64, park, &[])[..STATE_AT].to_vec()
}

/// Annex C's keystream with a park in it, the frames before and after together 32 bytes.
fn once(p: &Published, what: &str, before: &[u16], after: &[u16]) -> Case {
    let mut b = list(vec![0; 32]);
    b.put(&p.open(0));
    frames(&mut b, 0, before);
    carry(&mut b, 0, 5);
    frames(&mut b, 5, after);
    let parked: usize = before.iter().sum::<u16>().into();
    let end = format!("end {} 0", 3 + before.len() + after.len());
    let case = Case::of(format!("{}: parked {what}, resumed on another line", p.name()), b.files(), end);
    let case = case.part(0, &p.stream[..parked]).part(parked, &head(p, parked, (0, 1)));
    case.part(parked + IMAGE, &p.stream[parked..32])
}

/// Annex C's keystream with a park after each number of bytes, 0 to 32.
fn everywhere(p: &Published) -> Case {
    let mut b = list(vec![0; 33 * 32]);
    for (parked, line) in (0..=32).zip((0..8).cycle()) {
        let other = (line + 3) % 8;
        b.put(&p.open(line));
        frames(&mut b, line, &[parked]);
        carry(&mut b, line, other);
        frames(&mut b, other, &[32 - parked]);
        b.put(&command::close(other));
    }
    let mut case = Case::of(format!("{}: parked after each of 0 to 32 bytes", p.name()), b.files(), "end 198 0");
    for (parked, park) in (0..=32).zip((1..).flat_map(|number| (0..8).map(move |line| (line, number)))) {
        let at = parked * (32 + IMAGE);
        case = case.part(at, &p.stream[..parked]).part(at + parked, &head(p, parked, park));
        case = case.part(at + parked + IMAGE, &p.stream[parked..32]);
    }
    case
}

/// One crypt of 700 bytes on line 7, and the same text on lines 0, 3 and 4 in turn and on 3 again, in odd frames.
/// Line 0 is parked after 181 bytes, line 3 after 256, where a unit of every cipher ends, and line 4 after 411.
fn over_and_over(p: &Published) -> Case {
    let mut b = list(text(700).repeat(2));
    b.put(&p.open(7));
    frames(&mut b, 7, &[700]);
    b.put(&p.open(0));
    frames(&mut b, 0, &[97, 1, 83]);
    carry(&mut b, 0, 3);
    frames(&mut b, 3, &[5, 67, 3]);
    carry(&mut b, 3, 4);
    frames(&mut b, 4, &[11, 131, 13]);
    carry(&mut b, 4, 3);
    frames(&mut b, 3, &[2, 0, 287]);
    let name = format!("{}: parked three times, against one crypt", p.name());
    let mut case = Case::of(name, b.files(), "end 21 0");
    let (mut at, mut pieces) = (700, Vec::new());
    for (from, parked, line) in [(0, 181, 0), (181, 256, 3), (256, 411, 4)] {
        let image = at + parked - from;
        case = case.part(image, &head(p, parked, (line, 1)));
        pieces.push(at..image);
        at = image + IMAGE;
    }
    pieces.push(at..at + 289);
    case.joined(0..700, &pieces)
}

/// An image resumed on one line, and then on another while the first is open: the second is refused.
fn together(p: &Published) -> Case {
    let mut b = list(vec![0; 32]);
    b.put(&p.open(2));
    frames(&mut b, 2, &[6]);
    let image = park(&mut b, 2);
    b.put(&command::resume(1, &image));
    frames(&mut b, 1, &[3, 7, 16]);
    b.put(&command::resume(6, &image));
    let case = Case::of(format!("{}: number 14, an image resumed on two lines", p.name()), b.files(), "end 7 14");
    case.part(0, &p.stream[..6]).part(6 + IMAGE, &p.stream[6..32])
}

/// An image resumed on the line that it was parked from, closed, and resumed there again: the second is refused.
fn one_after_the_other(p: &Published) -> Case {
    let mut b = list(vec![0; 32]);
    b.put(&p.open(2));
    frames(&mut b, 2, &[9]);
    let image = park(&mut b, 2);
    b.put(&command::resume(2, &image));
    frames(&mut b, 2, &[23]);
    b.put(&command::close(2));
    b.put(&command::resume(2, &image));
    let case = Case::of(format!("{}: number 14, an image resumed twice on its line", p.name()), b.files(), "end 6 14");
    case.part(0, &p.stream[..9]).part(9 + IMAGE, &p.stream[9..32])
}
