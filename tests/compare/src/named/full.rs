//! Out filled up: by parks, by crypts and parks to 166 and to 165 bytes, and to the last byte.

use super::Case;
use crate::command::{self, IMAGE, RECORD};
use crate::program::OUT;

/// So many images fit in out, and 132 bytes are left: 394 times 166 is 65,404.
pub const PARKS: usize = 394;

pub fn cases() -> Vec<Case> {
    vec![image_that_fits(), image_that_does_not(), frame_that_fits(), frame_that_does_not()]
}

/// The tray for `open`.
pub fn tray() -> Vec<u8> {
    vec![3; RECORD]
}

/// An open from the tray; with a park it takes 22 bytes of the commands.
pub fn open(line: u8) -> Vec<u8> {
    command::open_tray(line, 4, 0, &[0; 16])
}

/// Opens and parks of line 0, so many of both.
pub fn parks(count: usize) -> Vec<Vec<u8>> {
    vec![[open(0), command::park(0)]; count].concat()
}

/// Number 12 by parks alone.
pub fn by_parks() -> Case {
    let name = "number 12: the 395th image, with 132 bytes left of out";
    Case::new(name, &parks(PARKS + 1), "end 789 12").tray(tray())
}

/// An open line 1, `count` bytes enciphered on it, 350 images of line 0, and a last command. Of out, 7,436 - `count`
/// bytes are left for that.
fn filled(name: &str, count: u16, last: &[Vec<u8>], end: &str) -> Case {
    let start = vec![open(1), command::crypt(1, count)];
    let case = Case::new(name, &[start, parks(350), last.to_vec()].concat(), end);
    case.tray(tray()).data(vec![0; usize::from(count) + 1])
}

/// 166 bytes are left, and an image takes them, with number 1, for it is its line's first; then a frame of 0 bytes is
/// accepted and one of 1 refused.
fn image_that_fits() -> Case {
    let last = [command::park(1), open(2), command::crypt(2, 0), command::crypt(2, 1)];
    let case = filled("166 bytes left of out are an image's", 7_270, &last, "end 705 12");
    case.part(OUT - IMAGE, &[4, 0, 0, 0, 0, 0, 0, 0x1C, 0x66, 1, 0, 0, 0, 1])
}

fn image_that_does_not() -> Case {
    filled("165 bytes left of out are too few for an image", 7_271, &[command::park(1)], "end 702 12")
}

/// 132 bytes are left, and a frame takes them; then a frame of 0 bytes is accepted and one of 1 refused.
fn frame_that_fits() -> Case {
    let last = vec![open(7), command::crypt(7, 132), command::crypt(7, 0), command::crypt(7, 1)];
    let case = Case::new("132 bytes left of out are a frame's", &[parks(PARKS), last].concat(), "end 791 12");
    case.tray(tray()).data(vec![0; 133])
}

fn frame_that_does_not() -> Case {
    let last = vec![open(7), command::crypt(7, 133)];
    let case = Case::new("132 bytes left of out are too few for 133", &[parks(PARKS), last].concat(), "end 789 12");
    case.tray(tray()).data(vec![0; 133])
}
