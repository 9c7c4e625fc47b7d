//! Lines that go on from any image: a call is parked on the line, and in the place of its image another one of that park
//! is resumed there.

use crate::annex;
use crate::command::{self, from_line, padded, Park, IV, RECORD};
use crate::images;

/// What makes an idle line as an image has it, if the image has the number of the park in it; the line is put there.
pub fn resumed(line: u8, image: &[u8]) -> Vec<Vec<u8>> {
    [&parked(line)[..], &[command::resume(line, &from_line(image, line))]].concat()
}

/// An open of annex C's sample states of Rabbit, and a park.
pub fn parked(line: u8) -> [Vec<u8>; 2] {
    let [key, iv, _] = rabbit();
    [command::open_own(line, 2, &padded(&key, RECORD), &padded(&iv, IV)), command::park(line)]
}

/// What they write, if the park is this one: the image at byte 0, with annex C's S(0).
pub fn written(park: Park) -> Vec<u8> {
    let [_, _, state] = rabbit();
    images::image(2, 0, park, &state)
}

/// Key, IV and S(0).
fn rabbit() -> [Vec<u8>; 3] {
    let of = |bytes: Vec<Vec<u8>>| match <[Vec<u8>; 4]>::try_from(bytes) {
        Ok([key, iv, index, state]) if index == [0] => Some([key, iv, state]),
        _ => None,
    };
    let mut rows = annex::states().into_iter().filter(|row| row.cipher == 2);
    rows.find_map(|row| of(row.bytes)).unwrap_or_default()
}
