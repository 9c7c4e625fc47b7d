//! Document 01's example for each cipher, and annex C: every keystream by both ways to open a line and by a load and a
//! start, but for those of a key of zeros, which all refuse; and every sample state by a park.

use super::published::{name, unit, Published};
use super::{altered, Case};
use crate::annex::{self, Row};
use crate::cipher::by_number;
use crate::command::{self, padded, IMAGE, RECORD, STATE_AT};
use crate::random::Random;
use crate::{hex, images, zeros};

pub fn cases() -> Vec<Case> {
    let keystreams = annex::keystreams();
    let states = annex::states();
    let numbered = |rows: &[Row]| (1..=rows.len()).collect::<Vec<_>>();
    let streams = numbered(&keystreams).into_iter().zip(&keystreams).flat_map(|(i, row)| keystream(i, row));
    let parked = numbered(&states).into_iter().zip(&states).filter_map(|(i, row)| state(i, row));
    FIRST.iter().map(example).chain(streams).chain(parked).chain(zero_cells()).collect()
}

/// Cipher, the first bytes of key and IV (zeros follow), and the first sixteen keystream bytes: document 01 and C.2.1,
/// C.7.1, C.4.2, C.3.1, C.6.2, C.1.1.
const FIRST: [(u8, &str, &str, &str); 6] = [
    (3, "80", "", "8d590ae9a74a7d056dc9ca74b72d1a45"),
    (1, "3d4c4be96a82fdaeb58f641db17b455b", "84319aa8de6915ca1f6bda6bfbd8c766", "14f1c2723279c4194b8ea41d0cc80863"),
    (2, "000102030405060708090a0b0c0d0e0f", "", "a8f7e69b6940a78d136a5c154a157952"),
    (4, "80", "", "0b5bcce20323e28e0fc203809c66ab73"),
    (5, "80", "00000004000000030000000200000001", "9b753faa404a0ef55291940618177fdd"),
    (6, "513400b104a0599130ad00fc48d759e0", "", "bddfad5f04b88625c3adace156d1c199"),
];

/// An open with the command's own key, and sixteen zeros.
fn example((cipher, key, iv, stream): &(u8, &str, &str, &str)) -> Case {
    let [key, iv, stream] = [key, iv, stream].map(|digits| hex::read(digits).unwrap_or_default());
    let open = command::open_own(0, *cipher, &padded(&key, RECORD), &padded(&iv, command::IV));
    let case = Case::new(
        format!("document 01's example, {}", name(*cipher)),
        &[open, vec![0x03, 0x00, 0x00, 0x10]],
        "end 2 0",
    );
    let table = "call code cmd data out\n1 0 51 0 0\n2 0 4 16 16\nend 2 0\n";
    case.data(vec![0; 16]).table(table).out(&stream).records(&[0, *cipher, 0, 0, 0, 0, 0, 0, 0, 16])
}

/// A keystream of annex C, with its key from the command and from the tray.
fn keystream(number: usize, row: &Row) -> Vec<Case> {
    let name = format!("keystream {number} of annex C, {}", row.clause);
    match Published::of(row) {
        Some(p) if p.blank() => blank(&name, &p).into(),
        Some(p) => vec![by_all(name, &p)],
        None => Vec::new(),
    }
}

/// A keystream of any other key.
fn by_all(name: String, p: &Published) -> Case {
    let count = p.stream.len() as u16;
    let opened = [p.open(0), command::crypt(0, count), p.open_tray(1, 0), command::crypt(1, count)];
    let started = [p.load(2, 0), p.start(2), command::crypt(2, count)];
    let case = Case::new(name, &[&opened[..], &started].concat(), "end 7 0").tray(p.key.clone());
    case.data(vec![0; 3 * p.stream.len()]).out(&p.stream.repeat(3))
}

/// A keystream of a key of zeros: both opens and a load refuse the key; an image with S(0), which is no key, goes on with the
/// keystream.
fn blank(name: &str, p: &Published) -> [Case; 4] {
    let (count, image) = (p.stream.len(), images::image(p.cipher, 0, (1, 1), &start(p)));
    let resumed = [altered::resumed(1, &image), vec![command::crypt(1, count as u16)]].concat();
    let refused = |how: &str, open: Vec<u8>| Case::new(format!("{name}, {how}: number 16"), &[open], "end 0 16");
    let out = [altered::written((1, 1)), p.stream.clone()].concat();
    [
        refused("the command's own key", p.open(0)),
        refused("the tray's key", p.open_tray(1, 0)).tray(p.key.clone()),
        refused("a load", p.load(2, 0)).tray(p.key.clone()),
        Case::new(format!("{name}, from S(0)"), &resumed, "end 4 0").data(vec![0; count]).out(&out),
    ]
}

/// The state bytes of S(0), by the cipher itself.
fn start(p: &Published) -> Vec<u8> {
    by_number(p.cipher).map_or(Vec::new(), |c| {
        let shape = c.shape();
        c.state_bytes(&c.init(&p.key[..shape.key], &p.iv[..shape.iv]))
    })
}

/// A sample state of annex C: it stands in the image of a line parked i units on.
fn state(number: usize, row: &Row) -> Option<Case> {
    let [key, iv, index, state] = row.bytes.as_slice() else {
        return None;
    };
    let before = unit(row.cipher) * usize::from(index[0]);
    let open = command::open_own(6, row.cipher, &padded(key, RECORD), &padded(iv, command::IV));
    let commands = [open, command::crypt(6, before as u16), command::park(6)];
    let image = images::image(row.cipher, before as u64, (6, 1), state);
    let case = Case::new(format!("state {number} of annex C, {}", row.clause), &commands, "end 3 0");
    Some(case.data(vec![0; before]).part(before, &image))
}

/// ZUC cells that would be 0: document 01's case of all cells 2^31 - 1, whose step gives them again, and a key and
/// IV for which the first INIT step would feed back 0.
fn zero_cells() -> [Case; 2] {
    let cells = [0x7F, 0xFF, 0xFF, 0xFF].repeat(16);
    let resumed = altered::resumed(0, &images::image(1, 0, (0, 1), &cells));
    let ordinary = [&resumed[..], &[command::crypt(0, 4), command::park(0)]].concat();
    let (key, iv) = zeros::key_and_iv(&mut Random::new(0, 0));
    let init = [command::open_own(0, 1, &padded(&key, RECORD), &iv), command::crypt(0, 64), command::park(0)];
    [
        Case::new("ZUC: cells of 2^31 - 1 feed back 2^31 - 1", &ordinary, "end 5 0")
            .data(vec![0; 4])
            .part(IMAGE + 4, &images::image(1, 4, (0, 2), &cells)[..STATE_AT + 64]),
        Case::new("ZUC: a key and IV whose first INIT step would feed back 0", &init, "end 3 0").data(vec![0; 64]),
    ]
}
