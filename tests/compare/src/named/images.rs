//! The conditions of number 8 one by one, each beside images that are taken.

use super::published::name;
use super::{altered, Case};
use crate::cipher::{by_number, LAST};
use crate::command::{self, from_line, numbered, of_park, Park, IMAGE, LINE_AT, STATE_AT};
use crate::images::image;
use crate::machine::END;

pub fn cases() -> Vec<Case> {
    let groups = [taken(), greatest_and_least(), ciphers(), positions(), padding(), cells(), carries(), lines()];
    groups.into_iter().flatten().collect()
}

/// The length of a cipher's state in bytes.
fn length(cipher: u8) -> usize {
    by_number(cipher).map_or(0, |c| c.shape().state)
}

/// The park that the images are of.
const PARK: Park = (2, 1);

/// A well-formed image: every byte of the state is 1.
fn good(cipher: u8) -> Vec<u8> {
    image(cipher, 5, PARK, &vec![1; length(cipher)])
}

/// A park, a resume of it that is accepted, and a park that gives the image back with the next number.
fn accepted(what: String, image: &[u8]) -> Case {
    let commands = [altered::resumed(2, image), vec![command::park(2)]].concat();
    let out = [altered::written(PARK), numbered(image, 2)].concat();
    Case::new(format!("image taken: {what}"), &commands, "end 4 0").out(&out)
}

/// A park, a resume of it that is refused, and a close that isn't run.
fn refused(what: String, image: &[u8]) -> Case {
    let commands = [&altered::parked(2)[..], &[command::resume(2, image), command::close(2)]].concat();
    Case::new(format!("number 8: {what}"), &commands, "end 2 8").out(&altered::written(PARK))
}

/// The image with some of its bytes replaced.
fn with(mut image: Vec<u8>, at: usize, bytes: &[u8]) -> Vec<u8> {
    image[at..at + bytes.len()].copy_from_slice(bytes);
    image
}

fn taken() -> Vec<Case> {
    (1..=LAST).map(|cipher| accepted(name(cipher).to_string(), &good(cipher))).collect()
}

/// States at the ends of their ranges.
fn greatest_and_least() -> Vec<Case> {
    let (least, greatest) = ([0, 0, 0, 1].repeat(16), [0x7F, 0xFF, 0xFF, 0xFF].repeat(16));
    let zuc = |cells: &[u8], register: u8| image(1, END, PARK, &[cells, &[register; 8]].concat());
    let rabbit = |byte: u8, carry: u8| image(2, END, PARK, &[&[byte; 64], &[carry][..]].concat());
    let mut all = vec![
        accepted("ZUC with cells of 1".into(), &zuc(&least, 0)),
        accepted("ZUC with cells of 2^31 - 1".into(), &zuc(&greatest, 0xFF)),
        accepted("Rabbit with zeros and carry 0".into(), &rabbit(0, 0)),
        accepted("Rabbit with all bits set and carry 1".into(), &rabbit(0xFF, 1)),
    ];
    for cipher in 3..=LAST {
        all.push(accepted(format!("{} of zeros", name(cipher)), &image(cipher, 0, PARK, &[])));
        let ones = vec![0xFF; length(cipher)];
        all.push(accepted(format!("{} with all bits set", name(cipher)), &image(cipher, 0, PARK, &ones)));
    }
    all
}

fn ciphers() -> Vec<Case> {
    let of = |cipher: u8| refused(format!("cipher {cipher}"), &image(cipher, 0, PARK, &[]));
    [0, 7, 8, 128, 255].map(of).into()
}

/// Positions past 2^36 for each cipher, one with only its highest bit among them.
fn positions() -> Vec<Case> {
    let past = [END + 1, END + (1 << 32), 2 * END, 1 << 40, 1 << 48, 1 << 56, 1 << 63, u64::MAX];
    let of = |cipher: u8| {
        let at = move |n: u64| with(good(cipher), 1, &n.to_be_bytes());
        let over = past.iter().map(move |&n| refused(format!("{} at n = {n}", name(cipher)), &at(n)));
        over.chain([accepted(format!("{} at n = 2^36", name(cipher)), &at(END))])
    };
    (1..=LAST).flat_map(of).collect()
}

/// Each byte after the state; MUGI's state leaves none.
fn padding() -> Vec<Case> {
    let of = |cipher: u8| {
        let places = STATE_AT + length(cipher)..IMAGE;
        places.map(move |at| refused(format!("{}, byte {at} is 1", name(cipher)), &with(good(cipher), at, &[1])))
    };
    (1..=LAST).flat_map(of).collect()
}

/// Each cell of ZUC as 0, as 2^31 and with all bits set; R1 and R2 may be anything.
fn cells() -> Vec<Case> {
    let of = |cell: usize, word: u32| with(good(1), STATE_AT + 4 * cell, &word.to_be_bytes());
    let mut all = Vec::new();
    for cell in 0..16 {
        all.push(refused(format!("ZUC, A{cell} is 0"), &of(cell, 0)));
        all.push(refused(format!("ZUC, A{cell} is 2^31"), &of(cell, 1 << 31)));
        all.push(refused(format!("ZUC, A{cell} is 2^32 - 1"), &of(cell, u32::MAX)));
    }
    for (cell, register) in [(16, "R1"), (17, "R2")] {
        all.push(accepted(format!("ZUC, {register} is 0"), &of(cell, 0)));
        all.push(accepted(format!("ZUC, {register} is 2^32 - 1"), &of(cell, u32::MAX)));
    }
    all
}

fn carries() -> Vec<Case> {
    let of = |carry: u8| with(good(2), STATE_AT + 64, &[carry]);
    let over = [2, 3, 128, 255].map(|carry| refused(format!("Rabbit, the carry is {carry}"), &of(carry)));
    let good = [0, 1].map(|carry| accepted(format!("Rabbit, the carry is {carry}"), &of(carry)));
    over.into_iter().chain(good).collect()
}

/// Lines over 7, by each cipher, on a card that holds number 1 of each line: with that number, with 0 and with another one,
/// for 8 comes before 14; and each line up to 7, whose image is taken on the last of them.
fn lines() -> Vec<Case> {
    let parks: Vec<Vec<u8>> = (0..8).flat_map(altered::parked).collect();
    let written: Vec<u8> = (0..8).flat_map(|line| altered::written((line, 1))).collect();
    let on_all = |what: String, image: &[u8], end: &str| {
        Case::new(what, &[&parks[..], &[command::resume(7, image)]].concat(), end).out(&written)
    };
    let mut all = Vec::new();
    for cipher in 1..=LAST {
        let over = [8, 9, 15, 16, 127, 128, 129, 255].map(|line| with(good(cipher), LINE_AT, &[line]));
        all.extend(
            over.map(|image| refused(format!("{}, a parking line of {}", name(cipher), image[LINE_AT]), &image)),
        );
        for line in 0..8 {
            let what = format!("image taken: {}, a parking line of {line}", name(cipher));
            all.push(on_all(what, &from_line(&good(cipher), line), "end 17 0"));
        }
    }
    for (line, number) in [(8, 1), (8, 0), (8, 2), (10, 1), (249, 1), (255, 0), (255, u32::MAX)] {
        let what = format!("number 8: a parking line of {line}, number {number}");
        all.push(on_all(what, &of_park(&good(3), (line, number)), "end 16 8"));
    }
    all
}
