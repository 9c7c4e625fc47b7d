//! The numbers of parks: which images a card takes up, and number 14 in each way that there is to it. An image is taken
//! up once, on whichever line, unless its line was parked again; opens, crypts and closes leave the numbers.

use super::parks::{frames, list, park};
use super::published::{self, Published};
use super::{altered, full, positions, Case};
use crate::builder::Builder;
use crate::command::{self, of_park, park_of, Park, IMAGE, NUMBER_AT};

pub fn cases() -> Vec<Case> {
    let all = published::each();
    let mut cases: Vec<Case> = [not_parked(), zero(), above(), counted()].into_iter().flatten().collect();
    cases.extend(all.iter().flat_map(|p| [replaced(p), replaced_twice(p), last_of_three(p), left_by_others(p)]));
    cases.extend(all.iter().flat_map(|p| [taken_altered(p), again(p), not_the_resuming_lines(p), exchanged(p)]));
    cases.extend([eight_at_once(&all), backwards(&all), every_two_lines(&all)]);
    cases
}

/// A case whose last command is a resume of an image, on an idle line, after others that are accepted.
pub fn last(name: String, mut b: Builder, line: u8, image: &[u8], accepted: usize, code: u8) -> Case {
    b.put(&command::resume(line, image));
    Case::of(name, b.files(), format!("end {accepted} {code}"))
}

/// A well-formed image of a park.
pub fn some(park: Park) -> Vec<u8> {
    of_park(&positions::image(3, 5), park)
}

/// Opens a line, enciphers a frame on it and parks it; gives the image.
pub fn parked(b: &mut Builder, p: &Published, line: u8, count: u16) -> Vec<u8> {
    b.put(&p.open(line));
    frames(b, line, &[count]);
    park(b, line)
}

/// Images for a fresh card.
fn not_parked() -> Vec<Case> {
    let of = |number: u32| last(format!("number 14: {number} and no park"), list(vec![]), 3, &some((3, number)), 0, 14);
    [1, 2, 256, 1 << 24, 1 << 31, u32::MAX].map(of).into()
}

/// Number 0, on a fresh card, with a number held and with one held of each line.
fn zero() -> Vec<Case> {
    let of = |lines: u8| {
        let mut commands: Vec<Vec<u8>> = (0..lines).flat_map(altered::parked).collect();
        commands.push(command::resume(2, &some((0, 0))));
        let name = format!("number 14: number 0 with {lines} held");
        let written: Vec<u8> = (0..lines).flat_map(|line| altered::written((line, 1))).collect();
        Case::new(name, &commands, format!("end {} 14", 2 * lines)).out(&written)
    };
    [0, 1, 8].map(of).into()
}

/// Numbers above a line's count of three, some of which have the held one in some of their bytes.
fn above() -> Vec<Case> {
    let before: Vec<Vec<u8>> = [5, 5, 5].into_iter().flat_map(altered::parked).collect();
    let of = |number: u32| {
        let commands = [&before[..], &[command::resume(2, &some((5, number)))]].concat();
        Case::new(format!("number 14: {number} after three parks"), &commands, "end 6 14")
    };
    [4, 5, 0x0103, 0x0001_0003, 0x0100_0003, 0x0300_0000, 0x0003_0000, 0x0303_0303, u32::MAX].map(of).into()
}

/// The 257th park of a line has two bytes of its number in use; the one before it is replaced.
fn counted() -> Vec<Case> {
    let of = |number: u32, code: u8| {
        let name = format!("number {number} after 257 parks of a line");
        let commands = [full::parks(257), vec![command::resume(4, &some((0, number)))]].concat();
        let end = format!("end {} {code}", 514 + usize::from(code == 0));
        let numbers = [(1, [0, 0, 0, 1]), (255, [0, 0, 0, 255]), (256, [0, 0, 1, 0]), (257, [0, 0, 1, 1])];
        let case = Case::new(name, &commands, end).tray(full::tray());
        numbers.iter().fold(case, |case, (park, bytes)| case.part((park - 1) * IMAGE + NUMBER_AT, bytes))
    };
    vec![of(257, 0), of(256, 14), of(1, 14), of(258, 14)]
}

/// A line parked twice: the first image is held no more.
fn replaced(p: &Published) -> Case {
    let mut b = list(vec![0; 20]);
    let first = parked(&mut b, p, 6, 9);
    parked(&mut b, p, 6, 11);
    last(format!("{}: number 14, an image whose line was parked again", p.name()), b, 6, &first, 6, 14)
}

/// A line parked, taken up elsewhere, and parked twice more: the second image is held no more.
fn replaced_twice(p: &Published) -> Case {
    let mut b = list(vec![0; 20]);
    let first = parked(&mut b, p, 0, 3);
    b.put(&command::resume(7, &first));
    let second = parked(&mut b, p, 0, 5);
    parked(&mut b, p, 0, 7);
    last(format!("{}: number 14, an image between two parks of its line", p.name()), b, 1, &second, 10, 14)
}

/// A line parked three times: the last image goes on.
fn last_of_three(p: &Published) -> Case {
    let mut b = list(vec![0; 3 + 5 + 32]);
    parked(&mut b, p, 4, 3);
    parked(&mut b, p, 4, 5);
    let third = parked(&mut b, p, 4, 6);
    b.put(&command::resume(2, &third));
    frames(&mut b, 2, &[26]);
    let case = Case::of(format!("{}: the last image of three from a line", p.name()), b.files(), "end 11 0");
    case.part(14 + 3 * IMAGE, &p.stream[6..32])
}

/// An image of a park that was taken up, and another position, state and cipher.
fn taken_altered(p: &Published) -> Case {
    let mut b = list(vec![0; 9]);
    let image = parked(&mut b, p, 3, 9);
    b.put(&command::resume(3, &image));
    last(format!("{}: number 14, another image of a park taken up", p.name()), b, 5, &some((3, 1)), 4, 14)
}

/// A line parked, taken up and parked again: the second image goes on, and the first is not taken again.
fn again(p: &Published) -> Case {
    let mut b = list(vec![0; 32]);
    let first = parked(&mut b, p, 3, 9);
    b.put(&command::resume(5, &first));
    frames(&mut b, 5, &[4]);
    let second = park(&mut b, 5);
    b.put(&command::resume(3, &second));
    frames(&mut b, 3, &[19]);
    let case = last(format!("{}: number 14, an image of an earlier park of the call", p.name()), b, 1, &first, 8, 14);
    let at = 9 + IMAGE;
    case.part(0, &p.stream[..9]).part(at, &p.stream[9..13]).part(at + 4 + IMAGE, &p.stream[13..32])
}

/// A parked line that is opened, used and closed, and then opened again: its number is held all the while.
fn left_by_others(p: &Published) -> Case {
    let mut b = list(vec![0; 9 + 7 + 3 + 23]);
    let image = parked(&mut b, p, 4, 9);
    b.put(&p.open(4));
    frames(&mut b, 4, &[7]);
    b.put(&command::close(4));
    b.put(&p.open(4));
    frames(&mut b, 4, &[3]);
    b.put(&command::resume(0, &image));
    frames(&mut b, 0, &[23]);
    let case = Case::of(format!("{}: a number is held while its line is in use", p.name()), b.files(), "end 10 0");
    case.part(9 + IMAGE + 7, &p.stream[..3]).part(9 + IMAGE + 10, &p.stream[9..32])
}

/// Two lines parked, and the first call taken up on the second line: that line's number is still held, until it is
/// parked from again.
fn not_the_resuming_lines(p: &Published) -> Case {
    let mut b = list(vec![0; 64]);
    let (one, two) = (parked(&mut b, p, 1, 5), parked(&mut b, p, 2, 7));
    b.put(&command::resume(2, &one));
    b.put(&command::resume(1, &two));
    frames(&mut b, 1, &[25]);
    b.put(&command::close(1));
    let three = parked(&mut b, p, 1, 6);
    park(&mut b, 2);
    b.put(&command::resume(1, &three));
    let case = last(format!("{}: a call taken up on a line that was parked", p.name()), b, 0, &two, 15, 14);
    case.part(12 + 2 * IMAGE, &p.stream[7..32])
}

/// Two calls parked, and the image of the first with the line and the number of the second: it goes on from what it
/// holds, and the second call's number is taken up.
fn exchanged(p: &Published) -> Case {
    let mut b = list(vec![0; 64]);
    let (one, two) = (parked(&mut b, p, 1, 5), parked(&mut b, p, 2, 7));
    b.put(&command::resume(3, &of_park(&one, park_of(&two))));
    frames(&mut b, 3, &[11]);
    b.put(&command::resume(4, &one));
    frames(&mut b, 4, &[13]);
    let case = last(format!("{}: an image with the line and number of another", p.name()), b, 5, &two, 10, 14);
    let at = 12 + 2 * IMAGE;
    case.part(at, &p.stream[5..16]).part(at + 11, &p.stream[5..18])
}

/// All lines parked at once, each call taken up on the next line but two.
fn eight_at_once(all: &[Published]) -> Case {
    on_other_lines("eight calls parked, and taken up in turn", all, (0..8).collect())
}

/// The same from the last to the first.
fn backwards(all: &[Published]) -> Case {
    on_other_lines("eight calls parked, and taken up from the last to the first", all, (0..8).rev().collect())
}

fn on_other_lines(name: &str, all: &[Published], order: Vec<u8>) -> Case {
    let on = |line: u8| &all[usize::from(line) % all.len()];
    let mut b = list(vec![0; 8 * 32]);
    let images: Vec<Vec<u8>> = (0..8).map(|line| parked(&mut b, on(line), line, 9)).collect();
    for line in &order {
        let to = (line + 3) % 8;
        b.put(&command::resume(to, &images[usize::from(*line)]));
        frames(&mut b, to, &[23]);
    }
    let mut case = Case::of(name, b.files(), "end 40 0");
    for (place, line) in order.into_iter().enumerate() {
        case = case.part(8 * (9 + IMAGE) + 23 * place, &on(line).stream[9..32]);
    }
    case
}

/// A call parked on each line and taken up on each; at the end an image again.
fn every_two_lines(all: &[Published]) -> Case {
    let mut b = list(vec![0; 64 * 16]);
    let mut parts = Vec::new();
    for pair in 0..64 {
        let (from, to, p) = (pair / 8, pair % 8, &all[usize::from(pair) % all.len()]);
        let image = parked(&mut b, p, from, 7);
        b.put(&command::resume(to, &image));
        frames(&mut b, to, &[9]);
        b.put(&command::close(to));
        parts.push((usize::from(pair) * (16 + IMAGE) + 7 + IMAGE, p.stream[7..16].to_vec()));
    }
    let image = b.all_images().pop().unwrap_or_default();
    let case = last("a call parked on each line and taken up on each".to_string(), b, 0, &image, 384, 14);
    parts.iter().fold(case, |case, (at, bytes)| case.part(*at, bytes))
}
