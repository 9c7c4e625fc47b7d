//! The parks of each line by themselves: lines count on their own, the same number is held of several lines at once, and
//! an image is matched with the line in it, whatever line resumes.

use super::numbers::{last, parked, some};
use super::parks::{frames, head, list, park};
use super::published::{self, Published};
use super::{altered, full, Case};
use crate::command::{self, from_line, numbered, of_park, Park, IMAGE, LINE_AT};

pub fn cases() -> Vec<Case> {
    let all = published::each();
    let mut cases: Vec<Case> = all.iter().flat_map(|p| [same_number(p), the_other_first(p), one_replaced(p)]).collect();
    cases.extend(all.iter().flat_map(|p| [parked_elsewhere(p), back_and_forth(p), again_by_number(p)]));
    cases.extend(all.iter().flat_map(pairs));
    cases.extend([matched_with_each_line(), busy_line()].into_iter().flatten());
    cases.extend([many_lines(&all), beside_a_busy_line(), taken_up_of_one()]);
    cases
}

/// Two calls parked, both with number 1, and both taken up, each on the other's line; the first then is refused.
fn same_number(p: &Published) -> Case {
    let mut b = list(vec![0; 64]);
    let (one, two) = (parked(&mut b, p, 1, 5), parked(&mut b, p, 2, 7));
    b.put(&command::resume(2, &one));
    frames(&mut b, 2, &[27]);
    b.put(&command::resume(1, &two));
    frames(&mut b, 1, &[25]);
    let case = last(format!("{}: the same number from two lines", p.name()), b, 0, &one, 10, 14);
    let at = 12 + 2 * IMAGE;
    let case = case.part(5, &head(p, 5, (1, 1))).part(12 + IMAGE, &head(p, 7, (2, 1)));
    case.part(at, &p.stream[5..32]).part(at + 27, &p.stream[7..32])
}

/// The same with the second taken up first, on a third line; it then is refused, and the first isn't touched by that.
fn the_other_first(p: &Published) -> Case {
    let mut b = list(vec![0; 64]);
    let (one, two) = (parked(&mut b, p, 6, 5), parked(&mut b, p, 0, 7));
    b.put(&command::resume(3, &two));
    b.put(&command::resume(7, &one));
    frames(&mut b, 7, &[27]);
    let case = last(format!("{}: the same number from two lines, the second first", p.name()), b, 0, &two, 9, 14);
    case.part(12 + 2 * IMAGE, &p.stream[5..32])
}

/// Two calls parked with the same number, and one line parked again: the other's is held, and its own first is not.
fn one_replaced(p: &Published) -> Case {
    let mut b = list(vec![0; 64]);
    let (one, two) = (parked(&mut b, p, 4, 5), parked(&mut b, p, 5, 7));
    parked(&mut b, p, 4, 9);
    b.put(&command::resume(4, &two));
    frames(&mut b, 4, &[25]);
    let case = last(format!("{}: a later park of one of two lines with one number", p.name()), b, 3, &one, 11, 14);
    case.part(21 + 2 * IMAGE, &head(p, 9, (4, 2))).part(21 + 3 * IMAGE, &p.stream[7..32])
}

/// A call parked, taken up on another line and parked there: its image has that line, and that line's number.
fn parked_elsewhere(p: &Published) -> Case {
    let mut b = list(vec![0; 32]);
    parked(&mut b, p, 6, 1);
    parked(&mut b, p, 6, 2);
    let image = parked(&mut b, p, 2, 5);
    b.put(&command::resume(6, &image));
    frames(&mut b, 6, &[4]);
    let image = park(&mut b, 6);
    b.put(&command::resume(2, &image));
    frames(&mut b, 2, &[20]);
    let name = format!("{}: parked from the line that it was taken up on", p.name());
    let case = last(name, b, 7, &numbered(&image, 1), 14, 14);
    let at = 3 + 2 * IMAGE;
    let case = case.part(at + 5, &head(p, 5, (2, 1))).part(at + 5 + IMAGE, &p.stream[5..9]);
    case.part(at + 9 + IMAGE, &head(p, 9, (6, 3))).part(at + 9 + 2 * IMAGE, &p.stream[9..29])
}

/// A call carried from one line to another and back, and so on: each line counts its own parks of it.
fn back_and_forth(p: &Published) -> Case {
    let mut b = list(vec![0; 32]);
    b.put(&p.open(0));
    let lines = [0, 5, 0, 5, 0, 3, 0];
    for (line, next) in lines.into_iter().zip(&lines[1..]) {
        frames(&mut b, line, &[4]);
        let image = park(&mut b, line);
        b.put(&command::resume(*next, &image));
    }
    frames(&mut b, 0, &[8]);
    let mut case = Case::of(format!("{}: carried to and fro between lines", p.name()), b.files(), "end 20 0");
    let parks = [(0, 1), (5, 1), (0, 2), (5, 2), (0, 3), (3, 1)];
    for (place, park) in (0..).zip(parks) {
        let at = place * (4 + IMAGE);
        case = case.part(at, &p.stream[4 * place..4 * place + 4]).part(at + 4, &head(p, 4 * place + 4, park));
    }
    case.part(6 * (4 + IMAGE), &p.stream[24..32])
}

/// Numbers run on after a call is taken up: the next park of the line has the next number.
fn again_by_number(p: &Published) -> Case {
    let mut b = list(vec![0; 32]);
    let first = parked(&mut b, p, 7, 3);
    b.put(&command::resume(0, &first));
    b.put(&command::close(0));
    let second = parked(&mut b, p, 7, 5);
    b.put(&command::resume(7, &second));
    frames(&mut b, 7, &[24]);
    let case = last(format!("{}: a number taken up is not given again", p.name()), b, 1, &first, 10, 14);
    case.part(8 + IMAGE, &head(p, 5, (7, 2))).part(8 + 2 * IMAGE, &p.stream[5..29])
}

/// Line 1 parked twice and line 2 three times, and every pair of these lines and of numbers up to four, in the image of
/// either: the two that are held are taken, and no other.
fn pairs(p: &Published) -> Vec<Case> {
    let of = |from: u8, park: Park| {
        let mut b = list(vec![0; 64]);
        let lines = [1, 2, 2, 1, 2];
        let images: Vec<Vec<u8>> = lines.into_iter().map(|line| parked(&mut b, p, line, 3)).collect();
        let image = images[if from == 1 { 3 } else { 4 }].clone();
        let (line, number) = park;
        let held = [(1, 2), (2, 3)].contains(&park);
        let name = format!("{}: line {from}'s image with line {line} and number {number}", p.name());
        last(name, b, 3, &of_park(&image, park), 15 + usize::from(held), if held { 0 } else { 14 })
    };
    let all = [1, 2].into_iter().flat_map(|line| (0..=4).map(move |number| (line, number)));
    all.flat_map(|park| [of(1, park), of(2, park)]).collect()
}

/// One line parked, and its image with each line in it, resumed there and on the line that parked: with its own it is
/// taken, on whichever line, and with no other.
fn matched_with_each_line() -> Vec<Case> {
    let of = |parked: u8, line: u8, on: u8| {
        let image = from_line(&some((parked, 1)), line);
        let commands = [&altered::parked(parked)[..], &[command::resume(on, &image)]].concat();
        let (accepted, code) = if line == parked { (3, 0) } else { (2, 14) };
        let name = format!("line {parked} parked, line {line} in its image, resumed on line {on}");
        Case::new(name, &commands, format!("end {accepted} {code}")).out(&altered::written((parked, 1)))
    };
    let lines = [0, 3, 7].into_iter().flat_map(|parked| (0..8).map(move |line| (parked, line)));
    let on = |parked: u8, line: u8| if line == parked { (line + 5) % 8 } else { parked };
    lines.flat_map(|(parked, line)| [line, on(parked, line)].map(|on| of(parked, line, on))).collect()
}

/// A line parked 300 times and another then once: that one has number 1, and is taken up by it; with the busy line's
/// number it is refused, and the busy line's with 1.
fn busy_line() -> Vec<Case> {
    let of = |what: &str, park: Park, code: u8| {
        let commands = [full::parks(300), vec![full::open(6), command::park(6)]].concat();
        let commands = [commands, vec![command::resume(1, &some(park))]].concat();
        let end = format!("end {} {code}", 602 + usize::from(code == 0));
        let case = Case::new(format!("after 300 parks of another line, {what}"), &commands, end).tray(full::tray());
        case.part(299 * IMAGE + LINE_AT, &[0, 0, 0, 1, 44]).part(300 * IMAGE + LINE_AT, &[6, 0, 0, 0, 1])
    };
    vec![
        of("a line's first", (6, 1), 0),
        of("the busy line's last", (0, 300), 0),
        of("the busy line's number", (6, 300), 14),
        of("the next number of all", (6, 301), 14),
        of("the busy line with 1", (0, 1), 14),
    ]
}

/// Parks of all lines, mixed, each line from once to eight times; then the last of each is taken up.
fn many_lines(all: &[Published]) -> Case {
    let on = |line: u8| &all[usize::from(line) % all.len()];
    let order: Vec<u8> = (1..=8).flat_map(|round| (0..8).rev().filter(move |line| line % round == 0)).collect();
    let mut b = list(vec![0; 3 * order.len() + 8 * 5]);
    let images: Vec<Vec<u8>> = order.iter().map(|&line| parked(&mut b, on(line), line, 3)).collect();
    let newest = |line: u8| images.iter().rfind(|image| image[LINE_AT] == line).cloned().unwrap_or_default();
    for line in 0..8 {
        b.put(&command::resume((line + 1) % 8, &newest(line)));
        frames(&mut b, (line + 1) % 8, &[5]);
    }
    let mut case = Case::of("parks of many lines", b.files(), format!("end {} 0", 3 * order.len() + 16));
    let mut counts = [0; 8];
    for (place, &line) in order.iter().enumerate() {
        counts[usize::from(line)] += 1;
        let park = (line, counts[usize::from(line)]);
        case = case.part(place * (3 + IMAGE) + 3, &head(on(line), 3, park));
    }
    for line in 0..8 {
        case = case.part(order.len() * (3 + IMAGE) + 5 * usize::from(line), &on(line).stream[3..8]);
    }
    case
}

/// Line 0 parked as often as out allows but for two images, with the two of another line in between.
fn beside_a_busy_line() -> Case {
    let other = [full::open(5), command::park(5)];
    let commands = [full::parks(150), other.to_vec(), full::parks(242), other.to_vec()].concat();
    let case = Case::new("two parks of a line between those of a busy one", &commands, "end 788 0").tray(full::tray());
    let heads = [(149, [0, 0, 0, 0, 150]), (150, [5, 0, 0, 0, 1]), (151, [0, 0, 0, 0, 151])];
    let ends = [(392, [0, 0, 0, 1, 0x88]), (393, [5, 0, 0, 0, 2])];
    heads.iter().chain(&ends).fold(case, |case, (place, bytes)| case.part(place * IMAGE + LINE_AT, bytes))
}

/// All lines parked with the same number, and one taken up: all others are taken up after it, and that one is not.
fn taken_up_of_one() -> Case {
    let mut commands: Vec<Vec<u8>> = (0..8).flat_map(altered::parked).collect();
    let order = [3, 0, 7, 1, 6, 2, 5, 4];
    for line in order {
        commands.extend([command::resume(2, &some((line, 1))), command::close(2)]);
    }
    commands.push(command::resume(2, &some((3, 1))));
    let written: Vec<u8> = (0..8).flat_map(|line| altered::written((line, 1))).collect();
    Case::new("eight lines parked with one number, each taken up once", &commands, "end 32 14").out(&written)
}
