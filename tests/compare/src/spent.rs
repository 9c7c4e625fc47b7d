//! Parks that a card doesn't hold, in each way that there is for it.

use crate::builder::Builder;
use crate::command::{self, from_line, numbered, of_park, park_of, Park};
use crate::images;
use crate::ledger::Fate;
use crate::plain;
use crate::random::Random;

/// How many ways there are, as told apart here.
pub const WAYS: usize = 10;

/// Makes the parks that a way needs, where the list has none such: one that is taken up, one that is replaced, or one
/// that is held.
pub fn prepare(b: &mut Builder, way: usize) {
    match way % WAYS {
        3 | 4 if b.images(Fate::TakenUp).is_empty() => {
            let (line, image) = (plain::idle_line(b), plain::held_image(b));
            b.put(&command::resume(line, &image));
        }
        5 | 6 if b.images(Fate::Replaced).is_empty() => {
            let line = plain::idle_line(b);
            for _ in 0..2 {
                plain::open_line(b, line);
                b.put(&command::park(line));
            }
        }
        7..=9 => drop(plain::held_image(b)),
        _ => (),
    }
}

/// An image that is well formed and whose park isn't held, by the way counted round: with number 0, with a line's next
/// number, with one further above its count, of a park taken up, of one replaced, with a number that differs from a held
/// one in a few bits, or with a held number and another line. Parks that were made stand in their own images or in
/// others.
pub fn image(b: &mut Builder, way: usize) -> Vec<u8> {
    let line = b.random.between(0, 7) as u8;
    let above = b.parks(line) + 1;
    match way % WAYS {
        0 => with(b, (line, 0)),
        1 => with(b, (line, above)),
        2 => {
            let number = further(&mut b.random, above);
            with(b, (line, number))
        }
        3 => of(b, Fate::TakenUp, true),
        4 => of(b, Fate::TakenUp, false),
        5 => of(b, Fate::Replaced, true),
        6 => of(b, Fate::Replaced, false),
        7 => near(b),
        8 => other_line(b, true),
        _ => other_line(b, false),
    }
}

/// An image of this park: mostly one that a park wrote, else one from elsewhere.
fn with(b: &mut Builder, park: Park) -> Vec<u8> {
    let all = b.all_images();
    let own = !all.is_empty() && b.random.chance(60);
    let image = if own { b.random.pick(&all) } else { images::elsewhere(&mut b.random) };
    of_park(&image, park)
}

/// A number above this one, which is above the count.
fn further(random: &mut Random, above: u32) -> u32 {
    let any = random.between(above.into(), u32::MAX.into()) as u32;
    random.pick(&[u32::MAX, 1 << 31, above << 16, above << 8, any])
}

/// An image of a park of this fate, as that park wrote it or altered.
fn of(b: &mut Builder, fate: Fate, own: bool) -> Vec<u8> {
    let images = b.images(fate);
    if images.is_empty() {
        return with(b, images::NO_PARK);
    }
    let image = b.random.pick(&images);
    if own {
        image
    } else {
        with(b, park_of(&image))
    }
}

/// The image of a park that is held, with some bits of its number changed so that it is none.
fn near(b: &mut Builder) -> Vec<u8> {
    let image = plain::held_image(b);
    let (_, number) = park_of(&image);
    let bit = 1 << b.random.between(16, 31);
    let changed = b.random.pick(&[number.swap_bytes(), number ^ bit, number.rotate_left(16), !number]);
    numbered(&image, changed)
}

/// The image of a park that is held, as that park wrote it or altered, but with a line of which another number is held or
/// none; number 0 where there is no such line.
fn other_line(b: &mut Builder, own: bool) -> Vec<u8> {
    let image = plain::held_image(b);
    let (_, number) = park_of(&image);
    let held: Vec<Park> = b.images(Fate::Held).iter().map(|image| park_of(image)).collect();
    let lines: Vec<u8> = (0..8).filter(|&line| !held.contains(&(line, number))).collect();
    if lines.is_empty() {
        return with(b, images::NO_PARK);
    }
    let line = b.random.pick(&lines);
    if own {
        from_line(&image, line)
    } else {
        with(b, (line, number))
    }
}

#[cfg(test)]
mod tests {
    use super::*;
    use crate::command::IMAGE;
    use crate::ledger::Resume;
    use crate::program;
    use crate::subject::Tally;
    use crate::{ledger::Ledger, trays};

    #[test]
    fn every_way_is_14_and_of_its_kind() {
        let above = [Resume::NoneMade, Resume::Above, Resume::OtherLine];
        let kinds = [
            &[Resume::Zero][..],
            &above,
            &above,
            &[Resume::TakenUp, Resume::OtherLine],
            &[Resume::TakenUp, Resume::OtherLine],
            &[Resume::Replaced, Resume::OtherLine],
            &[Resume::Replaced, Resume::OtherLine],
            &[Resume::Above],
            &[Resume::OtherLine],
            &[Resume::OtherLine],
        ];
        for way in 0..3 * WAYS {
            let mut random = Random::new(11, way as u64);
            let tray = trays::useful(&mut random);
            let mut b = Builder::new(random, tray, vec![0; 500]);
            plain::steps(&mut b, way);
            prepare(&mut b, way);
            let line = plain::idle_line(&mut b);
            let image = image(&mut b, way);
            assert_eq!(image.len(), IMAGE);
            b.put(&command::resume(line, &image));
            let (mut tally, mut ledger, files) = (Tally::default(), Ledger::default(), b.files());
            for (call, answer, out) in program::run(&files).written() {
                tally.note(&mut ledger, call.command, answer, out);
            }
            let of_kind: u64 = kinds[way % WAYS].iter().map(|&kind| tally.resumes[kind as usize]).sum();
            assert_eq!((tally.codes[14], of_kind), (1, 1), "{way}");
        }
    }
}
