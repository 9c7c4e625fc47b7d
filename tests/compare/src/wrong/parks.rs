//! Cards that park and take up wrongly: ways to be wrong about which number a park has, what its image says of it, which
//! held number a resume is matched with and takes up, and which numbers are given.

use super::twist::{Call, Twisted, Way};
use crate::calls::Card;
use crate::command::{from_line, numbered, park_of, Park, IMAGE, LINE_AT, STATE_AT};
use crate::command::{CLOSE, OPEN_OWN, OPEN_TRAY, PARK, RESUME};
use crate::line::Line;
use crate::machine::Answer;
use crate::parks::MOST;

/// A card for each way that shows in a list from a fresh card which ends with its first refusal.
pub fn cards() -> impl Iterator<Item = Box<dyn Card>> {
    COUNTS.iter().chain(&IMAGES).chain(&MATCHED).chain(&TAKEN).chain(&NUMBERS).map(card)
}

/// A card for each way that shows after a refusal, or where parks were made before the list.
pub fn cards_left() -> impl Iterator<Item = Box<dyn Card>> {
    LEFT.iter().map(card)
}

fn card(way: &'static Way) -> Box<dyn Card> {
    Box::new(Twisted::new(way))
}

/// Which number a park has.
static COUNTS: [Way; 7] = [
    ("one count for all lines", |c, call, out| {
        counted(c, call, out, |_, made, _| made.iter().max().copied().unwrap_or(0))
    }),
    ("one count for every two lines", |c, call, out| {
        counted(c, call, out, |line, made, _| made[line].max(made[line ^ 1]))
    }),
    ("the number that is held and one more", |c, call, out| counted(c, call, out, |line, _, held| held[line])),
    ("a close begins its line's count again", |c, call, out| begun(c, call, out, CLOSE)),
    ("an open with its own key begins its line's count again", |c, call, out| begun(c, call, out, OPEN_OWN)),
    ("an open from the tray begins its line's count again", |c, call, out| begun(c, call, out, OPEN_TRAY)),
    ("a resume brings the number to its line's count", |c, call, out| {
        let answer = c.right(call, out);
        if let Some((line, (_, number))) = resumed(call).filter(|_| answer.code == 0) {
            c.set_parks(|made, _| made[usize::from(line)] = made[usize::from(line)].max(number));
        }
        answer
    }),
];

/// What an image says of its park.
static IMAGES: [Way; 6] = [
    ("the line is behind the number", |c, call, out| {
        written(c, call, out, |_, _, image| image[LINE_AT..STATE_AT].rotate_left(1))
    }),
    ("the line is before the position", |c, call, out| {
        written(c, call, out, |_, _, image| image[1..=LINE_AT].rotate_right(1))
    }),
    ("lines are counted from 1", |c, call, out| written(c, call, out, |_, _, image| image[LINE_AT] += 1)),
    ("line 0 in every image", |c, call, out| written(c, call, out, |_, _, image| image[LINE_AT] = 0)),
    ("the line that the call was first parked from", |c, call, out| {
        let answer = written(c, call, out, |c, line, image| {
            c.from[usize::from(line)].into_iter().for_each(|from| image[LINE_AT] = from)
        });
        if let Some((line, (from, _))) = resumed(call).filter(|_| answer.code == 0) {
            c.from[usize::from(line)] = Some(from);
        }
        answer
    }),
    ("an image of 165 bytes", |c, call, out| match (call.of(PARK), c.right(call, out)) {
        (Some(_), answer @ Answer { code: 0, .. }) => Answer { written: IMAGE - 1, ..answer },
        (_, answer) => answer,
    }),
];

/// Which held number a resume is matched with.
static MATCHED: [Way; 7] = [
    ("matched with the resuming line", |c, call, out| {
        matched(c, call, out, |_, on, (line, _)| if line < 8 { on } else { line })
    }),
    ("matched with every line", |c, call, out| {
        matched(c, call, out, |c, _, park| match park.0 < 8 && !c.machine.parks().holds(park) {
            true => holding(c, park),
            false => park.0,
        })
    }),
    ("matched with the first line that has the number", |c, call, out| {
        matched(c, call, out, |c, _, park| if park.0 < 8 { holding(c, park) } else { park.0 })
    }),
    ("matched with the low three bits of the line", |c, call, out| matched(c, call, out, |_, _, (line, _)| line % 8)),
    ("a line over 7 is taken for line 7", |c, call, out| matched(c, call, out, |_, _, (line, _)| line.min(7))),
    ("number 0 is held where none is", |c, call, out| {
        if let Some((_, (line, 0))) = resumed(call).filter(|_| c.code(call, out) == 14) {
            let place = usize::from(line);
            if c.machine.parks().held()[place] == 0 {
                c.set_parks(|made, held| (made[place], held[place]) = (made[place].max(1), 1));
                let command = [&call.command[..2], &numbered(&call.command[2..2 + IMAGE], 1)].concat();
                return c.right(&call.with(&command), out);
            }
        }
        c.right(call, out)
    }),
    ("the low byte of the number is left out", |c, call, out| {
        if let Some((_, (line, number))) = resumed(call).filter(|_| c.code(call, out) == 14) {
            let held = c.machine.parks().held()[usize::from(line)];
            if number != 0 && held >> 8 == number >> 8 {
                let command = [&call.command[..2], &numbered(&call.command[2..2 + IMAGE], held)].concat();
                return c.right(&call.with(&command), out);
            }
        }
        c.right(call, out)
    }),
];

/// What a resume takes up.
static TAKEN: [Way; 4] = [
    ("nothing is taken up", |c, call, out| {
        taken(c, call, out, |held, _, (from, number)| held[usize::from(from)] = number)
    }),
    ("the number of the resuming line is taken up", |c, call, out| {
        taken(c, call, out, |held, on, (from, number)| {
            held[usize::from(from)] = number;
            held[usize::from(on)] = 0;
        })
    }),
    ("the number is taken up of every line", |c, call, out| {
        taken(c, call, out, |held, _, (_, number)| {
            held.iter_mut().filter(|held| **held == number).for_each(|held| *held = 0)
        })
    }),
    ("the numbers of all lines are taken up", |c, call, out| taken(c, call, out, |held, _, _| held.fill(0))),
];

/// Which numbers are given.
static NUMBERS: [Way; 5] = [
    ("14 for a parking line of 8", |c, call, out| c.said(call, out, (RESUME, [8, 14]), |_, _, call| from(call) == 8)),
    ("14 for a parking line over 7", |c, call, out| c.said(call, out, (RESUME, [8, 14]), |_, _, call| over(call))),
    ("3 for a parking line over 7", |c, call, out| c.said(call, out, (RESUME, [8, 3]), |_, _, call| over(call))),
    ("8 for a parking line of 7", |c, call, out| c.said(call, out, (RESUME, [0, 8]), |_, _, call| from(call) == 7)),
    ("14 before 8 for a line over 7", |c, call, out| {
        c.said(call, out, (RESUME, [8, 14]), |c, _, call| {
            let held = c.machine.parks().held();
            over(call) && !held.contains(&park_of(&call.command[2..]).1)
        })
    }),
];

/// 15, and what a refusal leaves.
static LEFT: [Way; 6] = [
    ("15 where any line has none left", |c, call, out| refused(c, call, out, |_, made| made.contains(&MOST))),
    ("15 by all lines' parks together", |c, call, out| {
        refused(c, call, out, |_, made| made.iter().map(|&count| u64::from(count)).sum::<u64>() >= MOST.into())
    }),
    ("15 a park early", |c, call, out| refused(c, call, out, |line, made| made[line] >= MOST - 1)),
    ("15 by the next line's count", |c, call, out| refused(c, call, out, |line, made| made[(line + 1) % 8] == MOST)),
    ("the count runs over", |c, call, out| {
        if let Some(line) = call.of(PARK).filter(|_| c.code(call, out) == 15) {
            c.set_parks(|made, held| (made[usize::from(line)], held[usize::from(line)]) = (0, 0));
        }
        c.right(call, out)
    }),
    ("a refused park counts", |c, call, out| {
        let answer = c.right(call, out);
        if let Some(line) = call.of(PARK).filter(|_| answer.code == 12) {
            c.set_parks(|made, _| made[usize::from(line)] += 1);
        }
        answer
    }),
];

/// The line of a whole resume, and the park that its image is of.
fn resumed(call: &Call) -> Option<(u8, Park)> {
    Some((call.of(RESUME)?, park_of(&call.command[2..])))
}

/// The line in the image of a whole resume.
fn from(call: &Call) -> u8 {
    call.command[2 + LINE_AT]
}

/// Whether number 8 lets the image of a whole resume pass, but perhaps for its line.
fn fits(call: &Call) -> bool {
    Line::from_image(&from_line(&call.command[2..2 + IMAGE], 0)).is_some()
}

/// Whether it refuses it for its line alone.
fn over(call: &Call) -> bool {
    from(call) > 7 && fits(call)
}

/// The first line that holds the number of a park; the park's own if none does.
fn holding(c: &Twisted, (own, number): Park) -> u8 {
    (0..8).find(|&line| c.machine.parks().holds((line, number))).unwrap_or(own)
}

/// Makes a park that is accepted with another count of its line, by the counts and the held numbers.
fn counted(c: &mut Twisted, call: &Call, out: &mut [u8], count: fn(usize, &[u32], &[u32]) -> u32) -> Answer {
    if let Some(line) = call.of(PARK).filter(|_| c.code(call, out) == 0) {
        c.set_parks(|made, held| {
            let line = usize::from(line);
            (made[line], held[line]) = (count(line, made, held).min(MOST - 1), 0);
        });
    }
    c.right(call, out)
}

/// Makes a call; after one of this kind that is accepted, its line has made no park, and no number is held of it.
fn begun(c: &mut Twisted, call: &Call, out: &mut [u8], kind: u8) -> Answer {
    let answer = c.right(call, out);
    if let Some(line) = call.of(kind).filter(|_| answer.code == 0) {
        c.set_parks(|made, held| (made[usize::from(line)], held[usize::from(line)]) = (0, 0));
    }
    answer
}

/// Makes a call; does to the image that an accepted park wrote what `then` says.
fn written(c: &mut Twisted, call: &Call, out: &mut [u8], then: fn(&Twisted, u8, &mut [u8])) -> Answer {
    let answer = c.right(call, out);
    if let Some(line) = call.of(PARK).filter(|_| answer.code == 0) {
        then(c, line, &mut out[..IMAGE]);
    }
    answer
}

/// Makes a resume, unless 8 is said of more than its line, with the line in its image that `to` gives by the line that
/// resumes and the image's park.
fn matched(c: &mut Twisted, call: &Call, out: &mut [u8], to: fn(&Twisted, u8, Park) -> u8) -> Answer {
    let Some((on, park)) = resumed(call).filter(|_| fits(call)) else {
        return c.right(call, out);
    };
    let image = from_line(&call.command[2..2 + IMAGE], to(c, on, park));
    c.right(&call.with(&[&[RESUME, on], &image[..]].concat()), out)
}

/// Makes a call; after an accepted resume, does to the held numbers what `then` says.
fn taken(c: &mut Twisted, call: &Call, out: &mut [u8], then: fn(&mut [u32], u8, Park)) -> Answer {
    let answer = c.right(call, out);
    if let Some((on, park)) = resumed(call).filter(|_| answer.code == 0) {
        c.set_parks(|_, held| then(held, on, park));
    }
    answer
}

/// Says 15 to a park that would be accepted or have 12, where `so` holds of its line and the counts.
fn refused(c: &mut Twisted, call: &Call, out: &mut [u8], so: fn(usize, &[u32]) -> bool) -> Answer {
    match call.of(PARK) {
        Some(line) if [0, 12].contains(&c.code(call, out)) && so(line.into(), &c.machine.parks().made()) => {
            Answer::refused(15)
        }
        _ => c.right(call, out),
    }
}
