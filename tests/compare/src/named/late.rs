//! Changes of key on lines that are far on, by images that are altered to be there: at 2^36, where the old keystream
//! ends and the new one may go on, and about 2^32.

use super::published;
use super::script::{case, Pair, NEW};
use super::{altered, positions, Case};
use crate::command::{self, IMAGE};
use crate::machine::END;

pub fn cases() -> Vec<Case> {
    let each = |p: &Pair| [end(p), stops(p), across_32_bits(p), far_ahead(p), passed(p)].into_iter().flatten();
    published::pairs().iter().flat_map(each).collect()
}

/// The line of these cases.
const LINE: u8 = 3;

/// Commands on a line that is resumed at a position, with a change at another and crypts of these counts; data is zeros.
fn from(p: &Pair, what: &str, position: u64, due: u64, counts: &[u16], end: &str) -> Case {
    let mut commands = altered::resumed(LINE, &positions::image(p[0].cipher, position));
    commands.push(p[1].change(LINE, NEW, due));
    commands.extend(counts.iter().map(|&count| command::crypt(LINE, count)));
    case(p, what, &commands, end).data(vec![0; counts.iter().copied().map(usize::from).sum()])
}

/// The last four bytes before 2^36, or fewer, and then the new keystream, in one frame or several.
fn end(p: &Pair) -> Vec<Case> {
    let four = positions::last_four(p[0].cipher);
    let of = |what: &str, left: usize, counts: &[u16]| {
        let count: usize = counts.iter().copied().map(usize::from).sum();
        let (accepted, position) = (4 + counts.len(), END - left as u64);
        let stream = [&four[4 - left..], &p[1].stream[..count - left]].concat();
        from(p, what, position, END, counts, &format!("end {accepted} 0")).part(IMAGE, &stream)
    };
    vec![
        of("n = 2^36 - 4 and a change at 2^36, a frame of 36 bytes", 4, &[36]),
        of("n = 2^36 - 4 and a change at 2^36, frames of 4 and 32 bytes", 4, &[4, 32]),
        of("n = 2^36 - 4 and a change at 2^36, frames of 0, 3, 0, 2, 0 and 31 bytes", 4, &[0, 3, 0, 2, 0, 31]),
        of("n = 2^36 - 1 and a change at 2^36, frames of 1, 0 and 32 bytes", 1, &[1, 0, 32]),
        of("n = 2^36 - 1 and a change at 2^36, a frame of 2 bytes", 1, &[2]),
        of("n = 2^36 and a change there, a frame of 32 bytes", 0, &[32]),
        of("n = 2^36 and a change there, frames of 0 and 1 bytes", 0, &[0, 1]),
        from(p, "n = 2^36 - 4 and a change there", END - 4, END - 4, &[32], "end 5 0").part(IMAGE, &p[1].stream[..32]),
        from(p, "n = 2^36 - 4 and a change at 2^36 - 1, a frame of 35 bytes", END - 4, END - 1, &[35], "end 5 0")
            .part(IMAGE, &[&four[..3], &p[1].stream[..32]].concat()),
    ]
}

/// With no change ahead 13 is given as before; where one waits it never is, for the change comes due by 2^36. One that
/// waits far ahead isn't in the way of frames, and a long frame may span one.
fn stops(p: &Pair) -> Vec<Case> {
    let before = altered::resumed(LINE, &positions::image(p[0].cipher, END - 4));
    let of = |what: &str, commands: &[Vec<u8>], end: &str| {
        case(p, what, &[&before[..], commands].concat(), end).data(vec![0; 70])
    };
    let (change, frame) = (|due: u64| p[1].change(LINE, NEW, due), |count: u16| command::crypt(LINE, count));
    let longest =
        from(p, "n = 2^36 - 4, a change at 2^36 and a frame of 16,384 bytes", END - 4, END, &[16_384], "end 5 0");
    let again = [change(END), command::close(LINE), p[0].open(LINE), change(END), frame(32)];
    vec![
        of("n = 2^36 - 4 and no change, a frame of 5 bytes", &[frame(5)], "end 3 13"),
        of("n = 2^36 - 4, a change at once and a frame of 5 bytes", &[change(END - 4), frame(5)], "end 5 0"),
        of("n = 2^36 - 4 and a change at 2^36, no data", &[change(END), frame(71)], "end 4 11"),
        longest.part(IMAGE + 4, &p[1].stream[..32]),
        of("a change at 2^36 from the first byte on", &again, "end 8 0").part(IMAGE, &p[0].stream[..32]),
    ]
}

/// Changes before, at and behind 2^32 from a few bytes before it.
fn across_32_bits(p: &Pair) -> Vec<Case> {
    let middle = 1 << 32;
    let of = |due: u64| {
        let (position, before) = (middle - 7, (due + 7 - middle) as usize);
        let what = format!("n = 2^32 - 7 and a change {before} bytes on");
        from(p, &what, position, due, &[5, 30], "end 6 0").part(IMAGE + before, &p[1].stream[..35 - before.max(3)])
    };
    [middle - 7, middle - 1, middle, middle + 1, middle + 9].map(of).into()
}

/// Changes that wait beyond the next frames, some with a low half below the line's: a park is refused, so they still wait.
fn far_ahead(p: &Pair) -> Vec<Case> {
    let of = |position: u64, due: u64| {
        let mut commands = altered::resumed(LINE, &positions::image(p[0].cipher, position));
        commands.extend([p[1].change(LINE, NEW, due), command::crypt(LINE, 20), command::park(LINE)]);
        case(p, &format!("n = {position} and a change at {due} waits"), &commands, "end 5 17").data(vec![0; 20])
    };
    let places = [(5, 1 << 32), (5, (1 << 32) + 6), ((1 << 32) + 7, (1 << 33) + 8), ((1 << 32) + 7, END)];
    let low_halves = [((1 << 32) + 7, 1 << 33), ((1 << 32) + 7, (2 << 32) + 3), ((15 << 32) + 7, END)];
    places.into_iter().chain(low_halves).map(|(position, due)| of(position, due)).collect()
}

/// Changes below the line's position, some with a low half above the line's, and above 2^36: number 18.
fn passed(p: &Pair) -> Vec<Case> {
    let of = |position: u64, due: u64| {
        let mut commands = altered::resumed(LINE, &positions::image(p[0].cipher, position));
        commands.push(p[1].change(LINE, NEW, due));
        case(p, &format!("number 18, n = {position} and a change at {due}"), &commands, "end 3 18")
    };
    let below = [(1 << 32, (1 << 32) - 1), ((1 << 32) + 7, 8), ((1 << 32) + 7, 7), ((2 << 32) + 7, (1 << 32) + 9)];
    let above = [(END, END - 1), (END, 0), (END, END + 1), (END - 1, END + 1), (5, END + 5), (5, (1 << 40) + 6)];
    below.into_iter().chain(above).map(|(position, due)| of(position, due)).collect()
}
