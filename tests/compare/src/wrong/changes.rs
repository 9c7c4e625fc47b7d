//! Cards that change keys wrongly: ways to be wrong about when a change comes due, what becomes of the line and of a
//! frame across it, what waits, and which numbers are given.

use super::twist::{at, Call, Twisted, Way};
use crate::calls::Card;
use crate::command::{self, CHANGE_KEY, CLOSE, CRYPT, IMAGE, IV, OPEN_OWN, OPEN_TRAY, PARK};
use crate::images::{image, NO_PARK};
use crate::machine::{Answer, SeenChange, END};

/// A card for each way that shows in a list which ends with its first refusal.
pub fn cards() -> impl Iterator<Item = Box<dyn Card>> {
    let ways = DUE.iter().chain(&LINES).chain(&FRAMES).chain(&WAITING).chain(&NUMBERS).chain(&KEYS);
    ways.map(card)
}

/// A card for each way that shows after a refusal.
pub fn cards_left() -> impl Iterator<Item = Box<dyn Card>> {
    LEFT.iter().map(card)
}

fn card(way: &'static Way) -> Box<dyn Card> {
    Box::new(Twisted::new(way))
}

/// When a change comes due.
static DUE: [Way; 7] = [
    ("due a byte late", |c, call, out| c.due(call, out, |_, _, at| at + 1)),
    ("due a byte early", |c, call, out| c.due(call, out, |_, _, at| at.saturating_sub(1))),
    ("due at once", |c, call, out| c.due(call, out, |c, line, _| c.position(line))),
    ("due at a unit's end", |c, call, out| c.due(call, out, unit_end)),
    ("due without the high half", |c, call, out| c.due(call, out, |_, _, at| at % (1 << 32))),
    ("due by a crypt of no bytes", |c, call, out| empty(c, call, out, come)),
    ("07 is no command", |c, call, out| match call.command.first() {
        Some(&CHANGE_KEY) => Answer::refused(2),
        _ => c.right(call, out),
    }),
];

/// What becomes of a line.
static LINES: [Way; 4] = [
    ("the old position is kept", |c, call, out| c.moved(call, out, |due, at, _| due + at)),
    ("the old place in a unit is kept", |c, call, out| c.moved(call, out, |due, at, unit| due % unit + at)),
    ("the key number as in an open", |c, call, out| other(c, call, out, |change| change[2] = change[3])),
    ("the IV is not used", |c, call, out| other(c, call, out, |change| change[3..3 + IV].fill(0))),
];

/// What becomes of a frame across a change.
static FRAMES: [Way; 6] = [
    ("a frame goes no further", |c, call, out| match call.crypt().and_then(|(line, _)| Some((line, c.until(line)?))) {
        Some((line, until)) if call.crypt() > Some((line, until)) && c.code(call, out) == 0 => {
            c.right(&call.with(&command::crypt(line, until as u16)), out)
        }
        _ => c.right(call, out),
    }),
    ("the new part from the text's start", |c, call, out| {
        c.spanning(call, out, |s, out| (s.before..out.len()).for_each(|i| out[i] ^= s.data[i] ^ s.data[i - s.before]))
    }),
    ("the new part to out's start", |c, call, out| {
        c.spanning(call, out, |s, out| {
            out.copy_within(s.before.., 0);
            let end = s.before.max(out.len() - s.before);
            out[end..].copy_from_slice(&s.was[end..]);
        })
    }),
    ("the new part is not written", |c, call, out| {
        c.spanning(call, out, |s, out| out[s.before..].copy_from_slice(&s.was[s.before..]))
    }),
    ("the new part is not enciphered", |c, call, out| {
        c.spanning(call, out, |s, out| out[s.before..].copy_from_slice(&s.data[s.before..]))
    }),
    ("20 bytes are used", |c, call, out| match (call.of(CHANGE_KEY), c.right(call, out)) {
        (Some(_), answer @ Answer { code: 0, .. }) => Answer { used_command: 20, ..answer },
        (_, answer) => answer,
    }),
];

/// What waits.
static WAITING: [Way; 5] = [
    ("a second change replaces the first", |c, call, out| c.again(call, out, (CHANGE_KEY, 17))),
    ("a park is taken while one waits", |c, call, out| c.again(call, out, (PARK, 17))),
    ("dropped by a crypt of no bytes", |c, call, out| empty(c, call, out, Twisted::drop_change)),
    ("dropped by a crypt that ends there", |c, call, out| {
        let ends = call.crypt().filter(|&(line, count)| count > 0 && c.until(line) == Some(count));
        ends.into_iter().for_each(|(line, _)| c.drop_change(line));
        c.right(call, out)
    }),
    ("left by a close to the next call", left_to_the_next),
];

/// What a refusal leaves; it shows in the calls after it.
static LEFT: [Way; 2] = [
    ("a refused change drops the first", |c, call, out| after(c, call, out, (CHANGE_KEY, 17), Twisted::drop_change)),
    ("a refused park brings the change due", |c, call, out| after(c, call, out, (PARK, 17), come)),
];

/// Which numbers are given, and in which order.
static NUMBERS: [Way; 14] = [
    ("18 before 17", |c, call, out| c.said(call, out, (CHANGE_KEY, [17, 18]), passed)),
    ("17 after all others", |c, call, out| c.last(call, out, 17)),
    ("18 after all others", |c, call, out| c.last(call, out, 18)),
    ("12 before 17", |c, call, out| match call.of(PARK) {
        Some(_) if out.len() < IMAGE && c.code(call, out) == 17 => Answer::refused(12),
        _ => c.right(call, out),
    }),
    ("17 for a crypt", |c, call, out| c.said(call, out, (CRYPT, [0, 17]), waits)),
    ("17 for a close", |c, call, out| c.said(call, out, (CLOSE, [0, 17]), waits)),
    ("17 for the line's position", |c, call, out| c.said(call, out, (CHANGE_KEY, [0, 17]), here)),
    ("18 for the line's position", |c, call, out| c.said(call, out, (CHANGE_KEY, [0, 18]), here)),
    ("18 for 2^36", |c, call, out| {
        c.said(call, out, (CHANGE_KEY, [0, 18]), |_, _, call| command::position(call.command) == END)
    }),
    ("18 by the low halves", |c, call, out| {
        let below = |c: &Twisted, line, call: &Call| (command::position(call.command) as u32) < c.position(line) as u32;
        c.said(call, out, (CHANGE_KEY, [0, 18]), below)
    }),
    ("no 18 for what is below", |c, call, out| match call.change() {
        Some((line, position)) if position < c.position(line) && c.code(call, out) == 18 => {
            c.right(&call.with(&at(call.command, c.position(line))), out)
        }
        _ => c.right(call, out),
    }),
    ("no 18 for what is above", |c, call, out| match call.change() {
        Some((_, position)) if position > END && c.code(call, out) == 18 => {
            c.right(&call.with(&at(call.command, END)), out)
        }
        _ => c.right(call, out),
    }),
    ("13 by position and count", |c, call, out| match c.code(call, out) {
        0 | 11 | 12 if call.crypt().is_some_and(|(line, count)| c.position(line) + count > END) => Answer::refused(13),
        _ => c.right(call, out),
    }),
    ("6 for a line where one waits", |c, call, out| c.said(call, out, (CRYPT, [0, 6]), waits)),
];

/// What is judged of the key and the IV.
static KEYS: [Way; 5] = [
    ("no 16 for a change", |c, call, out| c.said(call, out, (CHANGE_KEY, [16, 0]), |_, _, _| true)),
    ("no 7 for a change", |c, call, out| c.said(call, out, (CHANGE_KEY, [7, 0]), |_, _, _| true)),
    ("key and IV by the lengths of ZUC", |c, call, out| c.judged_by(call, out, 1)),
    ("key and IV by the lengths of Rabbit", |c, call, out| c.judged_by(call, out, 2)),
    ("key and IV by the lengths of SNOW 2.0 with 32 key bytes", |c, call, out| c.judged_by(call, out, 4)),
];

/// The end of the unit that a position is in.
fn unit_end(c: &Twisted, line: u8, position: u64) -> u64 {
    position.next_multiple_of(c.shape(line).map_or(1, |shape| shape.unit as u64))
}

/// Whether a change waits on the line.
fn waits(c: &Twisted, line: u8, _: &Call) -> bool {
    c.machine.waiting(line).is_some()
}

/// Whether a change is at the line's position.
fn here(c: &Twisted, line: u8, call: &Call) -> bool {
    command::position(call.command) == c.position(line)
}

/// Whether a change is below the line's position or above 2^36.
fn passed(c: &Twisted, line: u8, call: &Call) -> bool {
    let position = command::position(call.command);
    position < c.position(line) || position > END
}

/// Brings the change due that waits on a line.
fn come(c: &mut Twisted, line: u8) {
    let seen = c.machine.seen(line).and_then(|seen| Some((seen.cipher, seen.waiting?)));
    seen.map(|(cipher, change)| c.machine.set(line, &image(cipher, 0, NO_PARK, &change.start)));
}

/// Makes a call; after a crypt of no bytes on a line where a change waits, does something to that line.
fn empty(c: &mut Twisted, call: &Call, out: &mut [u8], then: fn(&mut Twisted, u8)) -> Answer {
    let answer = c.right(call, out);
    let empty = call.crypt().filter(|&(_, count)| count == 0 && answer.code == 0);
    if let Some((line, _)) = empty.filter(|&(line, _)| c.machine.waiting(line).is_some()) {
        then(c, line);
    }
    answer
}

/// Makes a call; after one of this kind and with this code, does something to its line.
fn after(c: &mut Twisted, call: &Call, out: &mut [u8], (kind, code): (u8, u8), then: fn(&mut Twisted, u8)) -> Answer {
    let answer = c.right(call, out);
    if let Some(line) = call.of(kind).filter(|_| answer.code == code) {
        then(c, line);
    }
    answer
}

/// Makes a change that is accepted with other bytes.
fn other(c: &mut Twisted, call: &Call, out: &mut [u8], change: fn(&mut [u8])) -> Answer {
    let mut command = call.command.to_vec();
    if call.of(CHANGE_KEY).is_some() && c.code(call, out) == 0 {
        change(&mut command);
    }
    c.right(&call.with(&command), out)
}

/// A change that waits when its line is closed waits again when the line is opened.
fn left_to_the_next(c: &mut Twisted, call: &Call, out: &mut [u8]) -> Answer {
    let (close, open) = (call.of(CLOSE), call.of(OPEN_TRAY).or(call.of(OPEN_OWN)));
    let waiting = close.and_then(|line| c.machine.seen(line)).and_then(|seen| seen.waiting);
    let answer = c.right(call, out);
    match (close, open) {
        (Some(line), _) if answer.code == 0 => c.dropped[usize::from(line)] = waiting,
        (_, Some(line)) if answer.code == 0 => {
            let dropped = c.dropped[usize::from(line)].take();
            let image = |change: SeenChange| image(call.command[2], change.due, NO_PARK, &change.start);
            dropped.map(|change| c.machine.wait(line, &image(change)));
        }
        _ => (),
    }
    answer
}
