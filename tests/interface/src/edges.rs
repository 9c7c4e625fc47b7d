//! Cards that are just well formed: states, positions and numbers of parks at the ends of their ranges. 255 is not said
//! of them, and calls go on from what they hold.

use crate::base::{IDLE, KCIPHER2, LATE, MUGI, RABBIT, ZUC};
use crate::change::{hold_all, Change};
use compare::subject::Tally;
use compare::words::{LINE, STATE};
use compare::zuc::TOP;

/// Holds the linked card on all of them, each on every line.
pub fn hold() -> Result<Tally, String> {
    let all: Vec<Change> = changes().into_iter().chain(parks()).collect();
    hold_all(&all, false)
}

/// What each line has.
fn every(number: impl Fn(u8) -> u32) -> Vec<(u8, u32)> {
    (ZUC..=IDLE).map(|what| (what, number(what))).collect()
}

/// Numbers that are held or not, up to their line's count, and counts up to the last park of a line. After that one, parks
/// of the line are refused, and those of other lines are not.
fn parks() -> Vec<Change> {
    let (none, last, before) = (every(|_| 0), every(|_| u32::MAX), every(|_| u32::MAX - 1));
    let by_line = every(u32::from);
    let mut changes = vec![
        Change::parks("parks made and no number held", &[], &none),
        Change::parks("no park made", &none, &none),
        Change::parks("a number held again that was taken up", &[], &[(LATE, 1)]),
        Change::parks("a number held again that was replaced", &[], &[(IDLE, 1)]),
        Change::parks("a number for each line", &by_line, &by_line),
        Change::parks("the same number for each line", &every(|_| 5), &every(|_| 5)),
        Change::parks(
            "the same number for each line, below its count",
            &every(|what| 9 + u32::from(what)),
            &every(|_| 5),
        ),
        Change::parks("the last number of each line", &last, &last),
        Change::parks("the last number but one of each line", &before, &before),
        Change::parks("as many parks of each line as there are numbers", &last, &[]),
        Change::parks("as many parks of each line as there are numbers, none held", &last, &none),
        Change::parks("one park less of each line than there are numbers", &before, &[]),
        Change::parks("a count of 2^31 of each line", &every(|_| 1 << 31), &[]),
    ];
    changes.extend((ZUC..=IDLE).flat_map(parks_of));
    changes.extend((ZUC..=IDLE).flat_map(|one| (one + 1..=IDLE).flat_map(move |other| parks_of_two(one, other))));
    changes
}

/// One line's count and number up to the last, the others as they are; and the others' without it.
fn parks_of(what: u8) -> Vec<Change> {
    let others: Vec<(u8, u32)> = every(|_| u32::MAX).into_iter().filter(|(other, _)| *other != what).collect();
    let own = |number: u32| [(what, number)];
    vec![
        Change::parks("the number of a line's last park", &own(9), &own(9)),
        Change::parks("the last number of a line", &own(u32::MAX), &own(u32::MAX)),
        Change::parks("the last number but one of a line", &own(u32::MAX - 1), &own(u32::MAX - 1)),
        Change::parks("as many parks of a line as there are numbers", &own(u32::MAX), &[]),
        Change::parks("as many parks of a line as there are numbers, none held", &own(u32::MAX), &own(0)),
        Change::parks("as many parks of every other line as there are numbers", &others, &[]),
        Change::parks("the last number of every other line", &others, &others),
    ]
}

/// The same number held of two lines: each is taken up by its own line.
fn parks_of_two(one: u8, other: u8) -> Vec<Change> {
    let both = |number: u32| [(one, number), (other, number)];
    let name = "a number held of two lines";
    vec![
        Change::parks(name, &both(1), &both(1)),
        Change::parks(format!("{name}, below their counts"), &[(one, 4), (other, 9)], &both(2)),
        Change::parks(format!("{name}, the last of both"), &both(u32::MAX), &both(u32::MAX)),
    ]
}

/// The head of an open line, and a state that begins with so many words alike.
fn line(cipher: u32, high: u32, low: u32, word: u32, count: usize) -> Vec<(usize, u32)> {
    let head = [1, cipher, high, low].into_iter();
    let state = (0..LINE - STATE).map(|place| if place < count { word } else { 0 });
    head.chain(state).enumerate().collect()
}

/// The state words of each cipher that may be anything; ZUC's cells may not.
const FREE: [(u32, usize); 5] = [(2, 16), (3, 18), (4, 18), (5, 20), (6, 38)];

fn changes() -> Vec<Change> {
    let mut all = vec![
        Change::new("no change", LATE, &[]),
        Change::new("a line at 2^36", LATE, &[(2, 16), (3, 0)]),
        Change::new("ZUC, R1 and R2 with all bits set", ZUC, &[(STATE + 16, u32::MAX), (STATE + 17, u32::MAX)]),
        Change::new("ZUC, R1 and R2 of 0", ZUC, &[(STATE + 16, 0), (STATE + 17, 0)]),
        Change::new("Rabbit, carry 0", RABBIT, &[(STATE + 16, 0)]),
        Change::new("Rabbit, carry 1", RABBIT, &[(STATE + 16, 1 << 24)]),
        Change::new("KCipher-2, all 20 words are its own", KCIPHER2, &[(STATE + 18, 1), (STATE + 19, u32::MAX)]),
        Change::new("KCipher-2's words under MUGI", KCIPHER2, &[(1, 6)]),
        Change::new("MUGI, all 38 words are its own", MUGI, &[(STATE + 20, 1), (STATE + 37, u32::MAX)]),
        Change::new("a line closed by hand", KCIPHER2, &[0; LINE].into_iter().enumerate().collect::<Vec<_>>()),
    ];
    for (high, low) in [(0, 0), (0, u32::MAX), (1, 0), (15, u32::MAX), (16, 0)] {
        for (cipher, count) in FREE {
            for word in [0, u32::MAX] {
                let name = format!("cipher {cipher} at {high:x} {low:x}, words of {word:x}");
                all.push(Change::new(name, IDLE, &line(cipher, high, low, word, count)));
            }
        }
        for cell in [1, TOP] {
            let name = format!("ZUC at {high:x} {low:x}, cells of {cell:x}");
            all.push(Change::new(name, IDLE, &line(1, high, low, cell, 16)));
        }
    }
    all
}
