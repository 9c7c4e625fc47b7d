//! Numbers of parks that no card holds: 255 is said of one above its own line's count, whatever the other lines' counts.

use crate::base::{self, HELD, IDLE, KCIPHER2, RABBIT, ZUC};
use crate::change::{hold_all, Change};
use compare::subject::Tally;

/// Holds the linked card on numbers above the count of their line, for each line.
pub fn above() -> Result<Tally, String> {
    let each = (ZUC..=IDLE).flat_map(|what| [above_by(what), between(what), just_above(what)]);
    let all: Vec<Change> = each.chain([counts(), of_several()]).flatten().collect();
    hold_all(&all, true)
}

/// How many parks were made of a line of `base`.
fn made(what: u8) -> u32 {
    base::MADE[usize::from(what)]
}

/// Numbers above a line's count by one, by two, and by bits of the other bytes.
fn above_by(what: u8) -> Vec<Change> {
    let count = made(what);
    let numbers = [count + 1, count + 2, (count + 1) << 8, (count + 1) << 24, 1 << 31, u32::MAX];
    numbers
        .map(|number| Change::parks(format!("number {number:x} held after {count} parks"), &[], &[(what, number)]))
        .into()
}

/// Numbers above a line's count that are not above another's, or not above all together.
fn between(what: u8) -> Vec<Change> {
    let others: Vec<(u8, u32)> = (ZUC..=IDLE).filter(|&other| other != what).map(|other| (other, 40)).collect();
    let one = |other: u8| [(what, 7), (base::line(other, what), 9)];
    let together = 7 + base::MADE.iter().sum::<u32>() - made(what);
    let mut all = vec![
        Change::parks("a number up to the other lines' counts", &others, &[(what, 40)]),
        Change::parks("the next number of a line, below the others' counts", &others, &[(what, made(what) + 1)]),
        Change::parks("a number up to all parks together", &[(what, 7)], &[(what, together)]),
    ];
    for other in [1, 4, 7] {
        all.push(Change::parks("a number up to one other line's count", &one(other), &[(what, 9)]));
        all.push(Change::parks("a number just above its own, up to one other's", &one(other), &[(what, 8)]));
    }
    all
}

/// A number one above a count at the end of a byte, and the last number one park before it.
fn just_above(what: u8) -> Vec<Change> {
    let counts = [0xFF, 0xFFFF, 0x00FF_FFFF, (1 << 31) - 1, u32::MAX - 1];
    let of = |count: u32| {
        Change::parks(format!("number {:x} held after one less", count + 1), &[(what, count)], &[(what, count + 1)])
    };
    counts.map(of).into()
}

/// Each line's count lowered below its held number; where two lines hold the same, the other's is as it was.
fn counts() -> Vec<Change> {
    let of = |(what, number): (u8, u32)| {
        (0..number).map(move |count| Change::parks(format!("{count} parks made, {number} held"), &[(what, count)], &[]))
    };
    HELD.into_iter().flat_map(of).collect()
}

/// Counts exchanged, held numbers exchanged, and several damages at once.
fn of_several() -> Vec<Change> {
    let every: Vec<(u8, u32)> = (ZUC..=IDLE).map(|what| (what, made(what) + 1)).collect();
    let none: Vec<(u8, u32)> = (ZUC..=IDLE).map(|what| (what, 0)).collect();
    vec![
        Change::parks("the counts of two lines exchanged", &[(RABBIT, 2), (KCIPHER2, 3)], &[]),
        Change::parks("the numbers of two lines exchanged", &[], &[(RABBIT, 2), (KCIPHER2, 3)]),
        Change::parks("no park counted", &none, &[]),
        Change::parks("a number above its count on every line", &[], &every),
    ]
}
