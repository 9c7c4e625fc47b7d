//! Changes that wait, put into the words of a card: those that 255 is said of, and those that a card may hold, which
//! calls go on from.

use crate::base::{open_lines, FAR, IDLE, KCIPHER2, LATE, MUGI, RABBIT, WAITING, ZUC};
use crate::change::{hold_all, Change};
use crate::damages::{each, CIPHER};
use compare::cipher::by_number;
use compare::machine::END;
use compare::subject::Tally;
use compare::words::{DUE, START, STATE, STATE_WORDS};
use compare::zuc::TOP;

/// Holds the linked card on changes that no card may hold, each on every line.
pub fn damaged() -> Result<Tally, String> {
    let groups = [passed(), above(), on_an_idle_line(), cells(), carries(), padding(), nothing(), other_ciphers()];
    let all: Vec<Change> = groups.into_iter().flatten().collect();
    hold_all(&all, true)
}

/// Holds the linked card on changes that just may wait, each on every line.
pub fn well_formed() -> Result<Tally, String> {
    let all: Vec<Change> = [ahead(), words(), on_a_new_line()].into_iter().flatten().collect();
    hold_all(&all, false)
}

/// The words of a state that a cipher's own ones are; Rabbit's carry isn't among them.
fn own(cipher: u8) -> usize {
    by_number(cipher).map_or(STATE_WORDS, |c| c.shape().state / 4)
}

/// The words of a change that waits at a position: so many of its S(0) are alike, the others are 0.
fn due_at(due: u64, count: usize, word: u32) -> Vec<(usize, u32)> {
    let start = (0..STATE_WORDS).map(|place| if place < count { word } else { 0 });
    [(due >> 32) as u32, due as u32].into_iter().chain(start).enumerate().map(|(at, word)| (DUE + at, word)).collect()
}

/// A change for each open line and each of the positions that are given for the line's own.
fn on_each_line(what: &str, positions: impl Fn(u64) -> Vec<u64>) -> Vec<Change> {
    let of = |(line, cipher, position): (u8, u8, u64)| {
        let named = move |due: u64| format!("cipher {cipher} at {position:x}, a change {what}, {due:x}");
        let change = move |due: u64| Change::new(named(due), line, &due_at(due, own(cipher), 1));
        positions(position).into_iter().map(change).collect::<Vec<_>>()
    };
    open_lines().flat_map(of).collect()
}

/// Not above the line's position; some have a low half that is.
fn passed() -> Vec<Change> {
    on_each_line("not above it", |n| {
        let mut all = vec![0, 1, n - 1, n];
        all.extend([(14 << 32) + 0xFFFF_FFFF, 1 << 35].into_iter().filter(|&due| due < n));
        all
    })
}

/// Above 2^36; some have a low half of a position that may be.
fn above() -> Vec<Change> {
    on_each_line("above 2^36", |n| {
        vec![END + 1, END + (1 << 32), 2 * END, (1 << 37) + n + 1, (1 << 63) + n + 1, u64::MAX, (1 << 48) + n + 1]
    })
}

/// A position alone, S(0) alone, or both.
fn on_an_idle_line() -> Vec<Change> {
    let of = |due: u64, count: usize| {
        let name = format!("an idle line with a change at {due:x} and {count} words");
        Change::new(name, IDLE, &due_at(due, count, 1))
    };
    [(1, 0), (9, 18), (END, 20), (1 << 32, 38), (0, 1), (0, 38)].map(|(due, count)| of(due, count)).into()
}

/// ZUC's cells in S(0): each as 0, as 2^31 and with all bits set; all of them 0.
fn cells() -> Vec<Change> {
    let of = |(cell, word): (usize, u32)| {
        let words = [due_at(END, 18, 1), vec![(START + cell, word)]].concat();
        Change::new(format!("ZUC, A{cell} of S(0) is {word:x}"), ZUC, &words)
    };
    let each = (0..16).flat_map(|cell| [(cell, 0), (cell, TOP + 1), (cell, u32::MAX)]);
    each.map(of).chain([Change::new("ZUC, S(0) of zeros", ZUC, &due_at(END, 0, 0))]).collect()
}

/// The word of Rabbit's carry in S(0): over 1 in its top byte, or not 0 in the others.
fn carries() -> Vec<Change> {
    let of = |word: u32| {
        let words = [due_at(END, 16, 1), vec![(START + 16, word)]].concat();
        Change::new(format!("Rabbit, the carry's word of S(0) is {word:x}"), RABBIT, &words)
    };
    [2 << 24, 3 << 24, 128 << 24, 255 << 24, 1, 0x0100, 0x0001_0000, 0x0100_0001].map(of).into()
}

/// Each word behind S(0); MUGI's leaves none.
fn padding() -> Vec<Change> {
    let of = |(line, cipher, _): (u8, u8, u64)| {
        let used = by_number(cipher).map_or(STATE_WORDS, |c| c.shape().state.div_ceil(4));
        (used..STATE_WORDS).map(move |word| {
            let words = [due_at(END, own(cipher), 1), vec![(START + word, 1 << (word % 32))]].concat();
            Change::new(format!("cipher {cipher}, word {word} of S(0)"), line, &words)
        })
    };
    open_lines().flat_map(of).collect()
}

/// Nothing waits and S(0) is there: one word of it, or all that waited.
fn nothing() -> Vec<Change> {
    let gone = [WAITING, FAR].map(|line| Change::new("a change without its position", line, &[(DUE, 0), (DUE + 1, 0)]));
    let of = |line: u8| {
        let name = format!("line {line}, nothing waits, word of S(0)");
        (START..START + STATE_WORDS).flat_map(move |place| each(&name, line, place, &[1 << (place % 32)]))
    };
    [ZUC, RABBIT, KCIPHER2, MUGI, LATE].into_iter().flat_map(of).chain(gone).collect()
}

/// A state that a cipher has, and an S(0) that it hasn't.
fn other_ciphers() -> Vec<Change> {
    let state = |count: usize| (0..STATE_WORDS).map(move |place| (STATE + place, u32::from(place < count)));
    let of = |cipher: u8, words: usize| {
        let all = [vec![(CIPHER, cipher.into())], state(own(cipher)).collect(), due_at(END, words, 1)].concat();
        Change::new(format!("cipher {cipher} with an S(0) of {words} words"), MUGI, &all)
    };
    [(1, 20), (1, 38), (2, 18), (2, 38), (3, 20), (3, 38), (4, 19), (5, 21), (5, 38)]
        .map(|(c, words)| of(c, words))
        .into()
}

/// Above the line's position up to 2^36; some have a low half that is below.
fn ahead() -> Vec<Change> {
    on_each_line("ahead", |n| {
        let all = [n + 1, n + 2, n + 7, n + 8, n + 9, n + 10, 1 << 32, (3 << 32) + 1, END - 1, END];
        all.into_iter().filter(|&due| n < due && due <= END).collect()
    })
}

/// States at the ends of their ranges.
fn words() -> Vec<Change> {
    let mut all = Vec::new();
    for (line, cipher, n) in open_lines() {
        let words = if cipher == 1 { [1, TOP] } else { [0, u32::MAX] };
        all.extend(words.map(|word| {
            let count = if cipher == 1 { 16 } else { own(cipher) };
            Change::new(format!("cipher {cipher} at {n:x}, S(0) of {word:x}"), line, &due_at(n + 1, count, word))
        }));
    }
    let carry = |word: u32| [due_at(12, 16, u32::MAX), vec![(START + 16, word)]].concat();
    all.push(Change::new("Rabbit, carry 1 of S(0)", RABBIT, &carry(1 << 24)));
    let registers = [due_at(7, 16, TOP), vec![(START + 16, u32::MAX), (START + 17, u32::MAX)]].concat();
    all.push(Change::new("ZUC, R1 and R2 of S(0) with all bits set", ZUC, &registers));
    all.push(Change::new("a change that is no more", WAITING, &due_at(0, 0, 0)));
    all
}

/// A line that was idle, at the ends of the position's range, with a change a byte or more on.
fn on_a_new_line() -> Vec<Change> {
    let of = |cipher: u8, n: u64, due: u64| {
        let head = [1, cipher.into(), (n >> 32) as u32, n as u32].into_iter().enumerate();
        let state = (0..own(cipher)).map(|place| (STATE + place, 5));
        let words = [head.chain(state).collect(), due_at(due, own(cipher), 6)].concat();
        Change::new(format!("a new line, cipher {cipher} at {n:x}, a change at {due:x}"), IDLE, &words)
    };
    let places =
        [(0, 1), (0, END), (0xFFFF_FFFF, 1 << 32), (0x1_0000_0007, 0x2_0000_0003), (END - 1, END), (END - 9, END)];
    let ciphers = 1..=compare::cipher::LAST;
    ciphers.flat_map(|cipher| places.map(|(n, due)| of(cipher, n, due))).collect()
}
