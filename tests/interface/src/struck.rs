//! Call lists on cards that are changed: before some of a list's calls the words that the card has there are copied,
//! changed in places that follow from the seed, and given the call. Most such cards are damaged; the others go on from
//! what they hold.

use crate::held;
use crate::lent::COUNTS;
use compare::cipher::LAST;
use compare::machine::END;
use compare::mixed;
use compare::random::Random;
use compare::subject::Tally;
use compare::words::{self, CARD, COUNT, DUE, HELD, LINE, START, STATE};
use compare::zuc::TOP;

/// Words at the limits of what a place may hold.
const WORDS: [u32; 18] = [0, 1, 2, 3, 5, 6, 7, 15, 16, 17, 255, 256, 257, 1 << 24, 2 << 24, TOP, TOP + 1, u32::MAX];

/// One call in so many is given to a changed card too.
const EVERY: u64 = 3;

/// Call list `number` of `seed` on cards that are changed.
pub fn hold(seed: u64, number: u64) -> Result<Tally, String> {
    let mut random = Random::new(seed ^ 0xDA3A, number);
    let (list, mut tally) = (mixed::list(seed, number), Tally::default());
    let mut machine = list.start;
    for (i, call) in list.calls.iter().enumerate() {
        if random.between(1, EVERY) == 1 {
            let mut card = words::of(&machine);
            strike(&mut random, &mut card);
            let answer = held::hold(&card, call, &COUNTS);
            let told = |told| format!("call list {number} of seed {seed}, call {} on a changed card: {told}", i + 1);
            tally.count(&answer.map_err(told)?);
        }
        machine.call(&call.command, &call.tray, &call.data, &mut call.out.clone());
    }
    Ok(tally)
}

/// Changes a card: its length, its lines' order, its parks, a change that waits, a loaded line, or one to three of its
/// words.
fn strike(random: &mut Random, card: &mut Vec<u32>) {
    let (one, other) = (random.size(0, 7), random.size(0, 7));
    match random.between(0, 35) {
        0 => card.truncate(random.size(0, CARD - 1)),
        1 => card.resize(CARD + random.size(1, LINE), 0),
        2 => card.copy_within(LINE * one..LINE * (one + 1), LINE * other),
        3 => card[..COUNT].rotate_left(LINE * one),
        4 => card.rotate_left(random.size(0, CARD - 1)),
        5 => {
            let place = random.pick(&[COUNT, HELD]);
            card[place..place + 8].rotate_left(one);
        }
        6 => {
            let place = random.pick(&[COUNT, HELD]);
            card[place + one] = card[place + other];
        }
        7..=9 => {
            for _ in 0..random.size(1, 3) {
                let place = random.size(COUNT, CARD - 1);
                card[place] = number(random, card);
            }
        }
        10..=15 => wait(random, &mut card[LINE * one..LINE * (one + 1)]),
        16..=21 => load(random, &mut card[LINE * one..LINE * (one + 1)]),
        _ => {
            for _ in 0..random.size(1, 3) {
                let place = place(random);
                card[place] = word(random, card[place]);
            }
        }
    }
}

/// Lets a change wait on a line, with the line's own state for its S(0), or moves the one that waits: mostly to a position
/// a few bytes on, at times to the line's own or a far one.
fn wait(random: &mut Random, line: &mut [u32]) {
    if line[DUE] == 0 && line[DUE + 1] == 0 {
        line.copy_within(STATE..DUE, START);
    }
    let position = (u64::from(line[2]) << 32) + u64::from(line[3]);
    let (near, any) = (position + random.between(1, 60), random.draw());
    let due = random.pick(&[near, near, near, near, END, END + 1, position, position.wrapping_sub(1), any]);
    (line[DUE], line[DUE + 1]) = ((due >> 32) as u32, due as u32);
}

/// Makes a line a loaded one, if it isn't, with any words kept, and changes up to two words of it: mostly one of what it
/// keeps or behind that, at times one of its head or of a change.
fn load(random: &mut Random, line: &mut [u32]) {
    if line[0] != 2 {
        let cipher = random.between(1, LAST.into()) as u32;
        let count = match cipher {
            2 => 16,
            4 => 8,
            _ => 4,
        };
        line.fill(0);
        (line[0], line[1]) = (2, cipher);
        line[STATE..STATE + count].fill_with(|| random.draw() as u32);
    }
    for _ in 0..random.size(0, 2) {
        let place = match random.between(0, 9) {
            0 => random.size(1, STATE - 1),
            1 => random.size(DUE, LINE - 1),
            2 | 3 => STATE + 16,
            4..=6 => random.size(STATE, STATE + 3),
            _ => random.size(STATE, DUE - 1),
        };
        line[place] = word(random, line[place]);
    }
}

/// The place of a word: a line's mode, its cipher, a half of its position or of a change's, or a word of its state or of
/// a change's S(0).
fn place(random: &mut Random) -> usize {
    let within = match random.between(0, 11) {
        place @ 0..=3 => place as usize,
        4 => random.size(DUE, START - 1),
        _ => random.size(STATE, LINE - 1),
    };
    LINE * random.size(0, 7) + within
}

/// A number of a park, or a count: one of the card's own or one beside it, a small one, or a great one.
fn number(random: &mut Random, card: &[u32]) -> u32 {
    let own = card[random.size(COUNT, CARD - 1)];
    let any = random.draw() as u32;
    let small = random.between(0, 20) as u32;
    random.pick(&[0, small, own, own.wrapping_sub(1), own.wrapping_add(1), u32::MAX - 1, u32::MAX, any])
}

/// What a word becomes.
fn word(random: &mut Random, before: u32) -> u32 {
    match random.between(0, 9) {
        0..=2 => before ^ (1 << random.between(0, 31)),
        3 => random.draw() as u32,
        _ => random.pick(&WORDS),
    }
}

#[cfg(test)]
mod tests {
    use super::*;

    #[test]
    fn most_changed_cards_are_damaged_and_some_are_not() {
        let mut random = Random::new(3, 3);
        let card = words::of(&crate::base::machine(0));
        let mut damaged = 0;
        for _ in 0..1_000 {
            let mut changed = card.clone();
            strike(&mut random, &mut changed);
            damaged += usize::from(words::machine(&changed).is_none());
        }
        assert!((500..900).contains(&damaged), "{damaged}");
    }
}
