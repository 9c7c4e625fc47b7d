//! The card as words that a program in C or Rust keeps: eight lines alike, each the mode (1 of an open line, 2 of a
//! loaded one), the cipher's number, the position in two words, the high one first, and the state bytes as big-endian
//! words with zeros after them, then in the same form the position of the change that waits and its stream's S(0), all
//! zeros where none does; then for each line the count of the parks made from it, and for each the number that is held. A
//! loaded line is at position 0, and in the state's place it has what it keeps: its key's bytes, or of Rabbit the state
//! that the key alone gives. An idle line is all zeros, whatever was parked from it and is held of it.

use crate::cipher;
use crate::command::padded;
use crate::images;
use crate::machine::{Machine, Seen, SeenChange, SeenLoad};
use crate::parks::Parks;

/// Where the state stands in a line, and how many words it has.
pub const STATE: usize = 4;
pub const STATE_WORDS: usize = 38;

/// Where the position of the change that waits stands in a line, and where its stream's S(0) does, which has as many
/// words as a state.
pub const DUE: usize = STATE + STATE_WORDS;
pub const START: usize = DUE + 2;

/// The words of a line.
pub const LINE: usize = START + STATE_WORDS;

/// Where the counts of parks begin in a card, and where the held numbers do.
pub const COUNT: usize = 8 * LINE;
pub const HELD: usize = COUNT + 8;

/// The words of a card.
pub const CARD: usize = HELD + 8;

/// The words of a card with the machine's lines and parks.
pub fn of(machine: &Machine) -> Vec<u32> {
    let words = |line| machine.seen(line).map(open_line).or(machine.loaded(line).map(loaded_line));
    let lines = (0..8).flat_map(|line| words(line).unwrap_or(vec![0; LINE]));
    let parks = machine.parks();
    lines.chain(parks.made()).chain(parks.held()).collect()
}

fn open_line(seen: Seen) -> Vec<u32> {
    let waiting = seen.waiting.unwrap_or(SeenChange { due: 0, start: Vec::new() });
    let head = [1, u32::from(seen.cipher)];
    [&head, &place_in(seen.position, &seen.state)[..], &place_in(waiting.due, &waiting.start)].concat()
}

fn loaded_line(seen: SeenLoad) -> Vec<u32> {
    [&[2, u32::from(seen.cipher)], &place_in(0, &seen.kept)[..], &place_in(0, &[])].concat()
}

/// A place in a stream: its position and the bytes of a state.
fn place_in(position: u64, state: &[u8]) -> Vec<u32> {
    cipher::words(&[&position.to_be_bytes(), &padded(state, 4 * STATE_WORDS)[..]].concat())
}

/// The machine with the lines and parks that the words of a card hold; nothing where they are no card, which is what
/// 255 says. An open line is judged as an image with its cipher, position and state, and a change that waits as one with
/// the line's cipher, the change's position and its stream's S(0); a loaded line by the key or the state that it keeps.
pub fn machine(card: &[u32]) -> Option<Machine> {
    let card: &[u32; CARD] = card.try_into().ok()?;
    let (made, held) = card[COUNT..].split_at(HELD - COUNT);
    let mut machine = Machine::with(Parks::of(made.try_into().ok()?, held.try_into().ok()?)?);
    for (number, line) in (0..).zip(card[..COUNT].chunks_exact(LINE)) {
        let taken = match line[0] {
            0 => zero(line),
            1 => opened(&mut machine, number, line),
            2 => loaded(&mut machine, number, line),
            _ => false,
        };
        if !taken {
            return None;
        }
    }
    Some(machine)
}

/// Makes a line of the machine as the words of an open one have it; tells whether a card may hold them.
fn opened(machine: &mut Machine, number: u8, line: &[u32]) -> bool {
    let (own, waiting) = line[2..].split_at(DUE - 2);
    let open = image(line[1], own).is_some_and(|image| machine.set(number, &image));
    open && (zero(waiting) || image(line[1], waiting).is_some_and(|image| machine.wait(number, &image)))
}

/// The same for the words of a loaded one, whose position is 0 and where nothing waits.
fn loaded(machine: &mut Machine, number: u8, line: &[u32]) -> bool {
    let (position, kept, waiting) = (&line[2..STATE], &line[STATE..DUE], &line[DUE..]);
    let Some(cipher) = u8::try_from(line[1]).ok().and_then(cipher::by_number) else {
        return false;
    };
    let bytes: Vec<u8> = kept.iter().flat_map(|word| word.to_be_bytes()).collect();
    let (own, beyond) = bytes.split_at(cipher.kept());
    let fits = zero(position) && zero(waiting) && beyond.iter().all(|&byte| byte == 0);
    fits && machine.set_loaded(number, cipher.shape().number, own)
}

fn zero(words: &[u32]) -> bool {
    words.iter().all(|&word| word == 0)
}

/// The image of a place in a stream, of no park; nothing if the cipher isn't a byte.
fn image(cipher: u32, place: &[u32]) -> Option<Vec<u8>> {
    let cipher = u8::try_from(cipher).ok()?;
    let position = (u64::from(place[0]) << 32) + u64::from(place[1]);
    let state: Vec<u8> = place[2..].iter().flat_map(|word| word.to_be_bytes()).collect();
    Some(images::image(cipher, position, images::NO_PARK, &state))
}

/// Where the words of two cards first differ, in words; nothing if they don't.
pub fn first_difference(wanted: &[u32], got: &[u32]) -> Option<String> {
    let same = wanted.iter().zip(got).take_while(|(a, b)| a == b).count();
    match (wanted.get(same), got.get(same)) {
        (None, None) => None,
        (Some(a), Some(b)) => Some(format!("{} is {b:08x}, expected {a:08x}", place(same))),
        _ => Some(format!("the card has {} words, expected {}", got.len(), wanted.len())),
    }
}

/// What stands in a word of a card.
fn place(word: usize) -> String {
    match word {
        0..COUNT => format!("word {} of line {}", word % LINE, word / LINE),
        COUNT..HELD => format!("the count of parks of line {}", word - COUNT),
        _ => format!("the number held of line {}", word - HELD),
    }
}

#[cfg(test)]
mod tests {
    use super::*;
    use crate::command;
    use crate::images::NO_PARK;
    use crate::machine::END;
    use crate::random::Random;

    /// A machine with an image from elsewhere on each line but the last, a change that waits on every other one if there
    /// is a position for it, parks made from five lines, and numbers held of four.
    fn some(random: &mut Random) -> Machine {
        let parks = Parks::of([0, 4, 0, 2, 9, 0, 4, 1], [0, 4, 0, 0, 9, 0, 1, 1]);
        let mut machine = Machine::with(parks.unwrap());
        for line in 0..7 {
            let image = images::elsewhere(random);
            assert!(machine.set(line, &image));
            let position = command::image_position(&image);
            if line % 2 == 0 && position < END {
                let due = random.between(position + 1, END);
                assert!(machine.wait(line, &images::known(random, image[0], due)));
            }
        }
        machine
    }

    #[test]
    fn words_are_read_back() {
        let mut random = Random::new(6, 0);
        for _ in 0..50 {
            let words = of(&some(&mut random));
            assert_eq!(machine(&words).as_ref().map(of), Some(words));
        }
        assert_eq!(of(&Machine::fresh()), [0; CARD]);
    }

    #[test]
    fn words_stand_in_their_places() {
        let parks = Parks::of([7, 1, 0, 0, 0, 0, 0, 8], [6, 0, 0, 0, 0, 0, 0, 5]);
        let mut machine = Machine::with(parks.unwrap());
        let state = [[0xAA; 64].as_slice(), &[1]].concat();
        assert!(machine.set(1, &images::image(2, END - 1, (7, 0xBBBB_BBBB), &state)));
        let words = of(&machine);
        assert_eq!(words[LINE..LINE + 5], [1, 2, 0xF, 0xFFFF_FFFF, 0xAAAA_AAAA]);
        assert_eq!(words[LINE + 19..LINE + 21], [0xAAAA_AAAA, 0x0100_0000]);
        assert!(zero(&words[..LINE]) && zero(&words[LINE + 21..COUNT]));
        assert_eq!(words[656..], [7, 1, 0, 0, 0, 0, 0, 8, 6, 0, 0, 0, 0, 0, 0, 5]);
        assert!(machine.wait(1, &images::image(2, END, (7, 0xBBBB_BBBB), &[[0xCC; 64].as_slice(), &[1]].concat())));
        let waiting = of(&machine);
        assert_eq!(waiting[82 + 42..82 + 45], [0x10, 0, 0xCCCC_CCCC]);
        assert_eq!(waiting[82 + 59..82 + 61], [0xCCCC_CCCC, 0x0100_0000]);
        assert!(zero(&waiting[82 + 61..COUNT]));
        assert_eq!((&waiting[..LINE + DUE], &waiting[COUNT..]), (&words[..LINE + DUE], &words[COUNT..]));
    }

    #[test]
    fn other_words_are_no_card() {
        let words = of(&some(&mut Random::new(6, 1)));
        let with = |place: usize, word: u32| machine(&[&words[..place], &[word], &words[place + 1..]].concat());
        let lines = [(0, 2), (0, 0), (0, 257), (1, 0), (1, 7), (1, 257), (2, 17), (COUNT - 1, 1)];
        let parks = [(COUNT + 4, 8), (COUNT + 7, 0), (HELD, 1), (HELD + 1, 5), (HELD + 3, 4), (HELD + 7, u32::MAX)];
        for (place, word) in lines.into_iter().chain(parks) {
            assert!(with(place, word).is_none(), "{place} {word}");
        }
        let good = [(COUNT, 1), (COUNT + 4, u32::MAX), (HELD + 3, 2), (HELD + 4, 0), (HELD + 4, 4), (HELD + 6, 4)];
        for (place, word) in good {
            assert!(with(place, word).is_some(), "{place} {word}");
        }
        assert!(machine(&words[1..]).is_none());
        assert!(machine(&[]).is_none());
    }

    #[test]
    fn a_change_that_waits_is_above_its_lines_position_and_has_a_state() {
        let mut machine = Machine::fresh();
        assert!(machine.set(3, &images::image(1, 7, NO_PARK, &[1; 72])));
        assert!(machine.wait(3, &images::image(1, 8, NO_PARK, &[2; 72])));
        let words = of(&machine);
        let with = |changes: &[(usize, u32)]| {
            let mut card = words.clone();
            changes.iter().for_each(|&(place, word)| card[3 * LINE + place] = word);
            super::machine(&card).is_some()
        };
        let (high, low, last) = (DUE, DUE + 1, START + STATE_WORDS - 1);
        let bad = [(low, 0), (low, 7), (low, 1), (high, 17), (high, 1 << 28), (START, 0), (START + 15, 1 << 31)];
        for change in bad.into_iter().chain([(START + 18, 1), (last, 1), (1, 0), (3, 8), (3, 9)]) {
            assert!(!with(&[change]), "{change:?}");
        }
        for change in [(low, 9), (low, u32::MAX), (high, 1), (START, 1), (START + 16, u32::MAX), (3, 0), (1, 3)] {
            assert!(with(&[change]), "{change:?}");
        }
        assert!(with(&[(high, 16), (low, 0)]) && !with(&[(high, 16), (low, 1)]));
        assert!(
            with(&[(2, 15), (3, u32::MAX), (high, 16), (low, 0)]) && !with(&[(2, 16), (3, 0), (high, 16), (low, 0)])
        );
    }

    #[test]
    fn a_loaded_line_stands_in_its_place() {
        let mut machine = Machine::fresh();
        let key: Vec<u8> = (1..=32).collect();
        for (line, cipher) in (1..).zip(1..=cipher::LAST) {
            let code = machine.call(&command::load(line, cipher, 0), &key[..32], &[], &mut []).code;
            assert_eq!(code, if cipher == 4 { 0 } else { 7 });
            let tray = padded(&key[..16], 32);
            assert_eq!(
                machine.call(&command::load(line, cipher, 0), &tray, &[], &mut []).code,
                if cipher == 4 { 5 } else { 0 }
            );
        }
        let words = of(&machine);
        let line = |number: usize| &words[LINE * number..LINE * (number + 1)];
        assert!(zero(line(0)) && zero(line(7)) && zero(&words[COUNT..]));
        for (number, own) in [(1, 4), (2, 17), (3, 4), (4, 8), (5, 4), (6, 4)] {
            assert_eq!(line(number)[..STATE], [2, number as u32, 0, 0]);
            assert!(zero(&line(number)[STATE + own..]));
            let bytes: Vec<u32> = cipher::words(&key)[..own.min(8)].to_vec();
            assert_eq!(line(number)[STATE..STATE + own.min(8)] == bytes, number != 2);
        }
        let master = crate::rabbit::master(&key[..16]);
        assert_eq!(line(2)[STATE..STATE + 17], [&master[..16], &[master[16] << 24]].concat());
        assert_eq!(super::machine(&words).as_ref().map(of), Some(words));
    }

    #[test]
    fn a_loaded_line_keeps_a_key_or_a_state_and_nothing_else() {
        let with = |cipher: u32, count: usize, changes: &[(usize, u32)]| {
            let mut card = vec![0; CARD];
            (card[3 * LINE], card[3 * LINE + 1]) = (2, cipher);
            card[3 * LINE + STATE..][..count].fill(1);
            changes.iter().for_each(|&(place, word)| card[3 * LINE + place] = word);
            super::machine(&card).is_some()
        };
        for (cipher, own) in [(1, 4), (3, 4), (4, 8), (5, 4), (6, 4)] {
            assert!(with(cipher, own, &[]) && !with(cipher, 0, &[]), "{cipher}");
            assert!(with(cipher, 0, &[(STATE + own - 1, 1 << 31)]), "{cipher}");
            assert!((STATE + own..LINE).chain([2, 3]).all(|place| !with(cipher, own, &[(place, 1)])), "{cipher}");
        }
        let carry = STATE + 16;
        assert!(with(2, 0, &[]) && with(2, 16, &[]) && with(2, 0, &[(carry, 1 << 24)]));
        assert!([1, 2 << 24, (1 << 24) + 1, u32::MAX].iter().all(|&word| !with(2, 16, &[(carry, word)])));
        assert!((carry + 1..LINE).chain([2, 3]).all(|place| !with(2, 16, &[(place, 1)])));
        assert!([0, 7, 257].iter().all(|&cipher| !with(cipher, 4, &[])));
        assert!([3, 4, 256, 258].iter().all(|&mode| !with(1, 4, &[(0, mode)])));
    }

    #[test]
    fn differences_are_found() {
        let told = |at: usize| first_difference(&[0; CARD], &[vec![0; at], vec![9], vec![0; CARD - at - 1]].concat());
        assert_eq!(told(LINE + 3).unwrap(), "word 3 of line 1 is 00000009, expected 00000000");
        assert_eq!(told(656).unwrap(), "the count of parks of line 0 is 00000009, expected 00000000");
        assert_eq!(told(663).unwrap(), "the count of parks of line 7 is 00000009, expected 00000000");
        assert_eq!(told(664).unwrap(), "the number held of line 0 is 00000009, expected 00000000");
        assert_eq!(told(671).unwrap(), "the number held of line 7 is 00000009, expected 00000000");
        assert_eq!(first_difference(&[1, 2], &[1]).unwrap(), "the card has 1 words, expected 2");
        assert_eq!(first_difference(&[1, 2], &[1, 2]), None);
    }
}
