//! Card buffers that haven't a card's words and counts that haven't three places: the code is 255 for every call, and
//! nothing changes but counts of three places, which become zeros.

use crate::base;
use crate::held;
use crate::lent::COUNTS;
use compare::subject::Tally;
use compare::words::{self, CARD, COUNT, HELD, LINE};

/// Lengths on both sides of the right ones, and those of cards as they once were; none is right.
const WORDS: [usize; 15] =
    [0, 1, LINE, 192, 336, 345, CARD - LINE, COUNT, HELD, 665, CARD - 1, CARD + 1, CARD + LINE, 2 * CARD, 4 * CARD];
const PLACES: [usize; 6] = [0, 1, 2, 4, 5, CARD];

/// Holds the linked card on every wrong length of the card, of counts and of both; the words are those of a card, of a
/// fresh one, or of none.
pub fn hold() -> Result<Tally, String> {
    let cards = [words::of(&base::machine(0)), vec![0; CARD], vec![1; CARD]];
    let mut tally = Tally::default();
    for card in cards {
        for places in PLACES {
            hold_lengths(&card, places, &mut tally)?;
        }
        for words in WORDS {
            let card: Vec<u32> = card.iter().copied().cycle().take(words).collect();
            for places in PLACES.into_iter().chain([3]) {
                hold_lengths(&card, places, &mut tally)?;
            }
        }
    }
    Ok(tally)
}

fn hold_lengths(card: &[u32], places: usize, tally: &mut Tally) -> Result<(), String> {
    let counts: Vec<usize> = COUNTS.into_iter().cycle().take(places).collect();
    for (_, call) in base::calls(0) {
        let told = |told| format!("a card of {} words and counts of {places} places: {told}", card.len());
        let answer = held::hold(card, &call, &counts).map_err(told)?;
        if answer.code != 255 {
            return Err(told(format!("the second implementation has {}", answer.code)));
        }
        tally.count(&answer);
    }
    tally.named += 1;
    Ok(())
}
