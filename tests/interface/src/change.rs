//! A named change to the card of `base`, in some words of one of its lines or in its parks.

use crate::base;
use crate::held;
use crate::lent::COUNTS;
use compare::subject::Tally;
use compare::words::{self, COUNT, HELD, LINE};

/// A change: what it is called, what stands on its line, and the new words with their places in the line; new counts of
/// parks and new numbers held, each with what stands on the line that it is of.
pub struct Change {
    pub name: String,
    pub what: u8,
    pub words: Vec<(usize, u32)>,
    pub made: Vec<(u8, u32)>,
    pub held: Vec<(u8, u32)>,
}

impl Change {
    pub fn new(name: impl Into<String>, what: u8, words: &[(usize, u32)]) -> Change {
        Change { name: name.into(), what, words: words.to_vec(), made: Vec::new(), held: Vec::new() }
    }

    /// A change in the parks alone; its line is that of the first number held, or else of the first count.
    pub fn parks(name: impl Into<String>, made: &[(u8, u32)], held: &[(u8, u32)]) -> Change {
        let what = held.iter().chain(made).next().map_or(0, |(what, _)| *what);
        Change { made: made.to_vec(), held: held.to_vec(), ..Change::new(name, what, &[]) }
    }

    /// Holds all calls of `base` on the changed card, the change on each line in turn. Whether it damages the card is
    /// written down.
    pub fn hold(&self, damaged: bool) -> Result<Tally, String> {
        let mut tally = Tally::default();
        for turn in 0..8 {
            let line = base::line(self.what, turn);
            let told = |told| format!("card changed at line {line} ({}), {told}", self.name);
            self.hold_turned(turn, damaged, &mut tally).map_err(told)?;
            tally.named += 1;
        }
        Ok(tally)
    }

    fn hold_turned(&self, turn: u8, damaged: bool, tally: &mut Tally) -> Result<(), String> {
        let mut card = words::of(&base::machine(turn));
        let line = |what: u8| usize::from(base::line(what, turn));
        for (place, word) in &self.words {
            card[LINE * line(self.what) + place] = *word;
        }
        for (what, count) in &self.made {
            card[COUNT + line(*what)] = *count;
        }
        for (what, number) in &self.held {
            card[HELD + line(*what)] = *number;
        }
        for (code, call) in base::calls(turn) {
            let told = |told| format!("the call that has code {code} before the change: {told}");
            let answer = held::hold(&card, &call, &COUNTS).map_err(told)?;
            if (answer.code == 255) != damaged {
                return Err(told(format!(
                    "the second implementation has {}, and that isn't what is written down",
                    answer.code
                )));
            }
            tally.count(&answer);
        }
        Ok(())
    }
}

/// Holds changes one after the other, all of them damages or none.
pub fn hold_all(changes: &[Change], damaged: bool) -> Result<Tally, String> {
    let mut sum = Tally::default();
    for change in changes {
        sum.add(&change.hold(damaged)?);
    }
    Ok(sum)
}
