//! Cards that are wrong, each in a way of its own: the named cases find every one of them, and so do call lists. Records
//! that are wrong stand beside them.

mod blank;
mod changes;
mod left;
mod loads;
mod parks;
mod records;
mod twist;

use crate::calls::{CallByCall, Card};
use crate::machine::{Answer, Machine};
use crate::named;
use crate::subject::Subject;

/// A wrong card of any kind.
struct Wrong(Box<dyn Card>);

impl Card for Wrong {
    fn name(&self) -> String {
        self.0.name()
    }

    fn begin(&mut self, machine: &Machine) {
        self.0.begin(machine);
    }

    fn call(&mut self, command: &[u8], tray: &[u8], data: &[u8], out: &mut [u8]) -> Result<Answer, String> {
        self.0.call(command, tray, data, out)
    }

    fn words(&self) -> Option<Vec<u32>> {
        self.0.words()
    }
}

/// The wrong cards; with `after` also those that show only after a refusal, which is the end of a named case, or on a card
/// that has made parks, which no named case begins with.
fn all(after: bool) -> impl Iterator<Item = CallByCall<Wrong>> {
    let cards = blank::cards().chain(changes::cards()).chain(left::cards()).chain(loads::cards()).chain(parks::cards());
    let more = changes::cards_left().chain(loads::cards_left()).chain(parks::cards_left()).filter(move |_| after);
    cards.chain(more).map(|card| CallByCall { card: Wrong(card) })
}

#[test]
fn named_cases_find_every_wrong_card() {
    let cases = named::all();
    for mut card in all(false) {
        assert!(cases.iter().any(|case| card.hold_case(case).is_err()), "{}", card.name());
    }
}

#[test]
fn call_lists_find_every_wrong_card() {
    for mut card in all(true) {
        assert!((0..300).any(|number| card.hold(1, number).is_err()), "{}", card.name());
    }
}
