//! The linked card as a subject: the named cases and call lists of a seed on it, and with each list the same calls on
//! cards whose words are changed, and sealings.

use crate::lent::{self, COUNTS};
use crate::records;
use crate::struck;
use compare::calls::{CallByCall, Card, OwnCall};
use compare::machine::{Answer, Machine};
use compare::named::Case;
use compare::subject::{Subject, Tally};
use compare::words;

/// The linked card, its words kept from call to call.
pub struct Linked {
    words: Vec<u32>,
}

impl Card for Linked {
    fn name(&self) -> String {
        "libpipeshear.a".to_string()
    }

    fn begin(&mut self, machine: &Machine) {
        self.words = words::of(machine);
    }

    fn call(&mut self, command: &[u8], tray: &[u8], data: &[u8], out: &mut [u8]) -> Result<Answer, String> {
        let call = OwnCall { command: command.to_vec(), tray: tray.to_vec(), data: data.to_vec(), out: out.to_vec() };
        let left = lent::call(&self.words, &call, &COUNTS)?;
        let answer = left.answer();
        out.copy_from_slice(&left.out);
        self.words = left.card;
        Ok(answer)
    }

    fn words(&self) -> Option<Vec<u32>> {
        Some(self.words.clone())
    }
}

pub struct Interface {
    lists: CallByCall<Linked>,
}

impl Default for Interface {
    fn default() -> Interface {
        Interface { lists: CallByCall { card: Linked { words: vec![0; words::CARD] } } }
    }
}

impl Subject for Interface {
    fn name(&self) -> String {
        self.lists.name()
    }

    fn hold_case(&mut self, case: &Case) -> Result<Tally, String> {
        self.lists.hold_case(case)
    }

    fn hold(&mut self, seed: u64, number: u64) -> Result<Tally, String> {
        let mut tally = self.lists.hold(seed, number)?;
        tally.add(&struck::hold(seed, number)?);
        tally.add(&records::of_seed(seed, number)?);
        Ok(tally)
    }
}
