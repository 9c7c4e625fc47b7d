//! Cards that leave words of a change behind; only a comparison of the words finds them.

use crate::calls::Card;
use crate::machine::{Answer, Machine};
use crate::words::{self, DUE, LINE, START};
use std::ops::Range;

/// What is left in its line: the words of the change's position, those of its stream's S(0), or the first of these.
static WAYS: [(&str, Range<usize>); 3] = [
    ("the position of a change is left behind", DUE..START),
    ("S(0) of a change is left behind", START..LINE),
    ("the first word of S(0) is left behind", START..START + 1),
];

/// A card for each way.
pub fn cards() -> impl Iterator<Item = Box<dyn Card>> {
    WAYS.iter().map(|(name, places)| {
        Box::new(Left { machine: Machine::fresh(), name, places: places.clone(), left: NOTHING }) as Box<dyn Card>
    })
}

/// A card that is the machine but for the words of its lines: what waited last stays in these places until something
/// else waits there or the line is idle.
struct Left {
    machine: Machine,
    name: &'static str,
    places: Range<usize>,
    left: [[u32; LINE - DUE]; 8],
}

const NOTHING: [[u32; LINE - DUE]; 8] = [[0; LINE - DUE]; 8];

impl Card for Left {
    fn name(&self) -> String {
        self.name.to_string()
    }

    fn begin(&mut self, machine: &Machine) {
        self.machine = machine.clone();
        self.left = NOTHING;
    }

    fn call(&mut self, command: &[u8], tray: &[u8], data: &[u8], out: &mut [u8]) -> Result<Answer, String> {
        let answer = self.machine.call(command, tray, data, out);
        for (line, (words, left)) in (0..).zip(words::of(&self.machine).chunks(LINE).zip(&mut self.left)) {
            match (self.machine.open(line), self.machine.waiting(line)) {
                (None, _) => left.fill(0),
                (_, Some(_)) => left.copy_from_slice(&words[DUE..]),
                _ => (),
            }
        }
        Ok(answer)
    }

    fn words(&self) -> Option<Vec<u32>> {
        let mut card = words::of(&self.machine);
        for (line, left) in (0..8).zip(&self.left) {
            if self.machine.waiting(line).is_none() {
                let places = self.places.start - DUE..self.places.end - DUE;
                card[LINE * usize::from(line)..][self.places.clone()].copy_from_slice(&left[places]);
            }
        }
        Some(card)
    }
}
