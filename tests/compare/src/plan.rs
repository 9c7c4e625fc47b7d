//! What is to be wrong with the last command of a list that ends in a refusal: the kind of command, and the numbers
//! whose conditions are to hold.

use crate::cipher::LAST;
use crate::command::{CHANGE_KEY, CRYPT, LOAD, OPEN_OWN, OPEN_TRAY, PARK, RESUME, START};
use crate::random::Random;
use crate::{images, keys, spent, trays};

/// The numbers that a command of each kind can be refused with on a card that began as a fresh one, in their order.
pub fn numbers(kind: u8) -> &'static [u8] {
    match kind {
        OPEN_TRAY => &[1, 2, 3, 4, 5, 9, 10, 7, 16],
        OPEN_OWN => &[1, 2, 3, 4, 5, 7, 16],
        CRYPT => &[1, 2, 3, 6, 13, 11, 12],
        PARK => &[1, 2, 3, 6, 17, 12],
        RESUME => &[1, 2, 3, 5, 8, 14],
        CHANGE_KEY => &[1, 2, 3, 6, 17, 18, 9, 10, 7, 16],
        LOAD => &[1, 2, 3, 4, 5, 9, 10, 7, 16],
        START => &[1, 2, 3, 19, 7],
        _ => &[1, 2, 3, 6],
    }
}

/// Every kind of command with every two numbers that it can be refused with. On a line that isn't open no change waits,
/// and none does where the list's tray has a length that number 9 refuses.
pub fn pairs() -> Vec<(u8, u8, u8)> {
    let mut all = Vec::new();
    for kind in OPEN_TRAY..=START {
        for (i, &one) in numbers(kind).iter().enumerate() {
            let others = numbers(kind)[i + 1..].iter().map(|&other| (kind, one, other));
            all.extend(others.filter(|&(_, one, other)| ![(6, 17), (17, 9)].contains(&(one, other))));
        }
    }
    all
}

/// The kind of the last command, and the numbers whose conditions are to hold of it.
pub struct Plan {
    pub kind: u8,
    pub faults: Vec<u8>,
    /// The cipher of an open, of a load or of the line that is started or whose key is changed, unless a stray byte is
    /// planned that it leaves no place for.
    pub cipher: u8,
    /// For number 8: the image's fault.
    pub image: usize,
    /// For number 14: in which way the image's number isn't held.
    pub way: usize,
    /// For number 7: whether the stray byte is in the IV, and which place it has.
    pub in_iv: bool,
    pub place: usize,
}

impl Plan {
    /// A command with one or two faults, at times with one more.
    pub fn new(random: &mut Random, kind: u8, faults: &[u8]) -> Plan {
        let mut faults = faults.to_vec();
        if random.chance(20) {
            faults.push(random.pick(numbers(kind)));
        }
        let cipher = random.between(1, LAST.into()) as u8;
        let (image, way) = (random.size(0, 3 * images::FAULTS - 1), random.size(0, spent::WAYS - 1));
        Plan { kind, faults, cipher, image, way, in_iv: random.chance(40), place: random.size(0, 2) }
    }

    pub fn has(&self, number: u8) -> bool {
        self.faults.contains(&number)
    }

    /// Whether there is to be a stray byte in the IV; with number 10 there is no key that could have one, a start has none
    /// at all, and a load has no IV.
    pub fn stray_iv(&self) -> bool {
        self.has(7) && self.kind != LOAD && (self.kind == START || self.in_iv || self.has(10))
    }

    /// Whether there is to be a stray byte after the key.
    pub fn stray_key(&self) -> bool {
        self.has(7) && !self.stray_iv()
    }

    /// A tray in which the faults can be had; with number 9 or 10 it is of zeros alone where 16 is planned, unless it
    /// needs a key for a change that waits.
    pub fn tray(&self, random: &mut Random) -> Vec<u8> {
        let from_tray = keys::from_tray(self.kind);
        let mut tray = if self.has(9) {
            trays::bad_length(random)
        } else if self.has(10) && self.has(17) {
            trays::useful(random)
        } else if self.has(10) {
            let count = random.pick(&[0, 1, 2, 16, 254, 255]);
            trays::records(random, count)
        } else if self.has(12) {
            trays::useful(random)
        } else if self.has(16) && from_tray {
            trays::with_blank(random, self.place)
        } else if self.has(7) && from_tray {
            trays::with_stray(random, self.place)
        } else if [CHANGE_KEY, START].contains(&self.kind) || self.has(17) {
            trays::useful(random)
        } else {
            trays::any(random)
        };
        if self.has(16) && (self.has(9) || self.has(10) && !self.has(17)) {
            tray.fill(0);
        }
        tray
    }
}
