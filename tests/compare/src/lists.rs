//! Command lists from a seed. List k of a seed is the same whichever lists are made before it.

use crate::program::Files;
use crate::random::Random;
use crate::{changing, damage, edges, fill, loading, odd, plain, record};

/// A command list as the files that `cardrun` finds.
pub struct List {
    pub kind: String,
    pub files: Files,
    /// What stands in `out.bin` before the run, if anything.
    pub stale: Option<Vec<u8>>,
    /// What stands in `use.bin` before the run, if anything.
    pub used: Option<Vec<u8>>,
    /// How often the program is run on the files, one run after the other in one folder.
    pub runs: usize,
}

/// The refusals that lists end in, in turn; those that others often hide come more than once.
const REFUSALS: [u8; 27] =
    [13, 1, 2, 3, 4, 5, 6, 19, 17, 7, 16, 8, 14, 18, 9, 10, 11, 12, 13, 4, 5, 6, 10, 11, 19, 13, 14];

/// List `number` of `seed`. Of thirty-six in a row, two are well formed, one is about positions, two are about changes of
/// key, two about loads, two end in a refusal, one in a stray byte, one in a blank key, one in a bad image, one in a number
/// that isn't held, three in a change that is refused, one in a load or a start that is, or in another command on a loaded
/// line, and fifteen with two faults at once, all of them in turn, two are at a limit of the files, in turn, one is
/// damaged, and one fills out.
pub fn list(seed: u64, number: u64) -> List {
    let mut random = Random::new(seed, number);
    let stale = random.chance(25).then(|| {
        let length = random.size(1, 400);
        random.bytes(length)
    });
    let (round, slot) = (number / 36, number % 36);
    let turn = |first: u64, slots: u64| (slots * round + slot - first) as usize;
    let (kind, files) = match slot {
        0 | 1 => ("well formed".to_string(), plain::list(random)),
        2 => ("positions".to_string(), plain::far(random)),
        3 | 4 => ("changes of key".to_string(), changing::list(random)),
        5 | 6 => ("loads".to_string(), loading::list(random)),
        7 | 8 => {
            let refusal = REFUSALS[turn(7, 2) % REFUSALS.len()];
            (format!("refusal {refusal}"), odd::single(random, refusal))
        }
        9 => ("stray byte".to_string(), odd::stray(random, turn(9, 1))),
        10 => ("blank key".to_string(), odd::blank(random, turn(10, 1))),
        11 => ("bad image".to_string(), odd::image(random, turn(11, 1))),
        12 => ("number not held".to_string(), odd::number(random, turn(12, 1))),
        13..=15 => ("change refused".to_string(), odd::change(random, turn(13, 3))),
        16 => ("load refused".to_string(), odd::load(random, turn(16, 1))),
        17..=31 => ("two faults".to_string(), odd::pair(random, turn(17, 15))),
        32 | 33 => {
            let edge = turn(32, 2) % edges::KINDS;
            (format!("limit of the files {edge}"), edges::list(random, edge))
        }
        34 => ("damaged".to_string(), damage::list(random)),
        _ => ("out filled".to_string(), fill::list(random)),
    };
    let (used, runs) = before(Random::new(!seed, number));
    List { kind, files, stale, used, runs }
}

/// What stands in `use.bin` before a list is run: as much as whole records, any bytes, none, or there is no file; and how
/// often it is run.
fn before(mut random: Random) -> (Option<Vec<u8>>, usize) {
    let used = random.chance(40).then(|| {
        let (whole, any) = (record::LENGTH * random.size(1, 40), random.size(1, 400));
        let length = random.pick(&[0, whole, whole, any, any]);
        random.bytes(length)
    });
    let runs = if random.chance(15) { 2 } else { 1 };
    (used, runs)
}

#[cfg(test)]
mod tests {
    use super::*;
    use crate::program;
    use std::collections::HashSet;

    #[test]
    fn each_number_is_met_in_two_hundred_lists() {
        let (mut met, all) = (HashSet::new(), (0..=14).chain(16..=19).collect::<HashSet<u8>>());
        for number in 0..200 {
            met.extend(program::run(&list(5, number).files).calls.iter().map(|(_, answer)| answer.code));
        }
        assert_eq!(met, all);
    }

    #[test]
    fn lists_follow_from_seed_and_number() {
        let alone = list(9, 37);
        let (_, again) = (list(9, 36), list(9, 37));
        assert_eq!(alone.files, again.files);
        assert_ne!(alone.files, list(10, 37).files);
    }
}
