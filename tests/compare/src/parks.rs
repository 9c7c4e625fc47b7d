//! The numbers of parks: a card counts the parks of each line from 1, and for each line it holds the number that was last
//! parked from it. An image is taken up once, while the number in it is held of the line in it.

use crate::command::Park;

/// So many parks of a line can be made, and no more.
pub const MOST: u32 = u32::MAX;

/// For each line how many parks were made from it, and the number last parked from it, or 0 for none.
#[derive(Clone, Debug, Default, PartialEq, Eq)]
pub struct Parks {
    made: [u32; 8],
    held: [u32; 8],
}

impl Parks {
    /// The parks of a card that was handed in; nothing where a held number is above its line's count.
    pub fn of(made: [u32; 8], held: [u32; 8]) -> Option<Parks> {
        let counted = held.iter().zip(&made).all(|(number, count)| number <= count);
        counted.then_some(Parks { made, held })
    }

    pub fn made(&self) -> [u32; 8] {
        self.made
    }

    pub fn held(&self) -> [u32; 8] {
        self.held
    }

    /// Whether no number is left for another park from a line.
    pub fn used_up(&self, line: usize) -> bool {
        self.made[line] == MOST
    }

    /// Whether an image of this park, whose line is 0 to 7, can be taken up.
    pub fn holds(&self, (line, number): Park) -> bool {
        number != 0 && self.held[usize::from(line)] == number
    }

    /// Counts a park from a line; gives its number, which is now held in the place of the line's last.
    pub fn park(&mut self, line: usize) -> u32 {
        self.made[line] += 1;
        self.held[line] = self.made[line];
        self.made[line]
    }

    /// Takes up the number that is held of a line, 0 to 7: it is held no more.
    pub fn take_up(&mut self, line: u8) {
        self.held[usize::from(line)] = 0;
    }
}

#[cfg(test)]
mod tests {
    use super::*;

    #[test]
    fn a_number_is_held_until_it_is_taken_up_or_replaced() {
        let mut parks = Parks::default();
        assert!((0..8).all(|line| !parks.holds((line, 0)) && !parks.holds((line, 1))));
        assert_eq!([parks.park(4), parks.park(7), parks.park(4)], [1, 1, 2]);
        assert_eq!([0, 1, 2, 3].map(|number| parks.holds((4, number))), [false, false, true, false]);
        assert_eq!([0, 1, 2, 3].map(|number| parks.holds((7, number))), [false, true, false, false]);
        parks.take_up(7);
        assert_eq!((parks.made(), parks.held()), ([0, 0, 0, 0, 2, 0, 0, 1], [0, 0, 0, 0, 2, 0, 0, 0]));
        assert_eq!([parks.park(7), parks.park(0)], [2, 1]);
        parks.take_up(4);
        assert_eq!(parks.held(), [1, 0, 0, 0, 0, 0, 0, 2]);
    }

    #[test]
    fn a_number_is_up_to_its_own_lines_count() {
        let good = [((0, 0), (0, 0)), ((9, 0), (9, 0)), ((9, 9), (9, 9)), ((1, 1), (MOST, MOST)), ((MOST, 1), (0, 0))];
        let bad = [((0, 1), (0, 0)), ((9, 9), (8, 9)), ((3, 4), (9, 9)), ((MOST - 1, MOST), (MOST, MOST))];
        let parks = |(one, first): (u32, u32), (other, second): (u32, u32)| {
            ([0, one, 0, 0, 0, 0, other, 0], [0, first, 0, 0, 0, 0, second, 0])
        };
        for (one, other) in good {
            let (made, held) = parks(one, other);
            assert_eq!(Parks::of(made, held), Some(Parks { made, held }));
        }
        for (one, other) in bad {
            let (made, held) = parks(one, other);
            assert_eq!(Parks::of(made, held), None);
        }
    }

    #[test]
    fn the_last_number_of_a_line_is_the_greatest_of_32_bits() {
        let mut parks = Parks::of([MOST - 1, 0, 0, 0, 0, 0, 0, 7], [0; 8]).unwrap();
        assert!(!parks.used_up(0));
        assert_eq!(parks.park(0), 4_294_967_295);
        assert!(parks.used_up(0) && parks.holds((0, MOST)));
        assert!(!parks.used_up(7));
        assert_eq!(parks.park(7), 8);
    }
}
