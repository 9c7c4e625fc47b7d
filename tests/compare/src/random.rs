//! Numbers that look random and follow from a seed alone: splitmix64.

/// A run of numbers; the same seed and list number give the same run on every machine.
#[derive(Clone)]
pub struct Random {
    state: u64,
}

impl Random {
    /// The run of list `number` of `seed`; lists have runs of their own.
    pub fn new(seed: u64, number: u64) -> Random {
        let mixed = Random { state: seed }.draw();
        let start = Random { state: mixed.wrapping_add(number) }.draw();
        Random { state: start }
    }

    /// The next number of the run.
    pub fn draw(&mut self) -> u64 {
        self.state = self.state.wrapping_add(0x9E37_79B9_7F4A_7C15);
        let z = self.state;
        let z = (z ^ (z >> 30)).wrapping_mul(0xBF58_476D_1CE4_E5B9);
        let z = (z ^ (z >> 27)).wrapping_mul(0x94D0_49BB_1331_11EB);
        z ^ (z >> 31)
    }

    /// A number from `low` to `high`, both included; `low` must not be above `high`.
    pub fn between(&mut self, low: u64, high: u64) -> u64 {
        assert!(low <= high);
        match (high - low).checked_add(1) {
            Some(width) => low + self.draw() % width,
            None => self.draw(),
        }
    }

    /// The same for lengths and indices.
    pub fn size(&mut self, low: usize, high: usize) -> usize {
        self.between(low as u64, high as u64) as usize
    }

    /// The first, the last or any place from `low` to `high`, by `which` counted round.
    pub fn place(&mut self, which: usize, low: usize, high: usize) -> usize {
        match which % 3 {
            0 => low,
            1 => high,
            _ => self.size(low, high),
        }
    }

    /// True `percent` times in a hundred.
    pub fn chance(&mut self, percent: u64) -> bool {
        self.between(0, 99) < percent
    }

    /// One of `things`, which must not be empty.
    pub fn pick<T: Clone>(&mut self, things: &[T]) -> T {
        things[self.size(0, things.len() - 1)].clone()
    }

    pub fn byte(&mut self) -> u8 {
        self.draw() as u8
    }

    /// A byte other than 0.
    pub fn odd_byte(&mut self) -> u8 {
        self.between(1, 255) as u8
    }

    pub fn bytes(&mut self, length: usize) -> Vec<u8> {
        (0..length).map(|_| self.byte()).collect()
    }

    /// Bytes of which one alone isn't 0: the first, the last or any.
    pub fn alone(&mut self, length: usize) -> Vec<u8> {
        let (mut bytes, which) = (vec![0; length], self.size(0, 2));
        let place = self.place(which, 0, length - 1);
        bytes[place] = self.odd_byte();
        bytes
    }
}

#[cfg(test)]
mod tests {
    use super::*;

    #[test]
    fn runs_follow_from_seed_and_number() {
        let run = |seed, number| Random::new(seed, number).bytes(32);
        assert_eq!(run(1, 2), run(1, 2));
        assert_ne!(run(1, 2), run(2, 1));
        assert_ne!(run(1, 2), run(1, 3));
    }

    #[test]
    fn first_numbers_are_splitmix64s() {
        let mut zero = Random { state: 0 };
        assert_eq!([zero.draw(), zero.draw()], [0xE220_A839_7B1D_CDAF, 0x6E78_9E6A_A1B9_65F4]);
    }
}
