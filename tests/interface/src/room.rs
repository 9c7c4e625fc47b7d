//! A buffer with marked places before and behind it, which show if a call writes beside what it is lent.

/// So many places are on each side. The number is odd, so that a buffer stands where no more than its elements' own
/// alignment can be counted on.
const BESIDE: usize = 13;

pub struct Room<T> {
    places: Vec<T>,
    mark: T,
}

impl<T: Copy + PartialEq> Room<T> {
    /// A buffer with these contents.
    pub fn of(contents: &[T], mark: T) -> Room<T> {
        let beside = [mark; BESIDE];
        Room { places: [&beside, contents, &beside].concat(), mark }
    }

    /// The buffer, to be read.
    pub fn lent(&self) -> &[T] {
        &self.places[BESIDE..self.places.len() - BESIDE]
    }

    /// The buffer, to be changed.
    pub fn lent_mut(&mut self) -> &mut [T] {
        let end = self.places.len() - BESIDE;
        &mut self.places[BESIDE..end]
    }

    /// The contents; an error with the buffer's name if a place beside them isn't as it was.
    pub fn back(self, name: &str) -> Result<Vec<T>, String> {
        let contents = self.lent().to_vec();
        let (before, behind) = (&self.places[..BESIDE], &self.places[BESIDE + contents.len()..]);
        if before.iter().chain(behind).all(|place| *place == self.mark) {
            Ok(contents)
        } else {
            Err(format!("the call wrote beside {name}"))
        }
    }
}

#[cfg(test)]
mod tests {
    use super::*;

    #[test]
    fn contents_come_back() {
        let mut room = Room::of(&[1, 2, 3], 9);
        room.lent_mut()[2] = 7;
        assert_eq!(room.lent(), [1, 2, 7]);
        assert_eq!(room.back("out"), Ok(vec![1, 2, 7]));
        assert_eq!(Room::of(&[], 9).back("out"), Ok(vec![]));
    }

    #[test]
    fn what_is_written_beside_is_told() {
        for place in [0, BESIDE - 1, BESIDE + 3, 2 * BESIDE + 2] {
            let mut room = Room::of(&[1, 2, 3], 9);
            room.places[place] = 1;
            assert_eq!(room.back("out").unwrap_err(), "the call wrote beside out");
        }
    }
}
