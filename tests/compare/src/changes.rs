//! What became of the changes of key of a list, found from its calls alone: the position of each line and of the change
//! that waits there follow from the accepted commands, whatever the ciphers give. From there it is told where a change
//! came due, and why one or a park was refused.

use crate::command::{self, CHANGE_KEY, CLOSE, CRYPT, OPEN_OWN, OPEN_TRAY, PARK, RESUME, START};
use crate::machine::{Answer, END};

/// Where a change came due or that it was dropped, or why it or a park was refused.
#[derive(Clone, Copy, Debug, PartialEq, Eq)]
pub enum Change {
    AtOnce,
    Within,
    AtTheEnd,
    PastTheEnd,
    Dropped,
    Second,
    Park,
    Below,
    Above,
}

impl Change {
    /// All of them, in their order, as the report names them.
    pub const NAMES: [&'static str; 9] = [
        "due within its command",
        "due within a crypt",
        "due at a crypt's end",
        "due within a crypt whose position and count are over 2^36",
        "dropped by a close",
        "17, one is waiting",
        "17, a park while one is waiting",
        "18, below the line's position",
        "18, above 2^36",
    ];
}

/// Where an open line is, and the change that waits there.
#[derive(Clone, Copy, Debug, PartialEq, Eq)]
struct Place {
    position: u64,
    due: Option<u64>,
}

impl Place {
    fn at(position: u64) -> Option<Place> {
        Some(Place { position, due: None })
    }
}

/// The open lines of a card as far as their changes go; there are none at first.
#[derive(Clone, Default)]
pub struct Changes {
    lines: [Option<Place>; 8],
}

impl Changes {
    /// Notes a call by its command and its answer; tells what became of a change by it.
    pub fn note(&mut self, command: &[u8], answer: &Answer) -> Option<Change> {
        let line = self.lines.get_mut(usize::from(*command.get(1)?))?;
        match (command[0], answer.code) {
            (OPEN_TRAY | OPEN_OWN | START, 0) => *line = Place::at(0),
            (RESUME, 0) => *line = Place::at(command::image_position(&command[2..])),
            (CHANGE_KEY, 0) => return changed(line.as_mut()?, command::position(command)),
            (CRYPT, 0) => return moved(line.as_mut()?, command::count(command) as u64),
            (PARK, 0) => *line = None,
            (CLOSE, 0) => return line.take()?.due.map(|_| Change::Dropped),
            (CHANGE_KEY, 17) => return line.as_ref()?.due.map(|_| Change::Second),
            (PARK, 17) => return line.as_ref()?.due.map(|_| Change::Park),
            (CHANGE_KEY, 18) => return refused(line.as_ref()?, command::position(command)),
            _ => (),
        }
        None
    }
}

/// A change that is accepted.
fn changed(place: &mut Place, due: u64) -> Option<Change> {
    if due == place.position {
        place.position = 0;
        return Some(Change::AtOnce);
    }
    place.due = Some(due);
    None
}

/// A crypt of so many bytes.
fn moved(place: &mut Place, count: u64) -> Option<Change> {
    let end = place.position + count;
    place.position = end;
    let due = place.due.take_if(|due| *due <= end)?;
    place.position = end - due;
    Some(match end {
        _ if end == due => Change::AtTheEnd,
        _ if end > END => Change::PastTheEnd,
        _ => Change::Within,
    })
}

/// A change that 18 refuses; nothing if there is no reason to.
fn refused(place: &Place, due: u64) -> Option<Change> {
    match due {
        _ if due < place.position => Some(Change::Below),
        _ if due > END => Some(Change::Above),
        _ => None,
    }
}

#[cfg(test)]
mod tests {
    use super::*;
    use crate::command::{close, crypt, open_own, park, resume, IMAGE, IV, RECORD};
    use crate::images::image;
    use crate::machine::Machine;
    use crate::parks::Parks;

    /// A machine that holds number 1, and its lines as they are noted.
    fn pair() -> (Machine, Changes) {
        (Machine::with(Parks::of([1; 8], [1; 8]).unwrap()), Changes::default())
    }

    /// Makes a call; checks that what is noted is what the machine has.
    fn call((machine, changes): &mut (Machine, Changes), command: &[u8]) -> (u8, Option<Change>) {
        let answer = machine.call(command, &[1; RECORD], &[0; 99], &mut [0; IMAGE]);
        let told = changes.note(command, &answer);
        let seen =
            (0..8).map(|line| machine.open(line).map(|(_, at)| Place { position: at, due: machine.waiting(line) }));
        assert!(seen.eq(changes.lines));
        (answer.code, told)
    }

    fn change(position: u64) -> Vec<u8> {
        command::change_key(2, 0, &[5; IV], position)
    }

    #[test]
    fn each_end_of_a_change_is_told() {
        let mut pair = pair();
        let mut told = |command: Vec<u8>| call(&mut pair, &command);
        assert_eq!(told(open_own(2, 4, &[3; RECORD], &[0; IV])), (0, None));
        assert_eq!(told(crypt(2, 9)), (0, None));
        assert_eq!(told(change(9)), (0, Some(Change::AtOnce)));
        assert_eq!(told(change(7)), (0, None));
        assert_eq!([crypt(2, 0), crypt(2, 6)].map(&mut told), [(0, None); 2]);
        assert_eq!(told(crypt(2, 1)), (0, Some(Change::AtTheEnd)));
        assert_eq!([change(7), crypt(2, 8)].map(&mut told), [(0, None), (0, Some(Change::Within))]);
        assert_eq!([change(END), close(2)].map(&mut told), [(0, None), (0, Some(Change::Dropped))]);
        assert_eq!(told(resume(2, &image(4, END - 3, (0, 1), &[]))), (0, None));
        assert_eq!([change(END), crypt(2, 4)].map(&mut told), [(0, None), (0, Some(Change::PastTheEnd))]);
        assert_eq!([park(2), close(2)].map(&mut told), [(0, None), (6, None)]);
    }

    #[test]
    fn each_refusal_is_told() {
        let mut pair = pair();
        let mut told = |command: Vec<u8>| call(&mut pair, &command);
        assert_eq!(told(change(0)), (6, None));
        told(open_own(2, 4, &[3; RECORD], &[0; IV]));
        told(crypt(2, 9));
        assert_eq!([change(8), change(0)].map(&mut told), [(18, Some(Change::Below)); 2]);
        assert_eq!([change(END + 1), change(u64::MAX)].map(&mut told), [(18, Some(Change::Above)); 2]);
        assert_eq!(told(change(20)), (0, None));
        assert_eq!([change(20), change(0)].map(&mut told), [(17, Some(Change::Second)); 2]);
        assert_eq!(told(park(2)), (17, Some(Change::Park)));
        assert_eq!(told(crypt(2, 12)), (0, Some(Change::Within)));
        assert_eq!(told(command::change_key(9, 0, &[0; IV], 0)), (3, None));
    }
}
