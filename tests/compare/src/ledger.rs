//! What became of the parks of a list, found from its calls alone: which are held, which were taken up, and which a
//! later park from the same line replaced. From there it is told what a park or a resume was, by its line and number.

use crate::command::{self, from_line, park_of, IMAGE, PARK, RESUME};
use crate::line::Line;
use crate::machine::Answer;
use crate::parks::MOST;

/// What became of a park.
#[derive(Clone, Copy, Debug, PartialEq, Eq)]
pub enum Fate {
    Held,
    TakenUp,
    Replaced,
}

/// What a park was: with a number that no other line's last park has, with one that another's has, made while another
/// line has no number left, with the last number of its line, or refused with 15.
#[derive(Clone, Copy, Debug, PartialEq, Eq)]
pub enum Parked {
    Own,
    Same,
    Beside,
    Last,
    UsedUp,
}

impl Parked {
    /// All of them, in their order, as the report names them.
    pub const NAMES: [&'static str; 5] = [
        "with a number of its own",
        "with the number of another line's last",
        "beside a line with no number left",
        "with its line's last number",
        "15",
    ];

    /// Those that a card which began as a fresh one doesn't come to.
    pub const HANDED_IN: [Parked; 3] = [Parked::Beside, Parked::Last, Parked::UsedUp];
}

/// What a resume was: accepted with the image as its park wrote it, that number held of another line too or not, or with
/// another image of a held park; refused with 8 for its line and nothing else; or refused with 14, and why.
#[derive(Clone, Copy, Debug, PartialEq, Eq)]
pub enum Resume {
    AsParked,
    HeldTwice,
    Altered,
    NoLine,
    Zero,
    OtherLine,
    NoneMade,
    Above,
    TakenUp,
    Replaced,
    Earlier,
}

impl Resume {
    /// All of them, in their order, as the report names them.
    pub const NAMES: [&'static str; 11] = [
        "as parked",
        "as parked, with a number held of another line too",
        "altered, with a held line and number",
        "8, a parking line over 7",
        "14, number 0",
        "14, a number held of another line",
        "14, before any park of its line",
        "14, above its line's count",
        "14, taken up already",
        "14, replaced by a later park",
        "14, from before the list",
    ];
}

/// What a call was, if it is one of these.
#[derive(Clone, Copy, Debug, PartialEq, Eq)]
pub enum Met {
    Park(Parked),
    Resume(Resume),
}

#[derive(Clone)]
struct Park {
    park: command::Park,
    image: Vec<u8>,
    fate: Fate,
}

/// The parks of a list, in their order.
#[derive(Clone, Default)]
pub struct Ledger {
    before: [u32; 8],
    parks: Vec<Park>,
}

impl Ledger {
    /// For a list on a card that has made so many parks from each line and holds no number.
    pub fn after(before: [u32; 8]) -> Ledger {
        Ledger { before, parks: Vec::new() }
    }

    /// Notes a call by its command, its answer, and out after it; tells what it was if it is a park that was accepted or
    /// refused with 15, or a resume that was accepted, refused with 14, or with 8 for its line.
    pub fn note(&mut self, command: &[u8], answer: &Answer, out: &[u8]) -> Option<Met> {
        match (command.first()?, answer.code) {
            (&PARK, 0) => Some(Met::Park(self.park(command[1], &out[..IMAGE]))),
            (&PARK, 15) => Some(Met::Park(Parked::UsedUp)),
            (&RESUME, 0) => Some(Met::Resume(self.take_up(&command[2..2 + IMAGE]))),
            (&RESUME, 8) => no_line(&command[2..2 + IMAGE]).then_some(Met::Resume(Resume::NoLine)),
            (&RESUME, 14) => Some(Met::Resume(self.refused(park_of(&command[2..])))),
            _ => None,
        }
    }

    /// The images with this fate.
    pub fn images(&self, fate: Fate) -> Vec<Vec<u8>> {
        self.parks.iter().filter(|park| park.fate == fate).map(|park| park.image.clone()).collect()
    }

    /// All images that were written.
    pub fn all(&self) -> Vec<Vec<u8>> {
        self.parks.iter().map(|park| park.image.clone()).collect()
    }

    /// How many parks were made from a line, the list's and those before it.
    fn count(&self, line: u8) -> u32 {
        let own = self.parks.iter().filter(|park| park.park.0 == line).count();
        self.before[usize::from(line)] + own as u32
    }

    fn park(&mut self, line: u8, image: &[u8]) -> Parked {
        let held = |park: &&mut Park| park.park.0 == line && park.fate == Fate::Held;
        self.parks.iter_mut().filter(held).for_each(|park| park.fate = Fate::Replaced);
        let park = (line, self.count(line) + 1);
        self.parks.push(Park { park, image: image.to_vec(), fate: Fate::Held });
        let others: Vec<u32> = (0..8).filter(|&other| other != line).map(|other| self.count(other)).collect();
        match park.1 {
            MOST => Parked::Last,
            _ if others.contains(&MOST) => Parked::Beside,
            number if others.contains(&number) => Parked::Same,
            _ => Parked::Own,
        }
    }

    fn take_up(&mut self, image: &[u8]) -> Resume {
        let wanted = park_of(image);
        let twice = self.held_elsewhere(wanted);
        let place = self.place(wanted).expect("an accepted resume is of a park");
        let park = &mut self.parks[place];
        assert_eq!(park.fate, Fate::Held, "an accepted resume is of a held park");
        park.fate = Fate::TakenUp;
        match park.image == image {
            true if twice => Resume::HeldTwice,
            true => Resume::AsParked,
            false => Resume::Altered,
        }
    }

    fn refused(&self, park: command::Park) -> Resume {
        let (line, number) = park;
        match self.place(park).map(|place| self.parks[place].fate) {
            Some(Fate::Held) => panic!("a held park is not refused"),
            _ if self.held_elsewhere(park) => Resume::OtherLine,
            Some(Fate::TakenUp) => Resume::TakenUp,
            Some(Fate::Replaced) => Resume::Replaced,
            None if number == 0 => Resume::Zero,
            None if number <= self.before[usize::from(line)] => Resume::Earlier,
            None if self.count(line) == 0 => Resume::NoneMade,
            None => Resume::Above,
        }
    }

    /// The place of a park; nothing if no call of the list made it.
    fn place(&self, wanted: command::Park) -> Option<usize> {
        self.parks.iter().position(|park| park.park == wanted)
    }

    /// Whether the number of a park is held of another line.
    fn held_elsewhere(&self, (line, number): command::Park) -> bool {
        let other = |park: &Park| park.fate == Fate::Held && park.park.1 == number && park.park.0 != line;
        self.parks.iter().any(other)
    }
}

/// Whether an image has a line over 7, and nothing else that number 8 refuses.
fn no_line(image: &[u8]) -> bool {
    park_of(image).0 > 7 && Line::from_image(&from_line(image, 0)).is_some()
}

#[cfg(test)]
mod tests {
    use super::*;
    use crate::command::{numbered, of_park};
    use crate::machine::Machine;
    use crate::parks::Parks;

    /// A machine and its ledger, after so many parks of each line.
    fn pair(before: [u32; 8]) -> (Machine, Ledger) {
        (Machine::with(Parks::of(before, [0; 8]).unwrap()), Ledger::after(before))
    }

    fn call((machine, ledger): &mut (Machine, Ledger), command: &[u8]) -> Option<Met> {
        let mut out = [0; IMAGE];
        let answer = machine.call(command, &[], &[], &mut out);
        ledger.note(command, &answer, &out)
    }

    fn open(line: u8) -> Vec<u8> {
        command::open_own(line, 4, &[line + 1; 32], &[0; 16])
    }

    /// Opens a line and parks it.
    fn park(pair: &mut (Machine, Ledger), line: u8) -> Vec<u8> {
        call(pair, &open(line));
        call(pair, &command::park(line));
        pair.1.all().pop().unwrap()
    }

    /// Resumes on a line, which is closed after it.
    fn resume(pair: &mut (Machine, Ledger), line: u8, image: &[u8]) -> Option<Resume> {
        let told = call(pair, &command::resume(line, image));
        call(pair, &command::close(line));
        told.map(|met| match met {
            Met::Resume(resume) => resume,
            Met::Park(parked) => panic!("{parked:?}"),
        })
    }

    #[test]
    fn each_kind_of_resume_is_told() {
        let good = command::padded(&[4], IMAGE);
        let mut after = pair([0, 0, 5, 0, 0, 0, 0, 0]);
        let mut on_three = |image: &[u8], park: command::Park| resume(&mut after, 3, &of_park(image, park));
        assert_eq!([(2, 1), (8, 1)].map(|park| on_three(&[0; IMAGE], park)), [None, None]);
        let told = [(2, 0), (2, 5), (2, 6), (3, 1), (8, 5)].map(|park| on_three(&good, park));
        let kinds = [Resume::Zero, Resume::Earlier, Resume::Above, Resume::NoneMade, Resume::NoLine];
        assert_eq!(told, kinds.map(Some));

        let mut fresh = pair([0; 8]);
        let [one, two, three] = [1, 2, 1].map(|line| park(&mut fresh, line));
        let mut on_six = |image: &[u8]| resume(&mut fresh, 6, image).unwrap();
        let told = [&one, &two, &two, &one].map(|image| on_six(image));
        assert_eq!(told, [Resume::OtherLine, Resume::AsParked, Resume::TakenUp, Resume::Replaced]);
        let told = [&numbered(&two, 2), &of_park(&two, (1, 2)), &three].map(|image| on_six(image));
        assert_eq!(told, [Resume::OtherLine, Resume::Altered, Resume::TakenUp]);
        let told = [0, 3].map(|number| on_six(&numbered(&one, number)));
        assert_eq!(told, [Resume::Zero, Resume::Above]);
        let [four, five] = [4, 5].map(|line| park(&mut fresh, line));
        let told = [&five, &four].map(|image| resume(&mut fresh, 6, image).unwrap());
        assert_eq!(told, [Resume::HeldTwice, Resume::AsParked]);
    }

    #[test]
    fn each_kind_of_park_is_told() {
        let mut pair = pair([0, 0, MOST - 1, 0, 0, 0, 0, 6]);
        let mut parked = |line: u8| {
            call(&mut pair, &open(line));
            match call(&mut pair, &command::park(line)) {
                Some(Met::Park(parked)) => parked,
                _ => panic!("no park"),
            }
        };
        let told = [0, 1, 0, 2, 1, 2].map(&mut parked);
        let kinds = [Parked::Own, Parked::Same, Parked::Own, Parked::Last, Parked::Beside, Parked::UsedUp];
        assert_eq!(told, kinds);
    }

    #[test]
    fn fates_are_those_of_the_cards_numbers() {
        let mut pair = pair([0, 0, 0, 70, 70, 9, 0, 0]);
        let images = [3, 4, 3, 5, 0].map(|line| park(&mut pair, line));
        call(&mut pair, &command::resume(4, &images[3]));
        assert_eq!(pair.1.images(Fate::Held), [&images[1], &images[2], &images[4]].map(Clone::clone));
        assert_eq!(pair.1.images(Fate::TakenUp), [images[3].clone()]);
        assert_eq!(pair.1.images(Fate::Replaced), [images[0].clone()]);
        assert_eq!(pair.0.parks().held(), [1, 0, 0, 72, 71, 0, 0, 0]);
        assert_eq!(images.map(|image| park_of(&image)), [(3, 71), (4, 71), (3, 72), (5, 10), (0, 1)]);
    }
}
