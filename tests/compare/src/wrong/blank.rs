//! Cards that judge a blank key wrongly.

use crate::calls::Card;
use crate::cipher::{by_number, Shape};
use crate::command::{length, IMAGE, OPEN_OWN, OPEN_TRAY, RECORD, RESUME, STATE_AT};
use crate::machine::{Answer, Machine};

/// What a wrong card looks at: the key's field of an open or the state's of a resume, and an open's IV.
struct Looked<'a> {
    shape: Shape,
    field: &'a [u8],
    iv: &'a [u8],
}

impl<'a> Looked<'a> {
    /// Nothing of another command, one that is cut short, one without a cipher, or a key that isn't in the tray.
    fn at(command: &'a [u8], tray: &'a [u8]) -> Option<Looked<'a>> {
        let whole = command.get(..length(*command.first()?)?)?;
        let (field, iv) = match whole[0] {
            OPEN_TRAY => (tray.get(RECORD * usize::from(whole[3])..)?.get(..RECORD)?, &whole[4..]),
            OPEN_OWN => whole[3..].split_at(RECORD),
            RESUME => whole[2 + STATE_AT..].split_at(IMAGE - STATE_AT),
            _ => return None,
        };
        Some(Looked { shape: by_number(whole[2])?.shape(), field, iv })
    }

    /// The field in the key's own length.
    fn key(&self) -> &'a [u8] {
        &self.field[..self.shape.key]
    }
}

/// A way to be wrong: its name, the kinds of command that it is about, the code that is right and the one that is said
/// in its place, and of which keys or states.
type Way = (&'static str, &'static [u8], [u8; 2], fn(&Looked) -> bool);

const OPENS: &[u8] = &[OPEN_TRAY, OPEN_OWN];

static WAYS: [Way; 16] = [
    ("a blank key is taken", OPENS, [16, 0], |_| true),
    ("a blank key is taken from the tray", &[OPEN_TRAY], [16, 0], |_| true),
    ("a blank key is taken from the command", &[OPEN_OWN], [16, 0], |_| true),
    ("a blank key is taken with an IV that isn't", OPENS, [16, 0], |l| !zero(l.iv)),
    ("a blank key of 32 bytes is taken", OPENS, [16, 0], |l| l.shape.key == 32),
    ("a blank key is 7", OPENS, [16, 7], |_| true),
    ("16 before 5", OPENS, [5, 16], |l| zero(l.key())),
    ("16 before 9", OPENS, [9, 16], |l| zero(l.key())),
    ("16 before 7", OPENS, [7, 16], |l| zero(l.key())),
    ("the last byte is left out", OPENS, [0, 16], |l| zero(&l.key()[..l.shape.key - 1])),
    ("the first byte is left out", OPENS, [0, 16], |l| zero(&l.key()[1..])),
    ("the second half of 32 bytes is left out", OPENS, [0, 16], |l| zero(&l.key()[..16])),
    ("one bit of each byte is looked at", OPENS, [0, 16], |l| l.key().iter().all(|byte| byte % 2 == 0)),
    ("the bytes are added up", OPENS, [0, 16], |l| sum(l.key()) == 0),
    ("the IV is looked at", OPENS, [0, 16], |l| zero(l.iv)),
    ("the state of a resume is looked at", &[RESUME], [0, 16], |l| zero(l.key())),
];

fn zero(bytes: &[u8]) -> bool {
    bytes.iter().all(|&byte| byte == 0)
}

fn sum(bytes: &[u8]) -> u8 {
    bytes.iter().fold(0, |sum, &byte| sum.wrapping_add(byte))
}

/// A card that is the machine but for the code of some commands.
struct Wrong {
    machine: Machine,
    way: &'static Way,
}

impl Card for Wrong {
    fn name(&self) -> String {
        self.way.0.to_string()
    }

    fn begin(&mut self, machine: &Machine) {
        self.machine = machine.clone();
    }

    fn call(&mut self, command: &[u8], tray: &[u8], data: &[u8], out: &mut [u8]) -> Result<Answer, String> {
        let (answer, (_, kinds, [right, said], so)) = (self.machine.call(command, tray, data, out), self.way);
        let met = answer.code == *right && command.first().is_some_and(|kind| kinds.contains(kind));
        let wrong = met && Looked::at(command, tray).is_some_and(|looked| so(&looked));
        Ok(if wrong { Answer { code: *said, ..answer } } else { answer })
    }
}

/// A card for each way.
pub fn cards() -> impl Iterator<Item = Box<dyn Card>> {
    WAYS.iter().map(|way| Box::new(Wrong { machine: Machine::fresh(), way }) as Box<dyn Card>)
}
