//! A card that is the machine but for one thing that it does with parks, with changes of key or with loads, and what such
//! things are made of.

use crate::calls::Card;
use crate::cipher::{by_number, Shape};
use crate::command::{self, length, CHANGE_KEY, CRYPT, IV, POSITION_AT, RECORD};
use crate::images::{image, NO_PARK};
use crate::machine::{Answer, Machine, SeenChange, SeenLoad, END};
use crate::words::{self, COUNT, HELD};

/// A way to be wrong: its name, and what the card does in the place of a call.
pub type Way = (&'static str, fn(&mut Twisted, &Call, &mut [u8]) -> Answer);

/// What the card is given beside out.
#[derive(Clone, Copy)]
pub struct Call<'a> {
    pub command: &'a [u8],
    pub tray: &'a [u8],
    pub data: &'a [u8],
}

impl<'a> Call<'a> {
    /// The line of a whole command of this kind, 0 to 7.
    pub fn of(&self, kind: u8) -> Option<u8> {
        let whole = length(kind).is_some_and(|length| self.command.len() >= length);
        let line = *self.command.get(1)?;
        (self.command[0] == kind && whole && line < 8).then_some(line)
    }

    /// The line and the position of a change of key.
    pub fn change(&self) -> Option<(u8, u64)> {
        Some((self.of(CHANGE_KEY)?, command::position(self.command)))
    }

    /// The line and the count of a crypt.
    pub fn crypt(&self) -> Option<(u8, u64)> {
        Some((self.of(CRYPT)?, command::count(self.command) as u64))
    }

    pub fn with(&self, command: &'a [u8]) -> Call<'a> {
        Call { command, ..*self }
    }
}

/// The command of a change with another position.
pub fn at(change: &[u8], position: u64) -> Vec<u8> {
    [&change[..POSITION_AT], &position.to_be_bytes()].concat()
}

/// A crypt across a change: the data, out as it was, and the bytes before the change.
pub struct Span<'a> {
    pub data: &'a [u8],
    pub was: &'a [u8],
    pub before: usize,
}

/// The card; it may keep the changes that closes dropped, what lines were loaded with, and which line a call was parked
/// from that was taken up on a line.
#[derive(Clone)]
pub struct Twisted {
    pub machine: Machine,
    pub dropped: [Option<SeenChange>; 8],
    pub kept: [Option<SeenLoad>; 8],
    pub from: [Option<u8>; 8],
    way: &'static Way,
}

impl Card for Twisted {
    fn name(&self) -> String {
        self.way.0.to_string()
    }

    fn begin(&mut self, machine: &Machine) {
        *self = Twisted { machine: machine.clone(), ..Twisted::new(self.way) };
    }

    fn call(&mut self, command: &[u8], tray: &[u8], data: &[u8], out: &mut [u8]) -> Result<Answer, String> {
        Ok((self.way.1)(self, &Call { command, tray, data }, out))
    }
}

impl Twisted {
    pub fn new(way: &'static Way) -> Twisted {
        let (dropped, kept, from) = Default::default();
        Twisted { machine: Machine::fresh(), dropped, kept, from, way }
    }

    /// What the machine does.
    pub fn right(&mut self, call: &Call, out: &mut [u8]) -> Answer {
        self.machine.call(call.command, call.tray, call.data, out)
    }

    /// The code that the machine would answer.
    pub fn code(&self, call: &Call, out: &[u8]) -> u8 {
        self.machine.clone().call(call.command, call.tray, call.data, &mut out.to_vec()).code
    }

    /// Makes the counts of parks and the held numbers others, if a card may hold them.
    pub fn set_parks(&mut self, change: impl FnOnce(&mut [u32], &mut [u32])) {
        let mut card = words::of(&self.machine);
        let (made, held) = card[COUNT..].split_at_mut(HELD - COUNT);
        change(made, held);
        words::machine(&card).into_iter().for_each(|machine| self.machine = machine);
    }

    /// The position of a line; 0 of an idle one.
    pub fn position(&self, line: u8) -> u64 {
        self.machine.open(line).map_or(0, |(_, position)| position)
    }

    /// How many bytes it is to the change that waits on a line, if one does.
    pub fn until(&self, line: u8) -> Option<u64> {
        Some(self.machine.waiting(line)? - self.position(line))
    }

    /// The shape of an open line's cipher.
    pub fn shape(&self, line: u8) -> Option<Shape> {
        self.machine.open(line).and_then(|(cipher, _)| by_number(cipher)).map(|cipher| cipher.shape())
    }

    /// Makes an open line one at a position, with the state that it has and nothing waiting.
    pub fn move_to(&mut self, line: u8, position: u64) {
        if let Some(seen) = self.machine.seen(line).filter(|_| position <= END) {
            self.machine.set(line, &image(seen.cipher, position, NO_PARK, &seen.state));
        }
    }

    /// Drops the change that waits on a line.
    pub fn drop_change(&mut self, line: u8) {
        self.move_to(line, self.position(line));
    }

    /// Makes the call; gives the line and the position of a change that comes due by it.
    pub fn come_due(&mut self, call: &Call, out: &mut [u8]) -> (Answer, Option<(u8, u64)>) {
        let due = match (call.change(), call.crypt()) {
            (Some((line, position)), _) if position == self.position(line) => Some((line, position)),
            (_, Some((line, _))) => self.machine.waiting(line).map(|due| (line, due)),
            _ => None,
        };
        let answer = self.right(call, out);
        let came = |&(line, _): &(u8, u64)| answer.code == 0 && self.machine.waiting(line).is_none();
        (answer, due.filter(came))
    }

    /// Makes a change that is accepted with another position, which is one that is accepted too.
    pub fn due(&mut self, call: &Call, out: &mut [u8], other: fn(&Twisted, u8, u64) -> u64) -> Answer {
        match call.change() {
            Some((line, position)) if self.code(call, out) == 0 => {
                let position = other(self, line, position).clamp(self.position(line), END);
                self.right(&call.with(&at(call.command, position)), out)
            }
            _ => self.right(call, out),
        }
    }

    /// Moves a line whose change came due to what `to` says of the change's position, the line's and the unit.
    pub fn moved(&mut self, call: &Call, out: &mut [u8], to: fn(u64, u64, u64) -> u64) -> Answer {
        let (answer, due) = self.come_due(call, out);
        if let Some((line, due)) = due {
            let unit = self.shape(line).map_or(1, |shape| shape.unit as u64);
            self.move_to(line, to(due, self.position(line), unit));
        }
        answer
    }

    /// Makes a crypt; where it spans a change, does to the bytes that it wrote what `then` says.
    pub fn spanning(&mut self, call: &Call, out: &mut [u8], then: fn(&Span, &mut [u8])) -> Answer {
        let (was, until) = (out.to_vec(), call.crypt().and_then(|(line, _)| self.until(line)));
        let (answer, due) = self.come_due(call, out);
        let (count, before) = (answer.written, until.map_or(usize::MAX, |until| until as usize));
        if due.is_some() && before < count {
            then(&Span { data: &call.data[..count], was: &was[..count], before }, &mut out[..count]);
        }
        answer
    }

    /// Says a code in the place of another, where `so` holds of a call of this kind.
    pub fn said(
        &mut self,
        call: &Call,
        out: &mut [u8],
        (kind, [right, said]): (u8, [u8; 2]),
        so: fn(&Twisted, u8, &Call) -> bool,
    ) -> Answer {
        match call.of(kind) {
            Some(line) if so(self, line, call) && self.code(call, out) == right => Answer::refused(said),
            _ => self.right(call, out),
        }
    }

    /// Makes a call of this kind and with this code again, after the change that waits on its line is dropped.
    pub fn again(&mut self, call: &Call, out: &mut [u8], (kind, code): (u8, u8)) -> Answer {
        if let Some(line) = call.of(kind).filter(|_| self.code(call, out) == code) {
            self.drop_change(line);
        }
        self.right(call, out)
    }

    /// Answers a change that has this code as one that comes due at once on a line where nothing waits, if that is
    /// refused.
    pub fn last(&mut self, call: &Call, out: &mut [u8], code: u8) -> Answer {
        if let Some((line, _)) = call.change().filter(|_| self.code(call, out) == code) {
            let mut other = self.clone();
            other.drop_change(line);
            let command = at(call.command, self.position(line));
            let answer = other.right(&call.with(&command), &mut out.to_vec());
            if answer.code != 0 {
                return answer;
            }
        }
        self.right(call, out)
    }

    /// Judges the key and the IV of a change by the lengths of another cipher than the line's, and leaves out what is
    /// beyond the line's own.
    pub fn judged_by(&mut self, call: &Call, out: &mut [u8], cipher: u8) -> Answer {
        let own = call.of(CHANGE_KEY).and_then(|line| self.shape(line));
        let judged = own.zip(by_number(cipher)).filter(|_| [0, 7, 16].contains(&self.code(call, out)));
        let Some((own, other)) = judged.map(|(own, other)| (own, other.shape())) else {
            return self.right(call, out);
        };
        let (mut command, mut tray) = (call.command.to_vec(), call.tray.to_vec());
        let (iv, key) = (&mut command[3..3 + IV], &mut tray[RECORD * usize::from(call.command[2])..][..RECORD]);
        let zero = |bytes: &[u8]| bytes.iter().all(|&byte| byte == 0);
        if !zero(&key[other.key..]) || !zero(&iv[other.iv..]) {
            return Answer::refused(7);
        }
        if zero(&key[..other.key]) {
            return Answer::refused(16);
        }
        key[own.key..].fill(0);
        iv[own.iv..].fill(0);
        self.right(&Call { command: &command, tray: &tray, data: call.data }, out)
    }
}
