//! Single calls, each with a command, tray, data and out of its own, and a comparison of any card that takes one call
//! at a time. A refused call doesn't end a list of such calls.

use crate::changes::Changes;
use crate::command::{length, CRYPT, IMAGE, PARK};
use crate::ledger::Ledger;
use crate::loads::Loads;
use crate::machine::{Answer, Machine};
use crate::mixed::{self, CallList};
use crate::named::Case;
use crate::program::{self, Call};
use crate::random::Random;
use crate::subject::{first_difference, Subject, Tally};
use crate::words;

/// A call with its own buffers; `out` as it is before the call.
#[derive(Clone, Debug, PartialEq, Eq)]
pub struct OwnCall {
    pub command: Vec<u8>,
    pub tray: Vec<u8>,
    pub data: Vec<u8>,
    pub out: Vec<u8>,
}

/// A call with buffers about as long as it needs: some bytes to spare, none, or now and then one too few.
pub fn own(random: &mut Random, call: &Call) -> OwnCall {
    let first = call.command.first().copied().unwrap_or(0);
    let count = count(call.command);
    let written = if first == PARK { IMAGE } else { count };
    let command = about(random, length(first).unwrap_or(5), call.command.len());
    let data = about(random, count, call.data.len());
    let out = about(random, written, call.out);
    OwnCall {
        command: call.command[..command].to_vec(),
        tray: call.tray.to_vec(),
        data: call.data[..data].to_vec(),
        out: random.bytes(out),
    }
}

/// The count of a crypt; 0 of any other command.
fn count(command: &[u8]) -> usize {
    match command {
        [CRYPT, _, high, low, ..] => usize::from(*high) * 256 + usize::from(*low),
        _ => 0,
    }
}

/// A length at most `most`, near `needed`.
pub fn about(random: &mut Random, needed: usize, most: usize) -> usize {
    let length = match random.between(0, 19) {
        0 => 0,
        1 => needed.saturating_sub(1),
        2..=9 => needed,
        _ => needed + random.size(1, 40),
    };
    length.min(most)
}

/// A card that takes one call at a time.
pub trait Card {
    fn name(&self) -> String;

    /// Makes the card one with the lines and parks of a machine.
    fn begin(&mut self, machine: &Machine);

    /// One call on the card that the call before left. An error says what it does beside answering.
    fn call(&mut self, command: &[u8], tray: &[u8], data: &[u8], out: &mut [u8]) -> Result<Answer, String>;

    /// The words that the card is kept as, or nothing if it doesn't show them.
    fn words(&self) -> Option<Vec<u32>> {
        None
    }
}

impl Card for Machine {
    fn name(&self) -> String {
        "the plain machine".to_string()
    }

    fn begin(&mut self, machine: &Machine) {
        *self = machine.clone();
    }

    fn call(&mut self, command: &[u8], tray: &[u8], data: &[u8], out: &mut [u8]) -> Result<Answer, String> {
        Ok(Machine::call(self, command, tray, data, out))
    }

    fn words(&self) -> Option<Vec<u32>> {
        Some(words::of(self))
    }
}

/// A card as a subject: call lists are run on it call by call beside the plain machine.
pub struct CallByCall<C: Card> {
    pub card: C,
}

impl<C: Card> Subject for CallByCall<C> {
    fn name(&self) -> String {
        self.card.name()
    }

    fn hold_case(&mut self, case: &Case) -> Result<Tally, String> {
        let run = program::run(&case.list.files);
        let tally = self.hold_calls(Machine::fresh(), run.calls.iter().map(|(call, _)| lent(call)));
        let tally = tally.map_err(|told| format!("named case \"{}\", {told}", case.name()))?;
        Ok(Tally { named: 1, ..tally })
    }

    fn hold(&mut self, seed: u64, number: u64) -> Result<Tally, String> {
        let CallList { start, calls } = mixed::list(seed, number);
        let tally = self.hold_calls(start, calls);
        let tally = tally.map_err(|told| format!("call list {number} of seed {seed}, {told}"))?;
        Ok(Tally { lists: 1, ..tally })
    }
}

impl<C: Card> CallByCall<C> {
    /// Makes calls on a card that begins as the machine does, which must have all lines idle and hold no number.
    fn hold_calls(&mut self, mut machine: Machine, calls: impl IntoIterator<Item = OwnCall>) -> Result<Tally, String> {
        let (mut tally, mut ledger) = (Tally::default(), Ledger::after(machine.parks().made()));
        let (mut changes, mut loads) = (Changes::default(), Loads::default());
        self.card.begin(&machine);
        for (i, mut call) in calls.into_iter().enumerate() {
            let answer = hold_call(&mut machine, &mut self.card, &mut call);
            let answer = answer.map_err(|told| format!("call {}: {told}", i + 1))?;
            tally.note(&mut ledger, &call.command, &answer, &call.out);
            tally.note_change(&mut changes, &call.command, &answer);
            tally.note_load(&mut loads, &call.command, &answer);
        }
        Ok(tally)
    }
}

/// A call with the buffers that the program lends, out all zeros.
fn lent(call: &Call) -> OwnCall {
    let (command, tray) = (call.command.to_vec(), call.tray.to_vec());
    OwnCall { command, tray, data: call.data.to_vec(), out: vec![0; call.out] }
}

/// Makes one call on both and compares the answers, out as a whole and the card's words; gives the machine's answer,
/// and leaves the call's out as it is after the call.
fn hold_call(machine: &mut Machine, card: &mut dyn Card, call: &mut OwnCall) -> Result<Answer, String> {
    let mut got_out = call.out.clone();
    let wanted = machine.call(&call.command, &call.tray, &call.data, &mut call.out);
    let got = card.call(&call.command, &call.tray, &call.data, &mut got_out)?;
    if wanted != got {
        return Err(format!("the answer is {got:?}, expected {wanted:?}"));
    }
    if let Some(told) = first_difference(&call.out, &got_out) {
        return Err(format!("out: {told}"));
    }
    match card.words().and_then(|got| words::first_difference(&words::of(machine), &got)) {
        Some(told) => Err(told),
        None => Ok(wanted),
    }
}

#[cfg(test)]
mod tests {
    use super::*;
    use crate::named;

    /// A card that is the machine but for what `fault` does, after a call, to the answer and to out, and for the lowest
    /// bit of a word.
    struct Faulty {
        machine: Machine,
        fault: fn(command: &[u8], &mut Answer, &mut [u8]),
        word: Option<usize>,
    }

    impl Card for Faulty {
        fn name(&self) -> String {
            "a faulty card".to_string()
        }

        fn begin(&mut self, machine: &Machine) {
            self.machine = machine.clone();
        }

        fn call(&mut self, command: &[u8], tray: &[u8], data: &[u8], out: &mut [u8]) -> Result<Answer, String> {
            let mut answer = self.machine.call(command, tray, data, out);
            (self.fault)(command, &mut answer, out);
            Ok(answer)
        }

        fn words(&self) -> Option<Vec<u32>> {
            let mut words = words::of(&self.machine);
            self.word.into_iter().for_each(|word| words[word] ^= 1);
            Some(words)
        }
    }

    fn held<C: Card>(card: C) -> Result<Tally, String> {
        let mut subject = CallByCall { card };
        let mut tally = Tally::default();
        for case in named::all().iter().take(60) {
            tally.add(&subject.hold_case(case)?);
        }
        for number in 0..60 {
            tally.add(&subject.hold(7, number)?);
        }
        Ok(tally)
    }

    fn told(fault: fn(&[u8], &mut Answer, &mut [u8])) -> String {
        held(Faulty { machine: Machine::fresh(), fault, word: None }).unwrap_err()
    }

    #[test]
    fn the_machine_agrees_with_itself_and_meets_every_code() {
        let tally = held(Machine::fresh()).unwrap();
        let counts = tally.codes.iter().chain(&tally.parks).chain(&tally.resumes);
        assert!(counts.chain(&tally.changes).chain(&tally.loads).all(|&count| count > 0), "{tally:?}");
    }

    #[test]
    fn a_refusal_that_writes_is_found() {
        let told = told(|_, answer, out| {
            if let (6, Some(first)) = (answer.code, out.first_mut()) {
                *first ^= 1;
            }
        });
        assert!(told.contains("out: byte 0"), "{told}");
    }

    #[test]
    fn a_word_left_behind_is_found() {
        let places = [
            (words::COUNT - 1, "word 81 of line 7"),
            (words::COUNT, "the count of parks of line 0"),
            (words::HELD - 1, "the count of parks of line 7"),
            (words::CARD - 1, "the number held of line 7"),
        ];
        for (word, place) in places {
            let card = Faulty { machine: Machine::fresh(), fault: |_, _, _| (), word: Some(word) };
            let told = held(card).unwrap_err();
            assert!(told.contains(&format!("{place} is 00000001, expected 00000000")), "{told}");
        }
    }

    #[test]
    fn twelve_before_eleven_is_found() {
        let told = told(|command, answer, out| {
            if answer.code == 11 && out.len() < count(command) {
                answer.code = 12;
            }
        });
        assert!(told.contains("code: 12") && told.contains("expected Answer { code: 11"), "{told}");
    }
}
