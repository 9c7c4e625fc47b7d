//! Lists of single calls from a seed: the calls of several command lists mixed on one card, with crypts, parks, resumes,
//! opens, changes of key, loads and starts between them, so that numbers are held, taken up and replaced, images come
//! again, keys of every make are given to a card in use, changes wait, come due and stand in the way of others, and every
//! command is given to a loaded line.

use crate::calls::{self, OwnCall};
use crate::cipher::LAST;
use crate::command::{self, of_park, park_of, IMAGE, PARK, RECORD, RESUME};
use crate::ledger::{Fate, Ledger};
use crate::machine::{Answer, Machine, END};
use crate::parks::{self, Parks};
use crate::program::{self, Call};
use crate::random::Random;
use crate::{changing, images, lists, plain, trays};

/// A list of calls, and the card that it begins with: all lines idle, no number held, and perhaps parks made from some
/// lines.
pub struct CallList {
    pub start: Machine,
    pub calls: Vec<OwnCall>,
}

/// No more calls than these are taken from one command list.
const MOST: usize = 150;

/// Call list `number` of `seed`: the calls of three command lists of that seed, mixed, on one card, and others between
/// them. Images of the lists' own parks have the numbers that these parks have there.
pub fn list(seed: u64, number: u64) -> CallList {
    let mut random = Random::new(seed ^ 0xCA11, number);
    let made = if random.chance(50) { [0; 8].map(|_: u32| made_before(&mut random)) } else { [0; 8] };
    let start = Machine::with(Parks::of(made, [0; 8]).unwrap_or_default());
    let mut parts: Vec<Part> = (0..3).map(|i| Part::of(&mut random, seed, 3 * number + i)).collect();
    let (mut table, mut calls) = (Table { machine: start.clone(), ledger: Ledger::after(made) }, Vec::new());
    while !parts.is_empty() {
        if random.chance(40) {
            calls.push(table.added(&mut random));
        }
        let which = random.size(0, parts.len() - 1);
        match parts[which].make(&mut table) {
            Some(call) => calls.push(call),
            None => drop(parts.remove(which)),
        }
    }
    CallList { start, calls }
}

/// How many parks were made from a line: mostly none, else nearly as many as can be made, any number, or one at which the
/// count will run over the end of a byte.
fn made_before(random: &mut Random) -> u32 {
    match random.between(0, 7) {
        0 => parks::MOST - random.between(0, 2) as u32,
        1 => random.draw() as u32,
        2 => (1 << random.pick(&[8, 16, 24, 31])) - random.between(1, 5) as u32,
        _ => 0,
    }
}

/// What is left of the calls of a command list, last one first, each with its line if it is a park that the list's own
/// card accepts; and by their lines, for each such park made, its number on the mixed card, if that one accepts it too.
struct Part {
    calls: Vec<(OwnCall, Option<u8>)>,
    numbers: [Vec<Option<u32>>; 8],
}

impl Part {
    fn of(random: &mut Random, seed: u64, number: u64) -> Part {
        let list = lists::list(seed, number);
        let run = program::run(&list.files);
        let park =
            |call: &Call, answer: &Answer| (answer.code == 0 && call.command[0] == PARK).then(|| call.command[1]);
        let calls = run.calls.iter().take(MOST).map(|(call, answer)| (calls::own(random, call), park(call, answer)));
        let mut calls: Vec<(OwnCall, Option<u8>)> = calls.collect();
        calls.reverse();
        Part { calls, numbers: Default::default() }
    }

    /// Makes the next call on the mixed card and gives it; nothing if none is left.
    fn make(&mut self, table: &mut Table) -> Option<OwnCall> {
        let (mut call, park) = self.calls.pop()?;
        self.renumber(&mut call.command);
        let code = table.call(&call);
        if let Some(line) = park.map(usize::from) {
            self.numbers[line].push((code == 0).then_some(table.machine.parks().made()[line]));
        }
        Some(call)
    }

    /// Gives a resume of one of the list's parks the number that this park has on the mixed card, if it has one.
    fn renumber(&self, command: &mut [u8]) {
        let whole = command.first() == Some(&RESUME) && command.len() >= 2 + IMAGE;
        let Some(image) = command.get_mut(2..2 + IMAGE).filter(|_| whole) else {
            return;
        };
        let (line, own) = park_of(image);
        let numbers = self.numbers.get(usize::from(line)).into_iter().flatten();
        let on_the_mixed = (1..).zip(numbers).find(|(number, _)| *number == own);
        if let Some((_, Some(number))) = on_the_mixed {
            image.copy_from_slice(&of_park(image, (line, *number)));
        }
    }
}

/// An open or a load of an idle line with any cipher. The key is one of three in the tray, where it is put, or an open's
/// own: at times it is blank, or so but for one byte.
fn opened(random: &mut Random, idle: &[u8], tray: &mut [u8]) -> Vec<u8> {
    let (line, cipher) = (random.pick(idle), random.between(1, LAST.into()) as u8);
    let (number, iv) = (random.size(0, 2), plain::iv(random, cipher));
    let key = match random.between(0, 9) {
        0..=2 => vec![0; RECORD],
        3 => random.alone(RECORD),
        _ => trays::record(random),
    };
    let way = random.between(0, 2);
    if way == 0 {
        return command::open_own(line, cipher, &key, &iv);
    }
    tray[RECORD * number..][..RECORD].copy_from_slice(&key);
    match way {
        1 => command::open_tray(line, cipher, number as u8, &iv),
        _ => command::load(line, cipher, number as u8),
    }
}

/// A command on a loaded line: mostly a start, at times with an IV that isn't for the line's cipher, or a close, else one
/// that is refused there.
fn on_loaded(random: &mut Random, line: u8, cipher: u8, tray: &mut [u8]) -> Vec<u8> {
    let iv = plain::iv(random, cipher);
    match random.between(0, 11) {
        0..=3 if cipher == 2 && random.chance(50) => command::start(line, &random.bytes(command::IV)),
        0..=5 => command::start(line, &iv),
        6 => command::close(line),
        7 => command::crypt(line, random.between(0, 9) as u16),
        8 => command::park(line),
        9 => changed(random, line, (cipher, 0), tray),
        10 => command::resume(line, &images::elsewhere(random)),
        _ => opened(random, &[line], tray),
    }
}

/// A change of the key of an open line. The key is one of three in the tray, where it is put, mostly one for the line's
/// cipher; at times there is a fault.
fn changed(random: &mut Random, line: u8, (cipher, position): (u8, u64), tray: &mut [u8]) -> Vec<u8> {
    let (number, mut iv) = (random.size(0, 2), plain::iv(random, cipher));
    let (mut key, mut due) = (plain::key(random, cipher), changing::due(random, position));
    match random.between(0, 19) {
        0 => key = vec![0; RECORD],
        1 => key = trays::record(random),
        2 => iv = random.bytes(command::IV),
        3 | 4 => due = changing::not_due(random, position),
        _ => (),
    }
    tray[RECORD * number..][..RECORD].copy_from_slice(&key);
    command::change_key(line, number as u8, &iv, due)
}

/// The mixed card while its list is made, and what became of its parks.
struct Table {
    machine: Machine,
    ledger: Ledger,
}

impl Table {
    /// Makes a call; gives its code.
    fn call(&mut self, call: &OwnCall) -> u8 {
        let mut out = call.out.clone();
        let answer = self.machine.call(&call.command, &call.tray, &call.data, &mut out);
        self.ledger.note(&call.command, &answer, &out);
        answer.code
    }

    /// Makes a crypt, a park or a change on an open line, a resume, an open or a load on an idle one, or any command on a
    /// loaded one, and gives it; at times the tray is cut off.
    fn added(&mut self, random: &mut Random) -> OwnCall {
        let (idle, busy): (Vec<u8>, Vec<u8>) = (0..8).partition(|&line| self.machine.idle(line));
        let (open, loaded): (Vec<u8>, Vec<u8>) = busy.iter().partition(|&&line| self.machine.open(line).is_some());
        let mut tray = trays::records(random, 3);
        let command = if !loaded.is_empty() && (busy.len() == 8 && open.is_empty() || random.chance(25)) {
            let line = random.pick(&loaded);
            let cipher = self.machine.loaded(line).map_or(1, |loaded| loaded.cipher);
            on_loaded(random, line, cipher, &mut tray)
        } else if random.chance(3) {
            command::start(random.between(0, 7) as u8, &random.bytes(command::IV))
        } else if !idle.is_empty() && random.chance(12) {
            opened(random, &idle, &mut tray)
        } else if open.is_empty() || !idle.is_empty() && random.chance(40) {
            command::resume(random.pick(&idle), &self.image(random))
        } else {
            self.on_open(random, &open, &mut tray)
        };
        if random.chance(5) {
            tray.truncate(random.size(0, 3 * RECORD));
        }
        let out = calls::about(random, IMAGE, usize::MAX);
        let call = OwnCall { command, tray, data: random.bytes(50), out: random.bytes(out) };
        self.call(&call);
        call
    }

    /// A crypt, a park or a change on one of these lines, which are open; where a change waits or 2^36 is near, mostly a
    /// crypt or a change there.
    fn on_open(&self, random: &mut Random, open: &[u8], tray: &mut [u8]) -> Vec<u8> {
        let line = random.pick(open);
        let place = self.machine.open(line).unwrap_or((1, 0));
        let way = self.machine.waiting(line).map(|due| due - place.1);
        match (random.between(0, 9), way) {
            (0..=5, Some(way @ 1..=40)) => {
                let more = random.between(2, 10);
                command::crypt(line, random.pick(&[way - 1, way, way, way + 1, way + more]) as u16)
            }
            (0..=5, None) if END - place.1 < 100 => changed(random, line, place, tray),
            (0..=3, _) => command::crypt(line, random.between(0, 50) as u16),
            (4 | 5, _) => changed(random, line, place, tray),
            _ => command::park(line),
        }
    }

    /// An image that a park of the list wrote, mostly one that is held, or one from elsewhere with a line's next number
    /// where there is none such; at times with other contents, bad ones too, another number, or another line.
    fn image(&self, random: &mut Random) -> Vec<u8> {
        let (made, any_line) = (self.machine.parks().made(), random.between(0, 7) as u8);
        let next = made[usize::from(any_line)].wrapping_add(1);
        let fate = random.pick(&[Fate::Held, Fate::Held, Fate::Held, Fate::Held, Fate::TakenUp, Fate::Replaced]);
        let written = self.ledger.images(fate);
        let own = if written.is_empty() {
            of_park(&images::elsewhere(random), (any_line, next))
        } else {
            random.pick(&written)
        };
        let (line, number) = park_of(&own);
        let (count, any) = (made[usize::from(line)], random.draw() as u32);
        let park = match random.between(0, 19) {
            0 => (line, 0),
            1 => (line, random.pick(&[count, count / 2, any])),
            2 | 3 => (any_line, number),
            _ => (line, number),
        };
        let contents = match random.between(0, 11) {
            0 | 1 => images::elsewhere(random),
            2 | 3 => {
                let position = images::near_end(random);
                images::at(random, position)
            }
            4 => {
                let index = random.size(0, 3 * images::FAULTS);
                return images::bad(random, index, park);
            }
            _ => own,
        };
        of_park(&contents, park)
    }
}

#[cfg(test)]
mod tests {
    use super::*;
    use crate::calls::CallByCall;
    use crate::ledger::Resume;
    use crate::subject::{Subject, Tally};

    #[test]
    fn images_changes_and_loads_are_taken_up_and_refused_in_every_way() {
        let (mut tally, mut subject) = (Tally::default(), CallByCall { card: Machine::fresh() });
        (0..100).for_each(|number| tally.add(&subject.hold(8, number).unwrap()));
        let as_parked = [Resume::AsParked, Resume::HeldTwice].map(|kind| tally.resumes[kind as usize]);
        assert!(as_parked[0] > 120 && as_parked[1] > 60, "{tally:?}");
        assert!(tally.resumes.iter().all(|&count| count > 4), "{tally:?}");
        assert!(tally.parks.iter().all(|&count| count > 4), "{tally:?}");
        assert!(tally.codes[15] > 40 && tally.codes[16] > 30, "{tally:?}");
        assert!(tally.codes[17] > 100 && tally.codes[18] > 40, "{tally:?}");
        assert!(tally.changes.iter().all(|&count| count > 0), "{tally:?}");
        assert!(tally.codes[19] > 60 && tally.loads.iter().all(|&count| count > 4), "{tally:?}");
    }

    #[test]
    fn lists_follow_from_seed_and_number() {
        let of = |seed: u64, number: u64| list(seed, number).calls;
        assert_eq!(of(2, 5), of(2, 5));
        assert_ne!(of(2, 5), of(3, 5));
    }
}
