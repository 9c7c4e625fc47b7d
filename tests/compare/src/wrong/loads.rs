//! Cards that load and start wrongly: ways to be wrong about which commands a loaded line takes, what a load keeps and a
//! start makes of it, and which numbers are given.

use super::twist::{Call, Twisted, Way};
use crate::calls::Card;
use crate::cipher::{by_number, Cipher};
use crate::command::{CHANGE_KEY, CLOSE, CRYPT, IV, LOAD, OPEN_OWN, OPEN_TRAY, PARK, RESUME, START};
use crate::images::{image, NO_PARK};
use crate::machine::{Answer, Machine};
use crate::rabbit::{self, Rabbit};
use crate::words::{self, LINE, STATE};
use crate::{cipher, keys};

/// A card for each way that shows in a list which ends with its first refusal.
pub fn cards() -> impl Iterator<Item = Box<dyn Card>> {
    LINES.iter().chain(&KEPT).chain(&NUMBERS).map(card).chain(shown())
}

/// A card for each way that shows after a refusal.
pub fn cards_left() -> impl Iterator<Item = Box<dyn Card>> {
    LEFT.iter().map(card)
}

fn card(way: &'static Way) -> Box<dyn Card> {
    Box::new(Twisted::new(way))
}

/// Which commands a line takes, and what becomes of it.
static LINES: [Way; 11] = [
    ("08 is no command", |c, call, out| none(c, call, out, LOAD)),
    ("09 is no command", |c, call, out| none(c, call, out, START)),
    ("an open from the tray takes a loaded line", |c, call, out| emptied(c, call, out, OPEN_TRAY)),
    ("an open with its own key takes a loaded line", |c, call, out| emptied(c, call, out, OPEN_OWN)),
    ("a load takes a loaded line", |c, call, out| emptied(c, call, out, LOAD)),
    ("a close leaves a loaded line as it is", |c, call, out| {
        let loaded = call.of(CLOSE).and_then(|line| Some((line, c.machine.loaded(line)?)));
        let answer = c.right(call, out);
        loaded.map(|(line, load)| c.machine.set_loaded(line, load.cipher, &load.kept));
        answer
    }),
    ("a start takes an open line that was loaded", |c, call, out| {
        if let Some(line) = call.of(START).filter(|&line| c.machine.open(line).is_some()) {
            let load = c.kept[usize::from(line)].clone();
            load.map(|load| c.machine.set_loaded(line, load.cipher, &load.kept));
        }
        kept(c, call, out)
    }),
    ("a start is a unit on", |c, call, out| {
        let answer = c.right(call, out);
        let started = call.of(START).filter(|_| answer.code == 0);
        if let Some((line, seen)) = started.and_then(|line| Some((line, c.machine.seen(line)?))) {
            let next = by_number(seen.cipher).map_or(Vec::new(), |cipher| {
                let mut state = cipher.state_of(&seen.state);
                cipher.next(&mut state);
                cipher.state_bytes(&state)
            });
            c.machine.set(line, &image(seen.cipher, 0, NO_PARK, &next));
        }
        answer
    }),
    ("a load drops the number held of its line", |c, call, out| forgotten(c, call, out, LOAD)),
    ("a start drops the number held of its line", |c, call, out| forgotten(c, call, out, START)),
    ("20 bytes of a load are used", |c, call, out| match (call.of(LOAD), c.right(call, out)) {
        (Some(_), answer @ Answer { code: 0, .. }) => Answer { used_command: 20, ..answer },
        (_, answer) => answer,
    }),
];

/// What a load keeps and a start uses.
static KEPT: [Way; 7] = [
    ("Rabbit is started from the state before the four steps", |c, call, out| {
        let answer = c.right(call, out);
        if let Some(line) = call.of(LOAD).filter(|_| answer.code == 0 && call.command[2] == 2) {
            let state = rabbit::load(keys::key(&Rabbit, call.command, call.tray));
            c.machine.set_loaded(line, 2, &Rabbit.state_bytes(&state));
        }
        answer
    }),
    ("one key for all lines of a cipher", |c, call, out| {
        let answer = c.right(call, out);
        let loaded = call.of(LOAD).filter(|_| answer.code == 0).and_then(|line| c.machine.loaded(line));
        let alike = |c: &Twisted, line, cipher| c.machine.loaded(line).is_some_and(|load| load.cipher == cipher);
        for line in (0..8).filter(|_| loaded.is_some()) {
            let load = loaded.as_ref().filter(|load| alike(c, line, load.cipher));
            load.map(|load| c.machine.set_loaded(line, load.cipher, &load.kept));
        }
        answer
    }),
    ("the key number is the cipher's", |c, call, out| other(c, call, out, LOAD, |load| load[3] = load[2])),
    ("the first key of the tray", |c, call, out| other(c, call, out, LOAD, |load| load[3] = 0)),
    ("the IV is not used", |c, call, out| other(c, call, out, START, |start| start[2..2 + IV].fill(0))),
    ("the IV without its last byte", |c, call, out| {
        let length = call.of(START).and_then(|line| c.machine.loaded(line)).and_then(|load| by_number(load.cipher));
        let last = length.map_or(0, |cipher| 1 + cipher.shape().iv);
        let command: Vec<u8> =
            (0..).zip(call.command).map(|(i, &byte)| if last > 0 && i == last { 0 } else { byte }).collect();
        c.right(&call.with(&command), out)
    }),
    ("the IV from its second byte on", |c, call, out| other(c, call, out, START, |start| start[2..].rotate_left(1))),
];

/// Which numbers are given, and in which order.
static NUMBERS: [Way; 19] = [
    ("a close of a loaded line is 6", |c, call, out| c.said(call, out, (CLOSE, [0, 6]), loaded)),
    ("a crypt on a loaded line is 19", |c, call, out| c.said(call, out, (CRYPT, [6, 19]), loaded)),
    ("a crypt of no bytes on a loaded line is taken", |c, call, out| {
        match c.said(call, out, (CRYPT, [6, 0]), loaded) {
            answer if answer.code == 0 && answer.used_command == 0 => Answer { used_command: 4, ..answer },
            answer => answer,
        }
    }),
    ("a park of a loaded line is 19", |c, call, out| c.said(call, out, (PARK, [6, 19]), loaded)),
    ("a change of a loaded line is 19", |c, call, out| c.said(call, out, (CHANGE_KEY, [6, 19]), loaded)),
    ("a resume on a loaded line is judged by its image", |c, call, out| {
        c.said(call, out, (RESUME, [5, 8]), |c, line, _| c.machine.loaded(line).is_some())
    }),
    ("a start of an idle line is 6", |c, call, out| c.said(call, out, (START, [19, 6]), idle)),
    ("a start of an open line is 5", |c, call, out| c.said(call, out, (START, [19, 5]), open)),
    ("a start of an open line is 6", |c, call, out| c.said(call, out, (START, [19, 6]), open)),
    ("7 before 19 on an open line", |c, call, out| {
        c.said(call, out, (START, [19, 7]), |c, line, call| {
            c.shape(line).is_some_and(|shape| !zero(&call.command[2 + shape.iv..2 + IV]))
        })
    }),
    ("7 before 19 on an idle line", |c, call, out| {
        c.said(call, out, (START, [19, 7]), |c, line, call| idle(c, line, call) && !zero(&call.command[10..2 + IV]))
    }),
    ("a load looks at an IV behind it", |c, call, out| {
        c.said(call, out, (LOAD, [0, 7]), |_, _, call| {
            let length = by_number(call.command[2]).map_or(IV, |cipher| cipher.shape().iv);
            call.command.get(4 + length..4 + IV).is_some_and(|bytes| !zero(bytes))
        })
    }),
    ("no 7 for a load", |c, call, out| c.said(call, out, (LOAD, [7, 0]), |_, _, _| true)),
    ("no 16 for a load", |c, call, out| c.said(call, out, (LOAD, [16, 0]), |_, _, _| true)),
    ("16 before 7 for a load", |c, call, out| {
        c.said(call, out, (LOAD, [7, 16]), |_, _, call| {
            let there = by_number(call.command[2]).filter(|_| !keys::not_there(call.command, call.tray));
            there.is_some_and(|cipher| keys::blank(cipher, call.command, call.tray))
        })
    }),
    ("no 7 for a start", |c, call, out| c.said(call, out, (START, [7, 0]), |_, _, _| true)),
    ("7 for every start with 16 IV bytes", |c, call, out| {
        c.said(call, out, (START, [0, 7]), |_, _, call| !zero(&call.command[10..2 + IV]))
    }),
    ("9 before 5 for a load", |c, call, out| {
        c.said(call, out, (LOAD, [5, 9]), |_, _, call| keys::bad_length(call.tray))
    }),
    ("10 before 5 for a load", |c, call, out| {
        c.said(call, out, (LOAD, [5, 10]), |_, _, call| keys::not_there(call.command, call.tray))
    }),
];

/// What a refusal leaves; it shows in the calls after it.
static LEFT: [Way; 3] = [
    ("a refused start empties its line", |c, call, out| after(c, call, out, (START, 7), close)),
    ("a refused crypt empties its line", |c, call, out| after(c, call, out, (CRYPT, 6), close)),
    ("a refused open empties its line", |c, call, out| after(c, call, out, (OPEN_OWN, 5), close)),
];

fn zero(bytes: &[u8]) -> bool {
    bytes.iter().all(|&byte| byte == 0)
}

fn idle(c: &Twisted, line: u8, _: &Call) -> bool {
    c.machine.idle(line)
}

fn loaded(c: &Twisted, line: u8, _: &Call) -> bool {
    c.machine.loaded(line).is_some()
}

fn open(c: &Twisted, line: u8, _: &Call) -> bool {
    c.machine.open(line).is_some()
}

/// Empties a loaded line.
fn close(c: &mut Twisted, line: u8) {
    if c.machine.loaded(line).is_some() {
        c.machine.call(&[CLOSE, line], &[], &[], &mut []);
    }
}

/// Refuses each command of a kind with 2.
fn none(c: &mut Twisted, call: &Call, out: &mut [u8], kind: u8) -> Answer {
    match call.command.first() {
        Some(&first) if first == kind => Answer::refused(2),
        _ => c.right(call, out),
    }
}

/// Makes a call; where it is one of this kind on a loaded line and has 5, the line is emptied first.
fn emptied(c: &mut Twisted, call: &Call, out: &mut [u8], kind: u8) -> Answer {
    let line = call.of(kind).filter(|&line| c.machine.loaded(line).is_some() && c.code(call, out) == 5);
    line.into_iter().for_each(|line| close(c, line));
    c.right(call, out)
}

/// Makes a call, and remembers what a line is loaded with.
fn kept(c: &mut Twisted, call: &Call, out: &mut [u8]) -> Answer {
    let answer = c.right(call, out);
    if let Some(line) = call.of(LOAD) {
        c.kept[usize::from(line)] = c.machine.loaded(line);
    }
    answer
}

/// Makes a call; where it is one of this kind that is accepted, the number held of its line is dropped.
fn forgotten(c: &mut Twisted, call: &Call, out: &mut [u8], kind: u8) -> Answer {
    let answer = c.right(call, out);
    if let Some(line) = call.of(kind).filter(|_| answer.code == 0) {
        c.set_parks(|_, held| held[usize::from(line)] = 0);
    }
    answer
}

/// Makes a call of this kind that is accepted with other bytes, if they are accepted too.
fn other(c: &mut Twisted, call: &Call, out: &mut [u8], kind: u8, change: fn(&mut [u8])) -> Answer {
    let mut command = call.command.to_vec();
    if call.of(kind).is_some() && c.code(call, out) == 0 {
        change(&mut command);
    }
    let other = call.with(&command);
    match c.code(&other, out) {
        0 => c.right(&other, out),
        _ => c.right(call, out),
    }
}

/// Makes a call; after one of this kind and with this code, does something to its line.
fn after(c: &mut Twisted, call: &Call, out: &mut [u8], (kind, code): (u8, u8), then: fn(&mut Twisted, u8)) -> Answer {
    let answer = c.right(call, out);
    if let Some(line) = call.of(kind).filter(|_| answer.code == code) {
        then(c, line);
    }
    answer
}

/// What a card shows of a line that was last loaded with a key; only a comparison of the words finds it.
type Show = fn(machine: &Machine, number: u8, key: &[u8], line: &mut [u32]);

static SHOWN: [(&str, Show); 4] = [
    ("a start leaves the key behind its state", |machine, number, key, line| {
        if machine.open(number).is_some() {
            put(key, &mut line[LINE - 8..]);
        }
    }),
    ("a close leaves the key on its line", |machine, number, key, line| {
        if machine.idle(number) {
            put(key, &mut line[STATE..]);
        }
    }),
    ("Rabbit's key is kept as it is", |machine, number, key, line| {
        if machine.loaded(number).is_some_and(|load| load.cipher == 2) {
            line[STATE..STATE + 17].fill(0);
            put(key, &mut line[STATE..]);
        }
    }),
    ("a key of 16 bytes is kept as a record of 32, twice", |machine, number, key, line| {
        if machine.loaded(number).is_some_and(|load| load.cipher != 2) && key.len() == 16 {
            put(key, &mut line[STATE + 4..]);
        }
    }),
];

/// Puts the words of a key at the start of others.
fn put(key: &[u8], words: &mut [u32]) {
    words.iter_mut().zip(cipher::words(key)).for_each(|(word, key)| *word = key);
}

fn shown() -> impl Iterator<Item = Box<dyn Card>> {
    SHOWN
        .iter()
        .map(|way| Box::new(Shown { machine: Machine::fresh(), keys: Default::default(), way }) as Box<dyn Card>)
}

/// A card that is the machine but for the words of lines that were loaded.
struct Shown {
    machine: Machine,
    keys: [Option<Vec<u8>>; 8],
    way: &'static (&'static str, Show),
}

impl Card for Shown {
    fn name(&self) -> String {
        self.way.0.to_string()
    }

    fn begin(&mut self, machine: &Machine) {
        *self = Shown { machine: machine.clone(), keys: Default::default(), way: self.way };
    }

    fn call(&mut self, command: &[u8], tray: &[u8], data: &[u8], out: &mut [u8]) -> Result<Answer, String> {
        let answer = self.machine.call(command, tray, data, out);
        if answer.code == 0 && command[0] == LOAD {
            let key = by_number(command[2]).map(|cipher| keys::key(cipher, command, tray).to_vec());
            self.keys[usize::from(command[1])] = key;
        }
        Ok(answer)
    }

    fn words(&self) -> Option<Vec<u32>> {
        let mut card = words::of(&self.machine);
        for ((number, key), line) in (0..).zip(&self.keys).zip(card.chunks_mut(LINE)) {
            key.iter().for_each(|key| (self.way.1)(&self.machine, number, key, line));
        }
        Some(card)
    }
}
