//! The plain machine of document 01: eight lines, each idle, loaded or open, and the numbers of its parks; which calls
//! it refuses, and what it does for the others.

use crate::cipher::by_number;
use crate::command::{self, count, length, park_of};
use crate::command::{CHANGE_KEY, CLOSE, CRYPT, IMAGE, LOAD, OPEN_OWN, OPEN_TRAY, PARK, RESUME, START};
use crate::keys;
use crate::line::Line;
use crate::parks::Parks;
use crate::place::{Loaded, Place};

pub use crate::keys::TRAY;
pub use crate::line::END;

/// What a call answers: a code, and the bytes used of the command and of data and written to out.
#[derive(Clone, Copy, Debug, PartialEq, Eq)]
pub struct Answer {
    pub code: u8,
    pub used_command: usize,
    pub used_data: usize,
    pub written: usize,
}

impl Answer {
    /// A refusal: its number and three zeros.
    pub fn refused(code: u8) -> Answer {
        Answer { code, used_command: 0, used_data: 0, written: 0 }
    }
}

/// What is seen of an open line: its cipher's number, its position n, the bytes of S(n div u), and the change that
/// waits, if one does.
#[derive(Clone, Debug, PartialEq, Eq)]
pub struct Seen {
    pub cipher: u8,
    pub position: u64,
    pub state: Vec<u8>,
    pub waiting: Option<SeenChange>,
}

/// What is seen of a change that waits: its position, and the bytes of its stream's S(0).
#[derive(Clone, Debug, PartialEq, Eq)]
pub struct SeenChange {
    pub due: u64,
    pub start: Vec<u8>,
}

/// What is seen of a loaded line: its cipher's number, and the bytes that it keeps.
#[derive(Clone, Debug, PartialEq, Eq)]
pub struct SeenLoad {
    pub cipher: u8,
    pub kept: Vec<u8>,
}

/// The machine; a fresh one has all lines idle and has made no park.
#[derive(Clone, Default)]
pub struct Machine {
    lines: [Place; 8],
    parks: Parks,
}

impl Machine {
    pub fn fresh() -> Machine {
        Machine::default()
    }

    /// A machine with all lines idle and these parks.
    pub fn with(parks: Parks) -> Machine {
        Machine { parks, ..Machine::fresh() }
    }

    /// Makes a line as an image has it, whatever park the image is of, with nothing waiting; tells whether number 8 lets
    /// it, and makes the line idle if not.
    pub fn set(&mut self, line: u8, image: &[u8]) -> bool {
        let made = Line::from_image(image);
        let fits = made.is_some();
        self.lines[usize::from(line)] = Place::of(made);
        fits
    }

    /// Lets a change wait on an open line, with the position and S(0) that an image of the line's cipher has; tells
    /// whether a card may hold it.
    pub fn wait(&mut self, line: u8, image: &[u8]) -> bool {
        self.lines[usize::from(line)].open_mut().is_some_and(|l| l.wait(image))
    }

    /// Makes a line one that is loaded with a cipher and keeps these bytes; tells whether a card may hold it, and makes
    /// the line idle if not.
    pub fn set_loaded(&mut self, line: u8, cipher: u8, kept: &[u8]) -> bool {
        let made = Loaded::with(cipher, kept);
        let fits = made.is_some();
        self.lines[usize::from(line)] = made.map_or(Place::Idle, Place::Loaded);
        fits
    }

    /// One call. Accepted, it changes one line, the parks, and the written bytes at the start of `out`; refused,
    /// nothing.
    pub fn call(&mut self, command: &[u8], tray: &[u8], data: &[u8], out: &mut [u8]) -> Answer {
        match self.refusal(command, tray, data.len(), out.len()) {
            Some(code) => Answer::refused(code),
            None => self.perform(command, tray, data, out),
        }
    }

    /// Whether a line, 0 to 7, is idle.
    pub fn idle(&self, line: u8) -> bool {
        self.lines[usize::from(line)].idle()
    }

    /// What is seen of a loaded line, 0 to 7; nothing of another.
    pub fn loaded(&self, line: u8) -> Option<SeenLoad> {
        let loaded = self.lines[usize::from(line)].loaded()?;
        Some(SeenLoad { cipher: loaded.cipher.shape().number, kept: loaded.kept().to_vec() })
    }

    /// The cipher's number and the position of a line, 0 to 7; nothing of one that isn't open.
    pub fn open(&self, line: u8) -> Option<(u8, u64)> {
        self.line(line).map(|l| (l.cipher.shape().number, l.position))
    }

    /// The position of the change that waits on a line, 0 to 7, if one does.
    pub fn waiting(&self, line: u8) -> Option<u64> {
        self.line(line).and_then(|l| l.waiting.as_ref()).map(|change| change.due)
    }

    /// How many bytes can be taken through an open line, 0 to 7, before number 13; none through another.
    pub fn left(&self, line: u8) -> u64 {
        self.line(line).map_or(0, Line::left)
    }

    /// What is seen of a line, 0 to 7, with its state; nothing of one that isn't open.
    pub fn seen(&self, line: u8) -> Option<Seen> {
        self.line(line).map(|l| Seen {
            cipher: l.cipher.shape().number,
            position: l.position,
            state: l.cipher.state_bytes(&l.state()),
            waiting: l
                .waiting
                .as_ref()
                .map(|change| SeenChange { due: change.due, start: l.cipher.state_bytes(&change.start) }),
        })
    }

    pub fn parks(&self) -> &Parks {
        &self.parks
    }

    fn line(&self, line: u8) -> Option<&Line> {
        self.lines[usize::from(line)].open()
    }

    /// The first number that applies, in the order of document 01 and the later tickets; nothing if the call is
    /// accepted.
    fn refusal(&self, command: &[u8], tray: &[u8], data: usize, out: usize) -> Option<u8> {
        let Some(&kind) = command.first() else {
            return Some(1);
        };
        let Some(length) = length(kind) else {
            return Some(2);
        };
        if command.len() < length {
            return Some(1);
        }
        let line = usize::from(command[1]);
        let place = self.lines.get(line).unwrap_or(&Place::Idle);
        let open = place.open();
        let names_cipher = [OPEN_TRAY, OPEN_OWN, LOAD].contains(&kind);
        let needs_idle = names_cipher || kind == RESUME;
        let needs_open = [CRYPT, PARK, CHANGE_KEY].contains(&kind);
        let changes = kind == CHANGE_KEY;
        let cipher = || if names_cipher { by_number(command[2]) } else { place.cipher() };
        let waits = || open.is_some_and(|l| l.waiting.is_some());
        let passed = |l: &Line| command::position(command) < l.position || command::position(command) > END;
        let past_end = |l: &Line| l.after(count(command)) > END;
        let held = || self.parks.holds(park_of(&command[2..]));
        let stray = || cipher().is_some_and(|cipher| keys::stray(cipher, command, tray));
        let blank = || cipher().is_some_and(|cipher| keys::blank(cipher, command, tray));
        let rows: [(u8, &dyn Fn() -> bool); 17] = [
            (3, &|| line > 7),
            (4, &|| names_cipher && by_number(command[2]).is_none()),
            (5, &|| needs_idle && !place.idle()),
            (6, &|| needs_open && open.is_none() || kind == CLOSE && place.idle()),
            (19, &|| kind == START && place.loaded().is_none()),
            (17, &|| (changes || kind == PARK) && waits()),
            (18, &|| changes && open.is_some_and(passed)),
            (15, &|| kind == PARK && self.parks.used_up(line)),
            (9, &|| keys::from_tray(kind) && keys::bad_length(tray)),
            (10, &|| keys::from_tray(kind) && keys::not_there(command, tray)),
            (7, &|| (keys::has_key(kind) || keys::has_iv(kind)) && stray()),
            (16, &|| keys::has_key(kind) && blank()),
            (8, &|| kind == RESUME && Line::from_image(&command[2..]).is_none()),
            (14, &|| kind == RESUME && !held()),
            (13, &|| kind == CRYPT && open.is_some_and(past_end)),
            (11, &|| kind == CRYPT && data < count(command)),
            (12, &|| kind == CRYPT && out < count(command) || kind == PARK && out < IMAGE),
        ];
        rows.iter().find(|(_, applies)| applies()).map(|(number, _)| *number)
    }

    /// What an accepted call does.
    fn perform(&mut self, command: &[u8], tray: &[u8], data: &[u8], out: &mut [u8]) -> Answer {
        let place = &mut self.lines[usize::from(command[1])];
        let mut answer = Answer { used_command: length(command[0]).unwrap_or(0), ..Answer::refused(0) };
        match command[0] {
            OPEN_TRAY | OPEN_OWN => {
                let opened = |cipher| Line::first(cipher, keys::start(cipher, command, tray));
                *place = Place::of(by_number(command[2]).map(opened));
            }
            LOAD => {
                let cipher = by_number(command[2]).expect("an accepted load names a cipher");
                *place = Place::Loaded(Loaded::new(cipher, keys::key(cipher, command, tray)));
            }
            START => {
                let loaded = place.loaded().expect("an accepted start is on a loaded line");
                *place = Place::Open(loaded.start(keys::iv(loaded.cipher, command)));
            }
            RESUME => {
                *place = Place::of(Line::from_image(&command[2..]));
                self.parks.take_up(park_of(&command[2..]).0);
            }
            CHANGE_KEY => {
                let l = place.open_mut().expect("an accepted change is on an open line");
                l.change(command::position(command), keys::start(l.cipher, command, tray));
            }
            CRYPT => {
                let l = place.open_mut().expect("an accepted crypt is on an open line");
                let count = count(command);
                out[..count].copy_from_slice(&l.crypt(&data[..count]));
                (answer.used_data, answer.written) = (count, count);
            }
            PARK => {
                let l = place.open().expect("an accepted park is on an open line");
                let number = self.parks.park(usize::from(command[1]));
                out[..IMAGE].copy_from_slice(&l.image((command[1], number)));
                answer.written = IMAGE;
                *place = Place::Idle;
            }
            _ => *place = Place::Idle,
        }
        answer
    }
}
