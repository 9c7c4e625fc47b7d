//! What became of the loads of a list, found from its calls alone: which lines are idle, loaded or open follows from the
//! accepted commands. From there it is told what a load, a start and any command on a loaded line was.

use crate::command::{CHANGE_KEY, CLOSE, CRYPT, LOAD, OPEN_OWN, OPEN_TRAY, PARK, RESUME, START};
use crate::machine::Answer;

/// That a line was loaded, started at once or after other calls, or emptied, or why a command was refused.
#[derive(Clone, Copy, Debug, PartialEq, Eq)]
pub enum Load {
    Loaded,
    AtOnce,
    Later,
    Emptied,
    OfAnOpenLine,
    OfALoadedLine,
    Open,
    Resume,
    Crypt,
    Park,
    Change,
    Stray,
    Blank,
    StrayIv,
    NotLoaded,
    Again,
}

impl Load {
    /// All of them, in their order, as the report names them.
    pub const NAMES: [&'static str; 16] = [
        "loaded",
        "started by the next call",
        "started after other calls",
        "emptied by a close",
        "5, a load of an open line",
        "5, a load of a loaded line",
        "5, an open of a loaded line",
        "5, a resume on a loaded line",
        "6, a crypt on a loaded line",
        "6, a park of a loaded line",
        "6, a change of a loaded line",
        "7, a load",
        "16, a load",
        "7, a start",
        "19, a start of an idle line",
        "19, a start of an open line",
    ];
}

/// What a line is; a loaded one with the number of the call that loaded it.
#[derive(Clone, Copy, Debug, Default, PartialEq, Eq)]
enum Line {
    #[default]
    Idle,
    Loaded(u64),
    Open,
}

/// The lines of a card as far as loads go; all of them are idle at first.
#[derive(Clone, Default)]
pub struct Loads {
    lines: [Line; 8],
    calls: u64,
}

impl Loads {
    /// Notes a call by its command and its answer; tells what it was if it is about a load.
    pub fn note(&mut self, command: &[u8], answer: &Answer) -> Option<Load> {
        self.calls += 1;
        let line = self.lines.get_mut(usize::from(*command.get(1)?))?;
        let (kind, before) = (command[0], *line);
        if answer.code == 0 {
            *line = match kind {
                OPEN_TRAY | OPEN_OWN | RESUME | START => Line::Open,
                LOAD => Line::Loaded(self.calls),
                PARK | CLOSE => Line::Idle,
                _ => before,
            };
        }
        match (kind, answer.code, before) {
            (LOAD, 0, _) => Some(Load::Loaded),
            (START, 0, Line::Loaded(call)) if call + 1 == self.calls => Some(Load::AtOnce),
            (START, 0, _) => Some(Load::Later),
            (CLOSE, 0, Line::Loaded(_)) => Some(Load::Emptied),
            _ => refused(kind, answer.code, before),
        }
    }
}

/// A command that was refused with this code on such a line; nothing if that isn't about a load.
fn refused(kind: u8, code: u8, line: Line) -> Option<Load> {
    match (code, kind, line) {
        (5, LOAD, Line::Open) => Some(Load::OfAnOpenLine),
        (5, LOAD, Line::Loaded(_)) => Some(Load::OfALoadedLine),
        (5, OPEN_TRAY | OPEN_OWN, Line::Loaded(_)) => Some(Load::Open),
        (5, RESUME, Line::Loaded(_)) => Some(Load::Resume),
        (6, CRYPT, Line::Loaded(_)) => Some(Load::Crypt),
        (6, PARK, Line::Loaded(_)) => Some(Load::Park),
        (6, CHANGE_KEY, Line::Loaded(_)) => Some(Load::Change),
        (7, LOAD, _) => Some(Load::Stray),
        (16, LOAD, _) => Some(Load::Blank),
        (7, START, _) => Some(Load::StrayIv),
        (19, START, Line::Idle) => Some(Load::NotLoaded),
        (19, START, Line::Open) => Some(Load::Again),
        _ => None,
    }
}

#[cfg(test)]
mod tests {
    use super::*;
    use crate::command::{self, change_key, close, crypt, load, open_own, park, resume, start, IMAGE, IV, RECORD};
    use crate::machine::Machine;

    /// Makes a call; checks that what is noted is what the machine has.
    fn call((machine, loads): &mut (Machine, Loads), command: &[u8]) -> (u8, Option<Load>) {
        let tray = [command::padded(&[1], RECORD), vec![0; RECORD], vec![1; RECORD]].concat();
        let answer = machine.call(command, &tray, &[0; 99], &mut [0; IMAGE]);
        let told = loads.note(command, &answer);
        for (number, line) in (0..8).zip(&loads.lines) {
            assert_eq!(machine.idle(number), *line == Line::Idle);
            assert_eq!(machine.open(number).is_some(), *line == Line::Open);
        }
        (answer.code, told)
    }

    #[test]
    fn each_end_of_a_load_is_told() {
        let mut pair = (Machine::fresh(), Loads::default());
        let mut told = |command: Vec<u8>| call(&mut pair, &command);
        assert_eq!(told(load(2, 1, 0)), (0, Some(Load::Loaded)));
        assert_eq!(told(start(2, &[5; IV])), (0, Some(Load::AtOnce)));
        assert_eq!([crypt(2, 9), park(2)].map(&mut told), [(0, None); 2]);
        assert_eq!(told(load(2, 2, 0)), (0, Some(Load::Loaded)));
        assert_eq!(told(open_own(3, 4, &[3; RECORD], &[0; IV])), (0, None));
        assert_eq!(told(start(2, &[0; IV])), (0, Some(Load::Later)));
        assert_eq!([close(2), close(3)].map(&mut told), [(0, None); 2]);
        assert_eq!([load(7, 6, 0), close(7)].map(&mut told), [(0, Some(Load::Loaded)), (0, Some(Load::Emptied))]);
        assert_eq!(told(close(7)), (6, None));
    }

    #[test]
    fn each_refusal_is_told() {
        let mut pair = (Machine::fresh(), Loads::default());
        let mut told = |command: Vec<u8>| call(&mut pair, &command);
        assert_eq!(told(start(2, &[5; IV])), (19, Some(Load::NotLoaded)));
        assert_eq!(told(load(2, 1, 1)), (16, Some(Load::Blank)));
        assert_eq!(told(load(2, 1, 2)), (7, Some(Load::Stray)));
        assert_eq!([load(2, 1, 3), load(2, 7, 0), load(8, 1, 0)].map(&mut told), [(10, None), (4, None), (3, None)]);
        told(load(2, 2, 0));
        assert_eq!(told(start(2, &[5; IV])), (7, Some(Load::StrayIv)));
        assert_eq!(told(load(2, 2, 0)), (5, Some(Load::OfALoadedLine)));
        assert_eq!(told(open_own(2, 4, &[3; RECORD], &[0; IV])), (5, Some(Load::Open)));
        assert_eq!(told(command::open_tray(2, 4, 0, &[0; IV])), (5, Some(Load::Open)));
        assert_eq!(told(resume(2, &[0; IMAGE])), (5, Some(Load::Resume)));
        assert_eq!(told(crypt(2, 0)), (6, Some(Load::Crypt)));
        assert_eq!(told(park(2)), (6, Some(Load::Park)));
        assert_eq!(told(change_key(2, 0, &[0; IV], 0)), (6, Some(Load::Change)));
        told(start(2, &[0; IV]));
        assert_eq!(told(start(2, &[0; IV])), (19, Some(Load::Again)));
        assert_eq!(told(load(2, 2, 0)), (5, Some(Load::OfAnOpenLine)));
    }
}
