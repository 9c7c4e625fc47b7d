//! A line that was parked or closed is idle, and what is opened there next has nothing of what was there before.

use super::published::{self, Published};
use super::{altered, Case};
use crate::command::{self, IMAGE};

pub fn cases() -> Vec<Case> {
    let all = published::each();
    let mut cases = idle(&all[0]);
    cases.extend(all.iter().flat_map(|p| all.iter().map(move |q| after(p, q))));
    cases.extend(all.iter().map(zeros_after_the_state));
    cases.push(eight_lines(&all));
    cases
}

/// Each command that needs an open line is refused with 6 after a park and after a close.
fn idle(p: &Published) -> Vec<Case> {
    let ends = [("park", command::park(3)), ("close", command::close(3))];
    let (crypt, change) = (command::crypt(3, 0), command::change_key(3, 0, &p.iv, 0));
    let next = [("crypt", crypt), ("park", command::park(3)), ("close", command::close(3)), ("change", change)];
    let mut cases = Vec::new();
    for (ended, end) in &ends {
        for (name, command) in &next {
            let commands = [p.open(3), command::crypt(3, 5), end.clone(), command.clone()];
            cases.push(Case::new(format!("{name} after {ended}"), &commands, "end 3 6").data(vec![0; 5]));
        }
    }
    cases
}

/// One cipher parked in mid-unit and closed after a resume, then another on the same line.
fn after(p: &Published, q: &Published) -> Case {
    let name = format!("{} on a line that had {}", q.name(), p.name());
    let frame = |count: u16| command::crypt(1, count);
    let commands = [
        vec![p.open(1), frame(7), command::park(1), q.open(1), frame(13), command::close(1)],
        vec![p.open(1), frame(11), command::close(1), q.open(1), frame(32)],
    ];
    let case = Case::new(name, &commands.concat(), "end 11 0").data(vec![0; 63]);
    let at = 7 + IMAGE;
    let case = case.part(0, &p.stream[..7]).part(at, &q.stream[..13]);
    case.part(at + 13, &p.stream[..11]).part(at + 24, &q.stream[..32])
}

/// Annex C's S(0) parked from a line that had a cipher before it: the image is as from a fresh card, but for its
/// number.
fn zeros_after_the_state(p: &Published) -> Case {
    let before = [p.open(1), command::crypt(1, 32), command::park(1)];
    let commands = [&before[..], &altered::parked(1)].concat();
    let case = Case::new(format!("Rabbit's image from a line that had {}", p.name()), &commands, "end 5 0");
    case.data(vec![0; 32]).part(32 + IMAGE, &altered::written((1, 2)))
}

/// All eight lines open at once, closed and parked from the last to the first.
fn eight_lines(all: &[Published]) -> Case {
    let on = |line: u8| &all[usize::from(line) % all.len()];
    let mut commands: Vec<Vec<u8>> = (0..8).map(|line| on(line).open(line)).collect();
    commands.extend((0..8).map(|line| command::crypt(line, 9)));
    for line in (0..8).rev() {
        commands.extend([command::crypt(line, 23), command::park(line)]);
    }
    let mut case = Case::new("eight lines at once", &commands, "end 32 0").data(vec![0; 8 * 32]);
    for line in 0..8 {
        let stream = &on(line).stream;
        case = case.part(9 * usize::from(line), &stream[..9]);
        case = case.part(72 + (23 + IMAGE) * usize::from(7 - line), &stream[9..32]);
    }
    case
}
