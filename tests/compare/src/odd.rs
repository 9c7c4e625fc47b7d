//! Lists that end in a refusal: after some accepted commands comes one with a chosen fault, often with others
//! besides, so that the order of the refusals shows. What is added after it must not be run.

use crate::builder::Builder;
use crate::cipher::LAST;
use crate::command::{self, CHANGE_KEY, CLOSE, CRYPT, LOAD, OPEN_OWN, OPEN_TRAY, PARK, RESUME, START};
use crate::plan::{self, Plan};
use crate::program::{Files, READ};
use crate::random::Random;
use crate::{changing, faulty, fill, images, loading, plain, spent};

/// A list whose last command has the fault that `number` names.
pub fn single(mut random: Random, number: u8) -> Files {
    let kinds: Vec<u8> = (OPEN_TRAY..=START).filter(|&kind| plan::numbers(kind).contains(&number)).collect();
    let kind = random.pick(&kinds);
    let plan = Plan::new(&mut random, kind, &[number]);
    list(random, plan)
}

/// A list whose last command has two faults, of all such pairs the one with this index, counted round.
pub fn pair(mut random: Random, index: usize) -> Files {
    let all = plan::pairs();
    let (kind, one, other) = all[index % all.len()];
    let plan = Plan::new(&mut random, kind, &[one, other]);
    list(random, plan)
}

/// A list that ends with a bad image, of all faults of images the one with this index.
pub fn image(mut random: Random, index: usize) -> Files {
    let any = Plan::new(&mut random, RESUME, &[]);
    list(random, Plan { faults: vec![8], image: index, ..any })
}

/// A list that ends with a number that isn't held, of all ways to that the one with this index.
pub fn number(mut random: Random, index: usize) -> Files {
    let any = Plan::new(&mut random, RESUME, &[]);
    list(random, Plan { faults: vec![14], way: index, ..any })
}

/// A list that ends with a stray byte, by this index in an open from the tray or not, in the IV or not, and at its
/// place there.
pub fn stray(mut random: Random, index: usize) -> Files {
    let kind = [OPEN_TRAY, OPEN_OWN][index % 2];
    let any = Plan::new(&mut random, kind, &[]);
    list(random, Plan { faults: vec![7], in_iv: [true, false][index / 2 % 2], place: index / 4, ..any })
}

/// A list that ends with a blank key, by this index in an open from the tray or not, and with each cipher.
pub fn blank(mut random: Random, index: usize) -> Files {
    let kind = [OPEN_TRAY, OPEN_OWN][index % 2];
    let cipher = 1 + (index / 2 % usize::from(LAST)) as u8;
    let any = Plan::new(&mut random, kind, &[]);
    list(random, Plan { faults: vec![16], cipher, ..any })
}

/// What refuses a change of key, and a park while one waits.
const CHANGES: [(u8, u8); 8] = [
    (CHANGE_KEY, 17),
    (CHANGE_KEY, 18),
    (CHANGE_KEY, 7),
    (CHANGE_KEY, 16),
    (PARK, 17),
    (CHANGE_KEY, 6),
    (CHANGE_KEY, 9),
    (CHANGE_KEY, 10),
];

/// A list that ends with such a refusal, by this index each of them with each cipher; a stray byte is in the IV or not.
pub fn change(mut random: Random, index: usize) -> Files {
    let (kind, fault) = CHANGES[index % CHANGES.len()];
    let (cipher, round) = (1 + (index / CHANGES.len() % usize::from(LAST)) as u8, index / CHANGES.len());
    let any = Plan::new(&mut random, kind, &[]);
    list(random, Plan { faults: vec![fault], cipher, in_iv: cipher == 2, place: round / usize::from(LAST), ..any })
}

/// What refuses a load, a start, and other commands on a loaded line.
const LOADS: [(u8, u8); 14] = [
    (START, 19),
    (LOAD, 5),
    (START, 7),
    (LOAD, 7),
    (CRYPT, 6),
    (LOAD, 16),
    (PARK, 6),
    (OPEN_TRAY, 5),
    (CHANGE_KEY, 6),
    (OPEN_OWN, 5),
    (RESUME, 5),
    (LOAD, 9),
    (LOAD, 10),
    (LOAD, 4),
];

/// A list that ends with such a refusal, by this index each of them with each cipher.
pub fn load(mut random: Random, index: usize) -> Files {
    let (kind, fault) = LOADS[index % LOADS.len()];
    let cipher = 1 + ((index + index / LOADS.len()) % usize::from(LAST)) as u8;
    let any = Plan::new(&mut random, kind, &[]);
    list(random, Plan { faults: vec![fault], cipher, place: index / LOADS.len(), ..any })
}

/// Some accepted commands, then the planned one, then perhaps some that aren't run.
fn list(mut random: Random, plan: Plan) -> Files {
    let tray = plan.tray(&mut random);
    let length = if plan.has(12) { READ } else { random.size(400, 3_000) };
    let data = random.bytes(length);
    let mut b = Builder::new(random, tray, data);
    if plan.has(12) {
        fill::fill(&mut b, 0);
    } else {
        let count = b.random.size(0, 15);
        plain::steps(&mut b, count);
    }
    match plan.kind {
        RESUME if plan.has(14) => spent::prepare(&mut b, plan.way),
        RESUME => drop(plain::held_image(&mut b)),
        _ => (),
    }
    let line = line(&mut b, &plan);
    let command = faulty::command(&mut b, &plan, line);
    b.put(&command);
    if !plan.has(1) && b.random.chance(40) {
        let count = b.random.size(1, 5);
        plain::steps(&mut b, count);
    }
    b.files()
}

/// The line for the last command, made open, loaded or idle as the plan has it. Where a line must not be idle or must not
/// be open, it is at times a loaded one.
fn line(b: &mut Builder, plan: &Plan) -> u8 {
    if plan.has(3) {
        let any = b.random.between(8, 255) as u8;
        return b.random.pick(&[8, 9, 16, 255, any]);
    }
    if plan.kind == START {
        return line_to_start(b, plan);
    }
    let needs_idle = [OPEN_TRAY, OPEN_OWN, RESUME, LOAD].contains(&plan.kind);
    let open = if needs_idle { plan.has(5) } else { !plan.has(6) };
    if (plan.has(5) || plan.has(6) && plan.kind != CLOSE) && b.random.chance(40) {
        let (line, cipher) = (plain::idle_line(b), faulty::cipher(b, plan));
        if loading::load_with(b, line, cipher) {
            return line;
        }
    }
    if open && plan.has(13) {
        let line = plain::idle_line(b);
        let position = images::near_end(&mut b.random);
        let image = images::at(&mut b.random, position);
        plain::altered(b, line, &image);
        line
    } else if open && (plan.kind == CHANGE_KEY || plan.has(17)) {
        line_to_change(b, plan)
    } else if open {
        open_line(b, plan.kind)
    } else {
        plain::idle_line(b)
    }
}

/// A line loaded with the planned cipher; with 19 an idle one, or one that is open with it.
fn line_to_start(b: &mut Builder, plan: &Plan) -> u8 {
    let (line, cipher) = (plain::idle_line(b), faulty::cipher(b, plan));
    if !plan.has(19) {
        loading::load_with(b, line, cipher);
    } else if b.random.chance(60) {
        plain::open_with(b, line, cipher);
    }
    line
}

/// A line of the planned cipher behind its first byte, with a change waiting if 17 is planned.
fn line_to_change(b: &mut Builder, plan: &Plan) -> u8 {
    let (line, cipher) = (plain::idle_line(b), faulty::cipher(b, plan));
    plain::open_with(b, line, cipher);
    let count = b.random.size(1, 40).min(b.data_left()).min(b.out_left());
    b.put(&command::crypt(line, count as u16));
    if plan.has(17) {
        changing::wait(b, line);
    }
    line
}

/// An open line, for a park one on which no change waits; one is opened if there is none.
fn open_line(b: &mut Builder, kind: u8) -> u8 {
    let fits = |line: &u8| kind != PARK || b.waiting(*line).is_none();
    let lines: Vec<u8> = b.open_lines().into_iter().filter(fits).collect();
    if lines.is_empty() {
        let line = plain::idle_line(b);
        plain::open_line(b, line);
        return line;
    }
    b.random.pick(&lines)
}

#[cfg(test)]
mod tests {
    use super::*;
    use crate::program;
    use std::collections::HashSet;

    fn last_code(files: &Files) -> u8 {
        program::run(files).calls.last().map_or(0, |(_, answer)| answer.code)
    }

    #[test]
    fn every_number_is_met() {
        for number in (1..=14).chain(16..=19) {
            let met = |k: &u64| last_code(&single(Random::new(2, *k), number)) == number;
            assert!((0..12).filter(met).count() >= 6, "{number}");
        }
    }

    #[test]
    fn blank_keys_are_met_for_each_cipher_by_both_opens() {
        let mut met = HashSet::new();
        for index in 0..2 * usize::from(LAST) {
            let files = blank(Random::new(2, 0), index);
            let run = program::run(&files);
            let (call, answer) = run.calls.last().unwrap();
            assert_eq!(answer.code, 16);
            met.insert((call.command[0], call.command[2]));
        }
        assert_eq!(met.len(), 2 * usize::from(LAST));
    }

    #[test]
    fn changes_are_refused_for_each_cipher() {
        for index in 0..3 * CHANGES.len() * usize::from(LAST) {
            let (files, (_, fault)) = (change(Random::new(2, 0), index), CHANGES[index % CHANGES.len()]);
            assert_eq!(last_code(&files), fault, "{index}");
        }
    }

    #[test]
    fn loads_and_starts_are_refused_for_each_cipher() {
        for index in 0..3 * LOADS.len() * usize::from(LAST) {
            let (files, (_, fault)) = (load(Random::new(2, 0), index), LOADS[index % LOADS.len()]);
            assert_eq!(last_code(&files), fault, "{index}");
        }
    }

    #[test]
    fn of_two_faults_the_first_is_met() {
        for (index, (kind, one, other)) in plan::pairs().into_iter().enumerate() {
            let code = |k| last_code(&pair(Random::new(2, k), index));
            let first = if one == 1 && other == 2 { 2 } else { one };
            let met = (0..10).filter(|&k| code(k) == first).count();
            assert!(met > 2, "command {kind}, {one} and {other}: {met}");
        }
    }
}
