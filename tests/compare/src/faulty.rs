//! The last command of a list that ends in a refusal, with the faults that its plan names.

use crate::builder::Builder;
use crate::cipher::LAST;
use crate::command::{self, of_park, park_of, RECORD};
use crate::command::{CHANGE_KEY, CRYPT, LOAD, OPEN_OWN, OPEN_TRAY, PARK, RESUME, START};
use crate::plan::Plan;
use crate::{changing, images, plain, spent, trays};

/// The last command, with the faults that it holds itself.
pub fn command(b: &mut Builder, plan: &Plan, line: u8) -> Vec<u8> {
    let mut command = match plan.kind {
        OPEN_TRAY => open_tray(b, plan, line),
        OPEN_OWN => open_own(b, plan, line),
        CRYPT => {
            let count = count(b, plan, line);
            command::crypt(line, count)
        }
        PARK => command::park(line),
        RESUME => command::resume(line, &image(b, plan)),
        CHANGE_KEY => change_key(b, plan, line),
        LOAD => load(b, plan, line),
        START => start(b, plan, line),
        _ => command::close(line),
    };
    if plan.has(2) {
        let any = b.random.between(10, 255) as u8;
        command[0] = b.random.pick(&[0, 10, 11, 12, 137, 255, any]);
    }
    if plan.has(1) {
        let length = b.random.size(1, command.len() - 1);
        command.truncate(length);
    }
    command
}

/// An image: with fault 14 one of a park that isn't held, else one of a park that is; with fault 8 a bad one of that
/// park.
fn image(b: &mut Builder, plan: &Plan) -> Vec<u8> {
    let image = if plan.has(14) { spent::image(b, plan.way) } else { plain::held_image(b) };
    if plan.has(8) {
        images::bad(&mut b.random, plan.image, park_of(&image))
    } else if !plan.has(14) && b.random.chance(50) {
        of_park(&images::elsewhere(&mut b.random), park_of(&image))
    } else {
        image
    }
}

/// A cipher to make operands for: the planned one, but with fault 7 one whose key or IV leaves bytes over.
pub fn cipher(b: &mut Builder, plan: &Plan) -> u8 {
    if plan.stray_iv() {
        2
    } else if plan.stray_key() && plan.cipher == 4 {
        b.random.pick(&[1, 2, 3, 5, 6])
    } else {
        plan.cipher
    }
}

/// The cipher operand: the cipher itself, or with fault 4 an unknown number.
fn cipher_operand(b: &mut Builder, plan: &Plan, cipher: u8) -> u8 {
    let any = b.random.between(u64::from(LAST) + 1, 255) as u8;
    if plan.has(4) {
        b.random.pick(&[0, LAST + 1, 8, 9, 255, any])
    } else {
        cipher
    }
}

/// An IV, with a stray byte beyond Rabbit's length if one is planned.
fn iv(b: &mut Builder, plan: &Plan, cipher: u8) -> Vec<u8> {
    let mut iv = plain::iv(&mut b.random, cipher);
    if plan.stray_iv() {
        iv[b.random.place(plan.place, 8, 15)] = b.random.odd_byte();
    }
    iv
}

fn open_tray(b: &mut Builder, plan: &Plan, line: u8) -> Vec<u8> {
    let cipher = cipher(b, plan);
    let iv = iv(b, plan, cipher);
    let number = key_number(b, plan, cipher);
    let operand = cipher_operand(b, plan, cipher);
    command::open_tray(line, operand, number, &iv)
}

fn load(b: &mut Builder, plan: &Plan, line: u8) -> Vec<u8> {
    let cipher = cipher(b, plan);
    let number = key_number(b, plan, cipher);
    let operand = cipher_operand(b, plan, cipher);
    command::load(line, operand, number)
}

/// A start of a line; of one that isn't loaded it is one for the planned cipher.
fn start(b: &mut Builder, plan: &Plan, line: u8) -> Vec<u8> {
    let loaded = if line < 8 { b.loaded(line) } else { None };
    let cipher = loaded.unwrap_or_else(|| cipher(b, plan));
    command::start(line, &iv(b, plan, cipher))
}

/// A change of a line's key; of one that isn't open it is one for the planned cipher.
fn change_key(b: &mut Builder, plan: &Plan, line: u8) -> Vec<u8> {
    let (open, position) = if line < 8 { (b.cipher(line), b.position(line)) } else { (None, 0) };
    let cipher = open.unwrap_or_else(|| cipher(b, plan));
    let iv = iv(b, plan, cipher);
    let number = key_number(b, plan, cipher);
    let choose = if plan.has(18) { changing::not_due } else { changing::due };
    let position = choose(&mut b.random, position);
    command::change_key(line, number, &iv, position)
}

/// A key number with fault 10, or one whose key has the stray byte and the zeros that are planned; any if the tray has
/// none such, and with fault 9 one of a record that is there.
fn key_number(b: &mut Builder, plan: &Plan, cipher: u8) -> u8 {
    let records = b.tray().len() / RECORD;
    if plan.has(10) && records < 256 {
        let any = b.random.between(records as u64, 255) as u8;
        return b.random.pick(&[records as u8, 255, any]);
    }
    if plan.has(9) && records > 0 {
        return b.random.size(0, records.min(256) - 1) as u8;
    }
    let stray = plan.stray_key();
    let keys = trays::numbers(b.tray(), cipher, stray, plan.has(16));
    match keys.last() {
        Some(&last) if stray => last,
        Some(_) => b.random.pick(&keys),
        None => b.random.byte(),
    }
}

fn open_own(b: &mut Builder, plan: &Plan, line: u8) -> Vec<u8> {
    let cipher = cipher(b, plan);
    let iv = iv(b, plan, cipher);
    let mut key = if plan.has(16) { vec![0; RECORD] } else { plain::key(&mut b.random, cipher) };
    if plan.stray_key() {
        key[b.random.place(plan.place, 16, RECORD - 1)] = b.random.odd_byte();
    }
    let operand = cipher_operand(b, plan, cipher);
    command::open_own(line, operand, &key, &iv)
}

/// A count above the limits whose fault is planned and within the others, as far as that can be had; often the
/// least such.
fn count(b: &mut Builder, plan: &Plan, line: u8) -> u16 {
    let to_end = if line < 8 { b.line_left(line) } else { 0 };
    let limits = [(13, to_end), (11, b.data_left()), (12, b.out_left())];
    let above = limits.iter().filter(|(n, _)| plan.has(*n)).map(|(_, limit)| limit.saturating_add(1));
    let within = limits.iter().filter(|(n, _)| !plan.has(*n)).map(|(_, limit)| *limit);
    let most = usize::from(u16::MAX);
    let low = above.max().unwrap_or(0).min(most);
    let high = within.min().unwrap_or(most).min(most).max(low);
    let any = b.random.size(low, high);
    b.random.pick(&[low, any]) as u16
}
