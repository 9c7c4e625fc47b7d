//! The longest frames with a change of key in them, from a line's first byte on and far from it.

use crate::held;
use crate::lent::COUNTS;
use compare::calls::OwnCall;
use compare::cipher::LAST;
use compare::command;
use compare::images::known;
use compare::machine::{Machine, END};
use compare::random::Random;
use compare::subject::Tally;
use compare::words;

/// Positions of a line with those of its change: a few bytes on, in the middle of the frame, at its end or behind it.
const PLACES: [(u64, u64); 13] = [
    (0, 1),
    (0, 17),
    (5, 32_768),
    (0, 65_519),
    (0, 65_534),
    (0, 65_535),
    (0, 65_536),
    (7, 65_536),
    ((1 << 32) - 40_000, 1 << 32),
    ((1 << 32) - 3, (1 << 32) + 50_000),
    (END - 65_535, END),
    (END - 40_000, END),
    (END - 1, END),
];

/// Holds the linked card on frames of 65,535 bytes with each cipher and each of these places, and on a short one after
/// each.
pub fn hold() -> Result<Tally, String> {
    let (mut random, mut tally) = (Random::new(0x10E6, 0), Tally::default());
    for cipher in 1..=LAST {
        for (position, due) in PLACES {
            let told = |told| format!("cipher {cipher} at {position}, a change at {due} and a long frame: {told}");
            let mut machine = waiting(&mut random, cipher, position, due);
            for count in [u16::MAX, 33] {
                let call = frame(&mut random, count);
                tally.count(&held::hold(&words::of(&machine), &call, &COUNTS).map_err(told)?);
                machine.call(&call.command, &[], &call.data, &mut call.out.clone());
            }
            tally.named += 1;
        }
    }
    Ok(tally)
}

/// A card with a line at a position and a change that waits there.
fn waiting(random: &mut Random, cipher: u8, position: u64, due: u64) -> Machine {
    let mut machine = Machine::fresh();
    let made = machine.set(4, &known(random, cipher, position)) && machine.wait(4, &known(random, cipher, due));
    assert!(made, "the card may hold the change");
    machine
}

/// A crypt with buffers as long as it needs.
fn frame(random: &mut Random, count: u16) -> OwnCall {
    let (data, out) = (random.bytes(count.into()), random.bytes(count.into()));
    OwnCall { command: command::crypt(4, count), tray: Vec::new(), data, out }
}
