//! What the second implementation says of a call on any words as a card, and the linked card held against it.

use crate::lent::{self, Left};
use compare::calls::OwnCall;
use compare::machine::Answer;
use compare::words;

/// What a call must leave. Words that are no card, and counts that aren't three, get 255.
pub fn wanted(card: &[u32], call: &OwnCall, counts: &[usize]) -> Left {
    let unchanged = Left { code: 255, card: card.to_vec(), out: call.out.clone(), counts: counts.to_vec() };
    if counts.len() != 3 {
        return unchanged;
    }
    let Some(mut machine) = words::machine(card) else {
        return Left { counts: vec![0; 3], ..unchanged };
    };
    let mut out = call.out.clone();
    let answer = machine.call(&call.command, &call.tray, &call.data, &mut out);
    let counts = vec![answer.used_command, answer.used_data, answer.written];
    Left { code: answer.code, card: words::of(&machine), out, counts }
}

/// Makes a call on the linked card and holds all that it leaves against the second implementation, whose answer is
/// given.
pub fn hold(card: &[u32], call: &OwnCall, counts: &[usize]) -> Result<Answer, String> {
    let wanted = wanted(card, call, counts);
    let got = lent::call(card, call, counts)?;
    wanted.difference(&got).map_or(Ok(wanted.answer()), Err)
}

#[cfg(test)]
mod tests {
    use super::*;
    use crate::base;
    use crate::lent::COUNTS;
    use compare::command::{count, CRYPT};

    /// Whether a call is a crypt of no bytes, which changes nothing.
    fn empty_crypt(call: &OwnCall) -> bool {
        call.command.first() == Some(&CRYPT) && count(&call.command) == 0
    }

    #[test]
    fn a_refusal_leaves_all_as_it_was() {
        let card = words::of(&base::machine(3));
        for (code, call) in base::calls(3) {
            let left = wanted(&card, &call, &COUNTS);
            assert_eq!(left.code, code);
            assert_eq!(left.card != card, code == 0 && !empty_crypt(&call));
            if code != 0 {
                assert_eq!(left, Left { code, card: card.clone(), out: call.out, counts: vec![0; 3] });
            }
        }
    }

    #[test]
    fn every_difference_is_told() {
        let card = words::of(&base::machine(0));
        let (_, call) = base::calls(0).remove(0);
        let left = wanted(&card, &call, &COUNTS);
        let changes: [fn(&mut Left); 4] =
            [|l| l.code = 9, |l| l.counts[1] ^= 1, |l| l.card[words::CARD - 1] ^= 1, |l| l.out[0] ^= 1];
        for change in changes {
            let mut other = left.clone();
            change(&mut other);
            assert!(left.difference(&other).is_some());
        }
        assert_eq!(left.difference(&left), None);
    }
}
