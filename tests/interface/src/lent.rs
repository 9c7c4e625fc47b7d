//! One call on the linked card, with all that it leaves.

use crate::room::Room;
use compare::calls::OwnCall;
use compare::machine::Answer;
use compare::subject::first_difference;
use compare::words;

/// What counts hold before a call.
pub const COUNTS: [usize; 3] = [usize::MAX, 7, usize::MAX];

/// What a call leaves: the code, and card, out and counts after it.
#[derive(Clone, Debug, PartialEq, Eq)]
pub struct Left {
    pub code: u8,
    pub card: Vec<u32>,
    pub out: Vec<u8>,
    pub counts: Vec<usize>,
}

impl Left {
    /// The code with the counts; with zeros if there aren't three.
    pub fn answer(&self) -> Answer {
        match self.counts[..] {
            [used_command, used_data, written] => Answer { code: self.code, used_command, used_data, written },
            _ => Answer::refused(self.code),
        }
    }

    /// Where another first differs from this one, which is expected, in words; nothing if it doesn't.
    pub fn difference(&self, got: &Left) -> Option<String> {
        if (self.code, &self.counts) != (got.code, &got.counts) {
            let expected = format!("code {} and counts {:?}", self.code, self.counts);
            return Some(format!("code {} and counts {:?}, expected {expected}", got.code, got.counts));
        }
        let out = || first_difference(&self.out, &got.out).map(|told| format!("out: {told}"));
        words::first_difference(&self.card, &got.card).or_else(out)
    }
}

/// Makes a call on a card of these words, with counts that hold these before it. An error says that the call
/// wrote where it must not.
pub fn call(card: &[u32], call: &OwnCall, counts: &[usize]) -> Result<Left, String> {
    let (mut words, mut out, mut places) =
        (Room::of(card, 0x5A5A_5A5A), Room::of(&call.out, 0x5A), Room::of(counts, 90));
    let [command, tray, data] = [&call.command, &call.tray, &call.data].map(|bytes| Room::of(bytes, 0x5A));
    let code = pipeshear::raw_call(
        words.lent_mut(),
        command.lent(),
        tray.lent(),
        data.lent(),
        out.lent_mut(),
        places.lent_mut(),
    );
    for (room, name, bytes) in
        [(command, "command", &call.command), (tray, "tray", &call.tray), (data, "data", &call.data)]
    {
        if room.back(name)? != *bytes {
            return Err(format!("the call changed {name}"));
        }
    }
    Ok(Left { code, card: words.back("card")?, out: out.back("out")?, counts: places.back("counts")? })
}
