//! Changes of key: the old keystream goes up to the change's position and the new one from there on, whether a frame
//! spans the change, ends at it or begins there. A line's position is counted from its last change.

use super::parks::{frames, head, park};
use super::published::{self, text, Published};
use super::script::{case, enciphered, joined, name, tray, Pair, Script, NEW};
use super::Case;
use crate::builder::Builder;
use crate::command::{self, IMAGE, RECORD, STATE_AT};
use crate::random::Random;

pub fn cases() -> Vec<Case> {
    let all = published::pairs();
    let groups: [fn(&Pair) -> Vec<Case>; 4] = [
        |p| vec![every_place(p), every_frame(p), at_once(p), at_a_frames_end(p), empty_frames(p)],
        |p| vec![there_and_back(p), three_at_once(p), the_same_again(p), dropped(p), on_one_of_two(p)],
        |p| vec![parked(p), parked_as_it_comes_due(p), resumed(p), last_key(p), only_key(p)],
        |p| [1, 2, 3, 5, 8, 16].map(|length| frames_of(p, length)).into(),
    ];
    let mut cases: Vec<Case> = all.iter().flat_map(|p| groups.iter().flat_map(move |group| group(p))).collect();
    cases.extend(all.iter().flat_map(|p| all.iter().map(move |[q, _]| dropped_before(p, q))));
    cases.push(eight_lines(&all));
    cases
}

/// Wherever a change is in a unit and in a frame.
fn every_place(p: &Pair) -> Case {
    let of = Script::new(p).each(0..=32, |s, due| s.open().change(due).frame(&joined(p, due, 32)).close());
    of.case("at each position from 0 to 32, and a frame across it")
}

/// Frames of every length up to 40, from byte 7 on, with a change at byte 20; and the rest of what is known of the new
/// keystream.
fn every_frame(p: &Pair) -> Case {
    let stream = joined(p, 20, 32);
    let of = Script::new(p).each(0..=40, |s, length| {
        s.open().frame(&stream[..7]).change(20).frames(&stream[7..], &[length, 45 - length]).close()
    });
    of.case("frames of 0 to 40 bytes, and a change 13 bytes on")
}

/// Frames of one length up to a change that is at the end of one of them or within one, and on.
fn frames_of(p: &Pair, length: usize) -> Case {
    let of = Script::new(p).each([16, 17, 23], |s, due| {
        let stream = joined(p, due, 32);
        s.open().change(due).frames(&stream, &vec![length; stream.len() / length]).close()
    });
    of.case(&format!("frames of {length} bytes"))
}

/// At the line's own position, which is in any place of a unit: the next byte is the first of the new keystream.
fn at_once(p: &Pair) -> Case {
    let [old, new] = [0, 1].map(|i| &p[i].stream);
    let of = Script::new(p).each(0..=32, |s, at| s.open().frame(&old[..at]).change(at).frame(&new[..21]).close());
    of.case("at the line's position, 0 to 32")
}

/// The frame ends where the change comes due.
fn at_a_frames_end(p: &Pair) -> Case {
    let [old, new] = [0, 1].map(|i| &p[i].stream);
    let of =
        Script::new(p).each(1..=32, |s, due| s.open().change(due).frame(&old[..due]).frames(new, &[0, 1, 31]).close());
    of.case("at a frame's end, after 1 to 32 bytes")
}

/// Frames of no bytes before a change, a byte before it and after it.
fn empty_frames(p: &Pair) -> Case {
    let of = Script::new(p).each(1..=17, |s, due| {
        s.open().change(due).frames(&joined(p, due, 32), &[0, due - 1, 0, 0, 1, 0, 2, 0, 30]).close()
    });
    of.case("frames of no bytes")
}

/// A line that changes to the new keystream, back to the old one and so on, each time while it is in the other.
fn there_and_back(p: &Pair) -> Case {
    let [old, new] = [0, 1].map(|i| &p[i].stream);
    let of = Script::new(p).open().frame(&old[..2]).each(3..=20, |s, at| {
        let (there, back) = ([&old[2..at], &new[..3]].concat(), [&new[3..at], &old[..2]].concat());
        s.change(at).frame(&there).change_back(at).frame(&back)
    });
    of.case("from one keystream to the other and back, 18 times")
}

/// Changes one after the other at the line's position; the last one counts. Then one that waits.
fn three_at_once(p: &Pair) -> Case {
    let script = Script::new(p).open().frame(&p[0].stream[..5]).change(5).change_back(0).change(0).change_back(7);
    let stream = [&p[1].stream[..7], &p[0].stream[..9]].concat();
    script.frame(&stream).change(9).frame(&p[1].stream[..20]).case("three at the line's position, and one ahead")
}

/// The same key and IV once more: the keystream begins again.
fn the_same_again(p: &Pair) -> Case {
    let old = &p[0].stream;
    let script = Script::new(p).open().change_back(11).frame(&[&old[..11], &old[..6]].concat());
    let script = script.change_back(6).frame(&old[..9]).change_back(9).frames(old, &[3, 29]);
    script.case("to the line's own key and IV")
}

/// A close drops a change: the line that is opened next knows nothing of it, and another change may wait there.
fn dropped(p: &Pair) -> Case {
    let (old, close) = (&p[0].stream, || command::close(2));
    let once = Script::new(p).open().change(9).frame(&old[..4]).put(close()).open().frame(&old[..32]).put(close());
    let again = once.open().change(9).frame(&old[..4]).put(close()).open().change(20).frame(&joined(p, 20, 32));
    again.case("dropped by a close, and the line opened again")
}

/// The same with another cipher on the line after it, whose image has nothing of the change.
fn dropped_before(p: &Pair, q: &Published) -> Case {
    let waiting = [p[0].open(1), command::crypt(1, 7), p[1].change(1, NEW, 9), command::close(1)];
    let after =
        [q.open(1), command::crypt(1, 32), command::park(1), q.open(0), command::crypt(0, 32), command::park(0)];
    let what = format!("dropped before {}", q.name());
    let case = case(p, &what, &[&waiting[..], &after].concat(), "end 10 0").data(vec![0; 7 + 2 * 32]);
    let (first, second) = (7 + 32, 7 + 32 + IMAGE + 32);
    let case = case.part(0, &p[0].stream[..7]).part(7, &q.stream[..32]).part(first, &head(q, 32, (1, 1)));
    case.same(state(first), state(second))
}

/// Two lines with the same key and IV, one of which changes.
fn on_one_of_two(p: &Pair) -> Case {
    let commands = [p[0].open(3), p[0].open(4), p[1].change(3, NEW, 10)];
    let frames = [(3, 9), (4, 9), (3, 9), (4, 9), (3, 14), (4, 14)].map(|(line, count)| command::crypt(line, count));
    let case = case(p, "on one of two lines", &[&commands[..], &frames].concat(), "end 9 0").data(vec![0; 64]);
    let (one, other) = (&joined(p, 10, 22), &p[0].stream);
    let out = [&one[..9], &other[..9], &one[9..18], &other[9..18], &one[18..32], &other[18..32]].concat();
    case.out(&out)
}

/// Where the state is in an image that begins there in out.
fn state(image: usize) -> std::ops::Range<usize> {
    image + STATE_AT..image + IMAGE
}

/// A list in the making with the tray of both keys.
fn list(p: &Pair, data: Vec<u8>) -> Builder {
    Builder::new(Random::new(0, 0), tray(p), data)
}

/// A call parked after its change goes on in the new keystream; its image is, but for the line, that of a line which
/// was opened with that one.
fn parked(p: &Pair) -> Case {
    let mut b = list(p, text(13 + 19 + 19));
    b.put(&p[1].open(0));
    frames(&mut b, 0, &[13]);
    park(&mut b, 0);
    b.put(&p[0].open(2));
    b.put(&p[1].change(2, NEW, 6));
    frames(&mut b, 2, &[19]);
    let image = park(&mut b, 2);
    b.put(&command::resume(5, &image));
    frames(&mut b, 5, &[19]);
    let case = Case::of(name(p, "parked after it"), b.files(), "end 9 0");
    let (frame, image) = (13 + IMAGE, 13 + IMAGE + 19);
    let case = case.part(frame, &enciphered(&joined(p, 6, 13), 13)).part(image, &head(&p[1], 13, (2, 1)));
    case.same(state(13), state(image)).part(image + IMAGE, &enciphered(&p[1].stream[13..32], 13 + 19))
}

/// A call parked where its change came due, at once and at a frame's end: the image is at byte 0, with S(0) of the new
/// key and IV.
fn parked_as_it_comes_due(p: &Pair) -> Case {
    let at_once = [p[0].open(2), command::crypt(2, 5), p[1].change(2, NEW, 5), command::park(2)];
    let at_the_end = [p[0].open(3), p[1].change(3, NEW, 7), command::crypt(3, 7), command::park(3)];
    let beside = [p[1].open(0), command::park(0)];
    let case = case(p, "parked as it comes due", &[&at_once[..], &at_the_end, &beside].concat(), "end 10 0");
    let [one, two, three] = [5, 5 + IMAGE + 7, 5 + IMAGE + 7 + IMAGE];
    let case = case.data(vec![0; 12]).part(one, &head(&p[1], 0, (2, 1))).part(two, &head(&p[1], 0, (3, 1)));
    case.same(state(three), state(one)).same(state(three), state(two))
}

/// A call that was parked and resumed on another line changes there.
fn resumed(p: &Pair) -> Case {
    let mut b = list(p, text(5 + 30));
    b.put(&p[0].open(2));
    frames(&mut b, 2, &[5]);
    let image = park(&mut b, 2);
    b.put(&command::resume(6, &image));
    b.put(&p[1].change(6, NEW, 11));
    frames(&mut b, 6, &[4, 0, 26]);
    let case = Case::of(name(p, "on a line that was resumed"), b.files(), "end 8 0");
    let stream = joined(p, 11, 24);
    case.part(0, &enciphered(&stream[..5], 0)).part(5 + IMAGE, &enciphered(&stream[5..], 5))
}

/// The new key is the last of a tray of 256.
fn last_key(p: &Pair) -> Case {
    let commands = [p[0].open(7), p[1].change(7, 255, 3), command::crypt(7, 35)];
    let case = case(p, "to key 255 of a tray of 8,192", &commands, "end 3 0");
    let tray = [vec![0xEE; 255 * RECORD], p[1].key.clone()].concat();
    case.tray(tray).data(vec![0; 35]).out(&joined(p, 3, 32))
}

/// The new key is the only one of the tray.
fn only_key(p: &Pair) -> Case {
    let commands = [p[0].open(0), p[1].change(0, 0, 3), command::crypt(0, 35)];
    let case = case(p, "to the only key", &commands, "end 3 0");
    case.tray(p[1].key.clone()).data(vec![0; 35]).out(&joined(p, 3, 32))
}

/// All lines at once, each with a change at a position of its own, a frame of each in turn.
fn eight_lines(all: &[Pair]) -> Case {
    let on = |line: u8| &all[usize::from(line) % all.len()];
    let due = |line: u8| 3 * usize::from(line) + 2;
    let number = |line: u8| 2 * (line % all.len() as u8) + NEW;
    let mut commands: Vec<Vec<u8>> = (0..8).map(|line| on(line)[0].open(line)).collect();
    commands.extend((0..8).map(|line| on(line)[1].change(line, number(line), due(line) as u64)));
    let streams: Vec<Vec<u8>> = (0..8).map(|line| joined(on(line), due(line), 32)).collect();
    let (mut out, mut at) = (Vec::new(), 0);
    for count in [7, 1, 0, 5, 11, 8, 2] {
        for (line, stream) in (0..8).zip(&streams) {
            commands.push(command::crypt(line, count as u16));
            out.extend(&stream[at..at + count]);
        }
        at += count;
    }
    let case = Case::new("change of key: on eight lines", &commands, format!("end {} 0", commands.len()));
    case.tray(all.iter().flat_map(tray).collect()).data(vec![0; 8 * at]).out(&out)
}
