//! Loads and starts: a line that is loaded and started has the keystream that an open with the same key and IV gives,
//! whatever other lines do in between; what every command does on a loaded line; and what refuses a load or a start.

use super::parks::{frames, park};
use super::published::{self, text, Published};
use super::script::{enciphered, joined, tray, Pair, NEW, OLD};
use super::{altered, Case};
use crate::builder::Builder;
use crate::cipher::by_number;
use crate::command::{self, padded, IMAGE, IV, RECORD, STATE_AT};
use crate::machine::END;
use crate::random::Random;

pub fn cases() -> Vec<Case> {
    let all = published::pairs();
    let streams: [fn(&Pair) -> Vec<Case>; 4] = [as_opened, between, again, parks];
    let judged: [fn(&Pair) -> Vec<Case>; 8] = [loaded, closed, not_loaded, open, keys, zeros, ivs, trays];
    let each = |p| streams.iter().chain(&judged).flat_map(move |group| group(p));
    let mut cases: Vec<Case> = all.iter().flat_map(each).collect();
    cases.extend(all.iter().flat_map(|p| all.iter().flat_map(move |[q, _]| before(p, q))));
    cases.extend([eight_lines(&all, false), eight_lines(&all, true)]);
    cases
}

/// A case with the tray of both keys.
fn case(p: &Pair, what: &str, commands: &[Vec<u8>], end: impl Into<String>) -> Case {
    Case::new(format!("load, {}: {what}", p[0].name()), commands, end).tray(tray(p))
}

/// A case, all of whose commands are accepted.
fn accepted(p: &Pair, what: &str, commands: &[Vec<u8>]) -> Case {
    case(p, what, commands, format!("end {} 0", commands.len()))
}

/// A case that ends with this number after `before`, which are accepted.
fn refused(p: &Pair, number: u8, what: &str, before: &[Vec<u8>], last: Vec<u8>) -> Case {
    let what = format!("number {number}, {what}");
    case(p, &what, &[before, &[last]].concat(), format!("end {} {number}", before.len()))
}

/// Where the state is in an image that begins there in out.
fn state(image: usize) -> std::ops::Range<usize> {
    image + STATE_AT..image + IMAGE
}

const TABLE: &str = "call code cmd data out\n1 0 4 0 0\n2 0 18 0 0\n3 0 4 32 32\nend 3 0\n";

/// The stream and the image of an open with the same key and IV.
fn as_opened(p: &Pair) -> Vec<Case> {
    let [one, _] = p;
    let started = |line: u8| [one.load(line, OLD), one.start(line)];
    let alone = [&started(5)[..], &[command::crypt(5, 32)]].concat();
    let beside = [vec![one.open_tray(1, OLD), command::crypt(1, 200)], started(2).into(), vec![command::crypt(2, 200)]];
    let lengths = [0, 1, 2, 3, 5, 7, 0, 14];
    let split = lengths.map(|length| command::crypt(6, length));
    let images = [&started(3)[..], &[command::park(3), one.open_tray(4, OLD), command::park(4)]].concat();
    let on = [&started(3)[..], &[command::crypt(3, 19), command::park(3)]].concat();
    let by = [one.open(4), command::crypt(4, 19), command::park(4)];
    vec![
        accepted(p, "a load and a start", &alone).data(vec![0; 32]).table(TABLE).out(&one.stream[..32]),
        accepted(p, "200 bytes as of an open", &beside.concat())
            .data(text(200).repeat(2))
            .part(0, &enciphered(&one.stream[..32], 0))
            .same(0..200, 200..400),
        accepted(p, "frames of odd lengths", &[&started(6)[..], &split].concat())
            .data(text(32))
            .out(&enciphered(&one.stream[..32], 0)),
        accepted(p, "parked at its first byte as an open", &images).same(state(0), state(IMAGE)),
        accepted(p, "parked after a frame as an open", &[&on[..], &by].concat())
            .data(vec![0; 38])
            .same(0..19, 19 + IMAGE..38 + IMAGE)
            .same(state(19), state(38 + IMAGE)),
    ]
}

/// Calls on other lines between a load and its start.
fn between(p: &Pair) -> Vec<Case> {
    let [one, other] = p;
    let mut b = Builder::new(Random::new(0, 0), tray(p), vec![0; 160]);
    b.put(&one.load(2, OLD));
    b.put(&other.load(3, NEW));
    b.put(&other.open_tray(4, NEW));
    frames(&mut b, 4, &[7]);
    let image = park(&mut b, 4);
    b.put(&command::resume(1, &image));
    frames(&mut b, 1, &[9]);
    b.put(&other.start(3));
    frames(&mut b, 3, &[5]);
    b.put(&one.change(1, OLD, 20));
    frames(&mut b, 1, &[11]);
    b.put(&command::close(1));
    b.put(&one.start(2));
    frames(&mut b, 2, &[32]);
    frames(&mut b, 3, &[27]);
    let name = format!("load, {}: calls on other lines before its start", one.name());
    let case = Case::of(name, b.files(), "end 15 0");
    let parts = [&other.stream[7..16], &other.stream[..5], &joined(&swapped(p), 20, 7)[16..], &one.stream[..32]];
    vec![case.part(0, &other.stream[..7]).part(7 + IMAGE, &[&parts.concat()[..], &other.stream[5..32]].concat())]
}

/// The two keystreams the other way round.
fn swapped([one, other]: &Pair) -> Pair {
    [other, one].map(|p| Published { key: p.key.clone(), iv: p.iv.clone(), stream: p.stream.clone(), ..*p })
}

/// One line loaded and started several times, and one key loaded on two lines.
fn again(p: &Pair) -> Vec<Case> {
    let [one, other] = p;
    let close = || command::close(7);
    let once =
        |q: &Published, number: u8, count: u16| [q.load(7, number), q.start(7), command::crypt(7, count), close()];
    let over = [&one.stream[..9], &other.stream[..32], &one.stream[..32]].concat();
    let two = [one.load(0, OLD), one.load(1, OLD), command::start(1, &[0; IV]), one.start(0)];
    let opened = [command::open_tray(2, one.cipher, OLD, &[0; IV])];
    let crypts = [0, 1, 2].map(|line| command::crypt(line, 32));
    let changed = [one.load(3, OLD), one.start(3), other.change(3, NEW, 9), command::crypt(3, 41)];
    let at_once = [one.load(3, OLD), one.start(3), other.change(3, NEW, 0), command::crypt(3, 32)];
    vec![
        accepted(p, "over and over", &[once(one, OLD, 9), once(other, NEW, 32), once(one, OLD, 32)].concat())
            .data(vec![0; 73])
            .out(&over),
        accepted(p, "one key on two lines", &[&two[..], &opened, &crypts].concat())
            .data(vec![0; 96])
            .part(0, &one.stream[..32])
            .same(32..64, 64..96),
        accepted(p, "and a change of its key", &changed).data(vec![0; 41]).out(&joined(p, 9, 32)),
        accepted(p, "and a change at its first byte", &at_once).data(vec![0; 32]).out(&other.stream[..32]),
    ]
}

/// Loads, starts and closes leave the numbers of the parks as they are.
fn parks(p: &Pair) -> Vec<Case> {
    let between = [p[0].load(3, OLD), p[0].start(3), command::close(3)];
    let of = |what: &str, between: &[Vec<u8>]| {
        let resumed = command::resume(6, &altered::written((3, 1)));
        accepted(p, what, &[&altered::parked(3)[..], between, &[resumed]].concat())
    };
    vec![
        of("on a line with a number that is held", &between[..1]),
        of("and a close, a number is held", &[&between[..1], &between[2..]].concat()),
        of("and a start, a number is held", &between[..2]),
        of("and a start and a close, a number is held", &between),
    ]
}

/// The commands that a loaded line refuses. A refusal ends a case; that the line is still loaded after it shows in call
/// lists.
fn loaded(p: &Pair) -> Vec<Case> {
    let [one, other] = p;
    let load = [one.load(2, OLD)];
    let rows = [
        (5, "an open from the tray", other.open_tray(2, NEW)),
        (5, "an open from the tray with the same key", one.open_tray(2, OLD)),
        (5, "an open with its own key", other.open(2)),
        (5, "a resume", command::resume(2, &altered::written((2, 1)))),
        (5, "a second load", other.load(2, NEW)),
        (5, "the same load again", one.load(2, OLD)),
        (6, "a crypt of no bytes", command::crypt(2, 0)),
        (6, "a crypt", command::crypt(2, 9)),
        (6, "a park", command::park(2)),
        (6, "a change at 0", other.change(2, NEW, 0)),
        (6, "a change ahead", other.change(2, NEW, 9)),
    ];
    let each = rows.into_iter().map(|(code, what, last)| refused(p, code, what, &load, last).data(vec![0; 9]));
    each.chain([refused(p, 6, "a close of another line", &load, command::close(3))]).collect()
}

/// A close empties a loaded line: it is idle, and what is opened or loaded there knows nothing of the key.
fn closed(p: &Pair) -> Vec<Case> {
    let [one, other] = p;
    let empty = [one.load(2, OLD), command::close(2)];
    let rows = [
        (6, "a crypt", command::crypt(2, 0)),
        (6, "a park", command::park(2)),
        (6, "a second close", command::close(2)),
        (6, "a change", other.change(2, NEW, 0)),
        (19, "a start", one.start(2)),
    ];
    let each =
        rows.into_iter().map(|(code, what, last)| refused(p, code, &format!("{what} after a close"), &empty, last));
    let used = |what: &str, next: &[Vec<u8>]| {
        let commands = [&empty[..], next, &[command::crypt(2, 32)]].concat();
        accepted(p, &format!("closed and {what}"), &commands).data(vec![0; 32]).out(&other.stream[..32])
    };
    let more = [
        accepted(p, "closed", &empty),
        used("opened from the tray", &[other.open_tray(2, NEW)]),
        used("opened with a key of its own", &[other.open(2)]),
        used("loaded with another key", &[other.load(2, NEW), other.start(2)]),
        used("loaded and closed twice", &[one.load(2, OLD), command::close(2), other.load(2, NEW), other.start(2)]),
    ];
    each.chain(more).collect()
}

/// Starts of lines that aren't loaded: idle ones, in each way, and open ones, in each way.
fn not_loaded(p: &Pair) -> Vec<Case> {
    let [one, other] = p;
    let start = || one.start(2);
    let opened = [one.open(2)];
    let started = [one.load(2, OLD), one.start(2)];
    let of = |what: &str, before: &[Vec<u8>], last: Vec<u8>| refused(p, 19, what, before, last).data(vec![0; 40]);
    let parked = [one.open(2), command::park(2)];
    let waiting = [one.open(2), other.change(2, NEW, 9)];
    let resumed = altered::resumed(2, &altered::written((2, 1)));
    let after = |before: &[Vec<u8>], last: Vec<u8>| [before, &[last]].concat();
    vec![
        of("a start of an idle line", &[], start()),
        of("a start of another line", &[one.load(3, OLD)], start()),
        of("a start of a line that was parked", &parked, start()),
        of("a start of a line that was closed", &after(&opened, command::close(2)), start()),
        of("a start of a line opened from the tray", &[one.open_tray(2, OLD)], start()),
        of("a start of a line opened with its own key", &opened, start()),
        of("a start of a line behind its first byte", &after(&opened, command::crypt(2, 40)), start()),
        of("a start of a line that was resumed", &resumed, start()),
        of("a start where a change waits", &waiting, start()),
        of("a second start", &started, start()),
        of("a second start with another IV", &started, other.start(2)),
        of("a second start after a frame", &after(&started, command::crypt(2, 40)), start()),
        of("a start after a start and a close", &after(&started, command::close(2)), start()),
    ]
}

/// Loads of open lines, in each way that a line is opened.
fn open(p: &Pair) -> Vec<Case> {
    let [one, other] = p;
    let of = |what: &str, before: &[Vec<u8>]| refused(p, 5, what, before, other.load(2, NEW)).data(vec![0; 40]);
    vec![
        of("a load of a line opened from the tray", &[one.open_tray(2, OLD)]),
        of("a load of a line opened with its own key", &[one.open(2)]),
        of("a load of a line behind its first byte", &[one.open(2), command::crypt(2, 40)]),
        of("a load of a line that was resumed", &altered::resumed(2, &altered::written((2, 1)))),
        of("a load of a line that was started", &[one.load(2, OLD), one.start(2)]),
        of("a load where a change waits", &[one.open(2), other.change(2, NEW, 9)]),
    ]
}

/// A load of a key that is number 2 of the tray, and a start with an IV; and a frame if both are accepted.
fn with(p: &Pair, what: &str, key: &[u8], iv: &[u8], (accepted, code): (usize, u8)) -> Case {
    let commands = [command::load(2, p[0].cipher, 2), command::start(2, iv), command::crypt(2, 20)];
    let tray = [tray(p), key.to_vec()].concat();
    case(p, what, &commands, format!("end {accepted} {code}")).tray(tray).data(text(20))
}

/// The bytes with a 1 at a place.
fn changed(bytes: &[u8], place: usize) -> Vec<u8> {
    [&bytes[..place], &[1], &bytes[place + 1..]].concat()
}

/// The lengths of the cipher's key and IV.
fn lengths(p: &Pair) -> (usize, usize) {
    by_number(p[0].cipher).map_or((RECORD, IV), |c| (c.shape().key, c.shape().iv))
}

/// The first and the last byte beyond the key; where none is beyond, these are the key's own. What stands behind the load
/// isn't looked at.
fn keys(p: &Pair) -> Vec<Case> {
    let (Published { key, iv, .. }, (length, _)) = (&p[0], lengths(p));
    let of = |place: usize| match place >= length {
        true => with(p, &format!("number 7, key byte {place}"), &changed(key, place), iv, (0, 7)),
        false => with(p, &format!("key byte {place}"), &changed(key, place), iv, (3, 0)),
    };
    let behind = [p[0].load(2, OLD), vec![0xFF; IV]];
    let last = Case::new(format!("load, {}: bytes behind it", p[0].name()), &behind, "end 1 2").tray(tray(p));
    [16, 31].map(of).into_iter().chain([last]).collect()
}

/// Keys of zeros in the cipher's own length, and those of which one byte isn't.
fn zeros(p: &Pair) -> Vec<Case> {
    let ((length, _), iv) = (lengths(p), &p[0].iv);
    let alone = |place: usize| padded(&[vec![0; place], vec![1]].concat(), RECORD);
    let mut cases = vec![
        with(p, "number 16, an empty record", &[0; RECORD], iv, (0, 16)),
        with(p, "the first byte of the key alone", &alone(0), iv, (3, 0)),
        with(p, "the last byte of the key alone", &alone(length - 1), iv, (3, 0)),
    ];
    if length < RECORD {
        cases.push(with(p, "number 7, a byte beyond a key of zeros", &alone(length), iv, (0, 7)));
        cases.push(with(p, "number 7, the last byte of a record of zeros", &alone(RECORD - 1), iv, (0, 7)));
    } else {
        cases.push(with(p, "the first byte of the key's second half alone", &alone(16), iv, (3, 0)));
    }
    cases
}

/// The first and the last byte beyond the IV of the line's cipher; where none is beyond, these are the IV's own. An IV of
/// zeros is accepted, and each byte of an IV counts.
fn ivs(p: &Pair) -> Vec<Case> {
    let (Published { key, iv, .. }, (_, length)) = (&p[0], lengths(p));
    let of = |place: usize| match place >= length {
        true => with(p, &format!("number 7, IV byte {place}"), key, &changed(iv, place), (1, 7)),
        false => with(p, &format!("IV byte {place}"), key, &changed(iv, place), (3, 0)),
    };
    let each = (0..length).flat_map(|place| {
        let iv = padded(&[vec![0; place], vec![0x80]].concat(), IV);
        let open = [command::open_own(1, p[0].cipher, key, &iv), command::crypt(1, 16), command::close(1)];
        [p[0].load(1, OLD), command::start(1, &iv), command::crypt(1, 16), command::close(1)].into_iter().chain(open)
    });
    let each: Vec<Vec<u8>> = each.collect();
    let all = accepted(p, "each byte of an IV alone", &each).data(vec![0; 32 * length]);
    let all = (0..length).fold(all, |case, i| case.same(32 * i..32 * i + 16, 32 * i + 16..32 * i + 32));
    let zero = with(p, "an IV of zeros", key, &[0; IV], (3, 0));
    [8, 15].map(of).into_iter().chain([zero, all]).collect()
}

/// Trays of other lengths, and key numbers that aren't in the tray.
fn trays(p: &Pair) -> Vec<Case> {
    let of = |what: String, number: u8, tray: Vec<u8>, code: u8| {
        let commands = [p[0].load(2, number), p[0].start(2), command::crypt(2, 32)];
        let end = format!("end {} {code}", if code == 0 { 3 } else { 0 });
        case(p, &what, &commands, end).tray(tray).data(vec![0; 32])
    };
    let keys = |count: usize| p[0].key.repeat(count);
    let bad = [1, 31, 33, 8_191, 8_193, 8_224].map(|length| {
        let tray = padded(&keys(258), 8_256)[..length].to_vec();
        of(format!("number 9, a tray of {length}"), OLD, tray, 9)
    });
    let none = [(0, 0), (0, 255), (1, 1), (2, 2), (255, 255)].map(|(count, number)| {
        of(format!("number 10, key {number} of a tray of {count} keys"), number, keys(count), 10)
    });
    let last = [vec![0xEE; 255 * RECORD], keys(1)].concat();
    let there = [
        of("the last key of a full tray".to_string(), 255, last, 0).out(&p[0].stream[..32]),
        of("the only key".to_string(), 0, keys(1), 0).out(&p[0].stream[..32]),
        of(
            "the key that the cipher's number names is another".to_string(),
            7,
            [p[1].key.repeat(7), keys(1)].concat(),
            0,
        )
        .out(&p[0].stream[..32]),
    ];
    bad.into_iter().chain(none).chain(there).collect()
}

/// A line that was loaded with one cipher, closed, and opened or loaded with another: its image has nothing of the first.
fn before(p: &Pair, q: &Published) -> [Case; 2] {
    let key = [tray(p), q.key.clone()].concat();
    let emptied = [p[0].load(1, OLD), command::close(1)];
    let started = [p[0].load(1, OLD), p[0].start(1), command::crypt(1, 7), command::close(1)];
    let fresh = [q.open(0), command::crypt(0, 32), command::park(0)];
    let rest = [command::crypt(1, 32), command::park(1)];
    let at = |first: usize| (first, first + 32 + IMAGE);
    let of = |what: &str, commands: &[Vec<u8>], first: usize| {
        let (one, other) = at(first);
        let case = accepted(p, &format!("{what} {}", q.name()), commands).tray(key.clone());
        let case = case.data(vec![0; first + 64]).part(one, &q.stream[..32]).part(other, &q.stream[..32]);
        case.same(state(one + 32), state(other + 32))
    };
    [
        of("emptied before", &[&emptied[..], &[q.open(1)], &rest, &fresh].concat(), 0),
        of("started and closed before", &[&started[..], &[q.load(1, 2), q.start(1)], &rest, &fresh].concat(), 7),
    ]
}

/// All lines loaded, then started one after the other, first or last line first, each with a frame after it; then a
/// change ahead on each.
fn eight_lines(all: &[Pair], turned: bool) -> Case {
    let on = |line: u8| &all[usize::from(line) % all.len()][0];
    let number = |line: u8| 2 * (line % all.len() as u8) + OLD;
    let mut lines: Vec<u8> = (0..8).collect();
    let mut commands: Vec<Vec<u8>> = lines.iter().map(|&line| on(line).load(line, number(line))).collect();
    if turned {
        lines.reverse();
    }
    let mut out = Vec::new();
    for &line in &lines {
        commands.extend([on(line).start(line), command::crypt(line, 13)]);
        out.extend(&on(line).stream[..13]);
    }
    for &line in &lines {
        commands.extend([on(line).change(line, number(line), END), command::crypt(line, 19)]);
        out.extend(&on(line).stream[13..32]);
    }
    let name = format!("load: eight lines, started from the {}", if turned { "last" } else { "first" });
    let case = Case::new(name, &commands, format!("end {} 0", commands.len()));
    case.tray(all.iter().flat_map(tray).collect()).data(vec![0; out.len()]).out(&out)
}
