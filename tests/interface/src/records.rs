//! Sealed records: the linked pair that seals and opens them held against the second implementation, with every cipher,
//! length and refusal, on texts that are changed, with outs and arrays of other lengths, and with calls from a seed.

use crate::room::Room;
use compare::cipher::{by_number, LAST};
use compare::command::{IV, RECORD};
use compare::plain;
use compare::random::Random;
use compare::sealing::{Terms, Way, ADDED, BLOCK, MESSAGE, REFUSALS};
use compare::subject::{first_difference, Tally};
use pipeshear::{raw_seal, raw_unseal};

/// What the count of bytes holds before a call, and each byte of out.
const COUNT: usize = usize::MAX;
const OUT: u8 = 0xC3;

/// Lengths of messages beyond 64 bytes.
const LONG: [usize; 9] = [72, 120, 1_000, 1_024, 4_096, 4_104, 8_192, MESSAGE - BLOCK, MESSAGE];

/// So many calls go with each list of a seed.
const EACH: usize = 4;

/// A call of the pair; its arrays may have any length.
#[derive(Clone)]
struct Call {
    way: Way,
    cipher: u8,
    key: Vec<u8>,
    iv: Vec<u8>,
    redundancy: Vec<u8>,
    text: Vec<u8>,
    out: Vec<u8>,
    written: Vec<usize>,
}

/// A pair that seals and opens: what a call of it leaves; an error says that it wrote where it must not.
type Pair = fn(&Call) -> Result<Left, String>;

/// What a call leaves.
#[derive(Clone, Debug, PartialEq, Eq)]
struct Left {
    code: u8,
    out: Vec<u8>,
    written: Vec<usize>,
}

impl Call {
    fn of(way: Way, terms: &Terms, text: &[u8], room: usize) -> Call {
        Call {
            way,
            cipher: terms.cipher,
            key: terms.key.into(),
            iv: terms.iv.into(),
            redundancy: terms.redundancy.into(),
            text: text.to_vec(),
            out: vec![OUT; room],
            written: vec![COUNT],
        }
    }

    /// The terms, if every array has its length.
    fn terms(&self) -> Option<Terms> {
        let arrays = (&self.key[..]).try_into().ok().zip((&self.iv[..]).try_into().ok());
        let (key, iv) = arrays.filter(|_| self.written.len() == 1)?;
        Some(Terms { cipher: self.cipher, key, iv, redundancy: (&self.redundancy[..]).try_into().ok()? })
    }

    /// What it must leave.
    fn wanted(&self) -> Left {
        let left = |code: u8, written: &[usize]| Left { code, out: self.out.clone(), written: written.to_vec() };
        let Some(terms) = self.terms() else {
            return left(255, &self.written);
        };
        match terms.answer(self.way, &self.text, self.out.len()) {
            Err(code) => left(code, &[0]),
            Ok(bytes) => {
                let out = [&bytes[..], &self.out[bytes.len()..]].concat();
                Left { code: 0, out, written: vec![bytes.len()] }
            }
        }
    }

    /// What the linked pair leaves; an error says that it wrote where it must not.
    fn linked(&self) -> Result<Left, String> {
        let lent = [("key", &self.key), ("IV", &self.iv), ("redundancy", &self.redundancy), ("text", &self.text)];
        let rooms = lent.map(|(_, bytes)| Room::of(bytes, 0x5A));
        let (mut out, mut written) = (Room::of(&self.out, 0x5A), Room::of(&self.written, 90));
        let [key, iv, redundancy, text] = &rooms;
        let entry = match self.way {
            Way::Seal => raw_seal,
            Way::Open => raw_unseal,
        };
        let code = entry(
            self.cipher,
            key.lent(),
            iv.lent(),
            redundancy.lent(),
            text.lent(),
            out.lent_mut(),
            written.lent_mut(),
        );
        for (room, (name, bytes)) in rooms.into_iter().zip(lent) {
            if room.back(name)? != *bytes {
                return Err(format!("the call changed {name}"));
            }
        }
        Ok(Left { code, out: out.back("out")?, written: written.back("the count")? })
    }

    /// Holds a pair against the second implementation, which gives this code if one is expected.
    fn hold(&self, pair: Pair, expected: Option<u8>, tally: &mut Tally) -> Result<Left, String> {
        let told = |told: String| {
            let (way, cipher, length, room) = (self.way, self.cipher, self.text.len(), self.out.len());
            format!("{way:?} with cipher {cipher}, {length} bytes, out of {room}: {told}")
        };
        let (wanted, got) = (self.wanted(), pair(self).map_err(told)?);
        if let Some(code) = expected.filter(|&code| code != wanted.code) {
            return Err(told(format!("the second implementation has {}, expected {code}", wanted.code)));
        }
        if let Some(difference) = wanted.difference(&got) {
            return Err(told(difference));
        }
        tally.count_sealing(wanted.code);
        tally.named += 1;
        Ok(got)
    }
}

impl Left {
    /// Where another first differs from this one, which is expected, in words; nothing if it doesn't.
    fn difference(&self, got: &Left) -> Option<String> {
        if (self.code, &self.written) != (got.code, &got.written) {
            let expected = format!("code {} and count {:?}", self.code, self.written);
            return Some(format!("code {} and count {:?}, expected {expected}", got.code, got.written));
        }
        first_difference(&self.out, &got.out).map(|told| format!("out: {told}"))
    }
}

/// Terms of a cipher, the same for the same number.
fn terms(cipher: u8, number: u64) -> Terms {
    drawn(cipher, &mut Random::new(0x5EA1, u64::from(cipher) + 16 * number))
}

/// Terms of a cipher, with any redundancy.
fn drawn(cipher: u8, random: &mut Random) -> Terms {
    let array = "the fields of a command have these lengths";
    Terms {
        cipher,
        key: plain::key(random, cipher).try_into().expect(array),
        iv: plain::iv(random, cipher).try_into().expect(array),
        redundancy: random.draw().to_be_bytes(),
    }
}

/// A message of this length.
fn message(length: usize) -> Vec<u8> {
    Random::new(0x3E55, length as u64).bytes(length)
}

/// Each cipher's terms.
fn each() -> impl Iterator<Item = Terms> {
    (1..=LAST).map(|cipher| terms(cipher, 0))
}

/// The message sealed by the second implementation.
fn sealed(terms: &Terms, message: &[u8]) -> Vec<u8> {
    terms.answer(Way::Seal, message, message.len() + ADDED).expect("the message is one that is sealed")
}

/// The named records, held on the linked pair: what each group is, and what it came to.
pub fn named() -> Result<[(&'static str, Tally); 5], String> {
    groups(Call::linked)
}

fn groups(pair: Pair) -> Result<[(&'static str, Tally); 5], String> {
    Ok([
        ("messages sealed and opened", whole(pair)?),
        ("lengths of messages and sealed messages that there are none of", lengths(pair)?),
        ("sealed messages that are changed", changed(pair)?),
        ("sealings and openings with several faults", together(pair)?),
        ("sealings and openings with arrays of other lengths", arrays(pair)?),
    ])
}

/// Every message of up to 64 bytes and some of up to 16,384 with every cipher, sealed and opened: out as long as what is
/// written, longer by some bytes, and shorter (12). What is opened is the message.
fn whole(pair: Pair) -> Result<Tally, String> {
    let mut tally = Tally::default();
    for terms in each() {
        for length in (0..=64).step_by(BLOCK).chain(LONG) {
            let message = message(length);
            let sealed = hold_rooms(pair, Way::Seal, &terms, &message, length + ADDED, &mut tally)?;
            let opened = hold_rooms(pair, Way::Open, &terms, &sealed, length, &mut tally)?;
            if opened != message {
                return Err(format!("cipher {}: a message of {length} bytes does not come back", terms.cipher));
            }
        }
    }
    Ok(tally)
}

/// A text that is accepted, with outs of several lengths; returns what is written.
fn hold_rooms(
    pair: Pair,
    way: Way,
    terms: &Terms,
    text: &[u8],
    length: usize,
    tally: &mut Tally,
) -> Result<Vec<u8>, String> {
    for shorter in [1, 8, 16, length].into_iter().filter(|shorter| (1..=length).contains(shorter)) {
        Call::of(way, terms, text, length - shorter).hold(pair, Some(12), tally)?;
    }
    for longer in [1, 8, 16, 1_001] {
        Call::of(way, terms, text, length + longer).hold(pair, Some(0), tally)?;
    }
    Ok(Call::of(way, terms, text, length).hold(pair, Some(0), tally)?.out)
}

/// Lengths that no message has and that no sealed message has (23), with every cipher and one that is none.
fn lengths(pair: Pair) -> Result<Tally, String> {
    let mut tally = Tally::default();
    let beyond = |most: usize| (most + 1..=most + 2 * BLOCK).chain([2 * most, 40_960]);
    let odd = |most: usize| (0..=72).chain(most - 7..most).filter(|length| !length.is_multiple_of(BLOCK));
    for terms in each().chain([Terms { cipher: 0, ..terms(1, 0) }]) {
        for length in odd(MESSAGE).chain(beyond(MESSAGE)) {
            Call::of(Way::Seal, &terms, &message(length), length + ADDED).hold(pair, Some(23), &mut tally)?;
        }
        for length in (0..ADDED).chain(odd(MESSAGE + ADDED)).chain(beyond(MESSAGE + ADDED)) {
            Call::of(Way::Open, &terms, &message(length), length).hold(pair, Some(23), &mut tally)?;
        }
    }
    Ok(tally)
}

/// Sealed messages that are changed (24): each bit of one of 32 bytes with every cipher, each block of one of 96, ends that
/// are wrong alone and together, blocks exchanged, left out and added, and each bit of the redundancy; and other keys, IVs
/// and ciphers.
fn changed(pair: Pair) -> Result<Tally, String> {
    let mut tally = Tally::default();
    for terms in each() {
        let sealed = sealed(&terms, &message(16));
        let mut open =
            |terms: &Terms, text: &[u8]| Call::of(Way::Open, terms, text, text.len()).hold(pair, Some(24), &mut tally);
        for bit in 0..8 * sealed.len() {
            open(&terms, &flipped(&sealed, bit))?;
        }
        let long = self::sealed(&terms, &message(80));
        let mut random = Random::new(0xB10C, terms.cipher.into());
        for block in 0..long.len() / BLOCK {
            for other in [[0; BLOCK], [0xFF; BLOCK], random.draw().to_be_bytes()] {
                let mut changed = long.clone();
                changed[BLOCK * block..][..BLOCK].copy_from_slice(&other);
                open(&terms, &changed)?;
            }
        }
        for (padding, redundancy) in [(1, 0), (0, 1), (1, 1), (1 << 63, 0), (0, 1 << 63)] {
            open(&terms, &terms.forged(&message(16), padding, redundancy).expect("the terms are admitted"))?;
        }
        let blocks: Vec<&[u8]> = sealed.chunks(BLOCK).collect();
        for other in [vec![1, 0, 2, 3], vec![0, 1, 3, 2], vec![0, 1, 2], vec![1, 2, 3], vec![0, 1, 2, 3, 3]] {
            open(&terms, &other.iter().map(|&place| blocks[place]).collect::<Vec<_>>().concat())?;
        }
        for bit in 0..8 * BLOCK {
            let redundancy = flipped(&terms.redundancy, bit).try_into().expect("as long as it was");
            open(&Terms { redundancy, ..terms.clone() }, &sealed)?;
        }
        let other = self::terms(terms.cipher, 1);
        open(&Terms { key: other.key, ..terms.clone() }, &sealed)?;
        open(&Terms { iv: other.iv, ..terms.clone() }, &sealed)?;
        open(&Terms { redundancy: terms.redundancy, ..self::terms(terms.cipher % LAST + 1, 0) }, &sealed)?;
    }
    Ok(tally)
}

/// The bytes with one bit changed.
fn flipped(bytes: &[u8], bit: usize) -> Vec<u8> {
    let mut flipped = bytes.to_vec();
    flipped[bit / 8] ^= 1 << (bit % 8);
    flipped
}

/// Every set of refusals that can meet in one call, with every cipher: the first in the order is given.
fn together(pair: Pair) -> Result<Tally, String> {
    let mut tally = Tally::default();
    for (way, terms) in [Way::Seal, Way::Open].into_iter().flat_map(|way| each().map(move |terms| (way, terms))) {
        for set in 0..1 << REFUSALS.len() {
            let faults: Vec<u8> =
                REFUSALS.into_iter().enumerate().filter(|(i, _)| (set >> i) & 1 == 1).map(|(_, n)| n).collect();
            for call in with(&faults, way, &terms) {
                call.hold(pair, Some(faults.first().copied().unwrap_or(0)), &mut tally)?;
            }
        }
    }
    Ok(tally)
}

/// Calls with these faults and no others; none where they can't meet: sealing finds no wrong end, and a cipher whose key
/// and IV fill their fields leaves no byte for 7.
fn with(faults: &[u8], way: Way, terms: &Terms) -> Vec<Call> {
    let has = |number: u8| faults.contains(&number);
    let shape = by_number(terms.cipher).expect("terms have a cipher").shape();
    let text = if way == Way::Seal { message(16) } else { sealed(terms, &message(16)) };
    let room = if way == Way::Seal { 16 + ADDED } else { 16 };
    let mut base = Call::of(way, terms, &text, if has(12) { room - 1 } else { room });
    if has(24) {
        match way {
            Way::Seal => return Vec::new(),
            Way::Open => base.redundancy[7] ^= 1,
        }
    }
    if has(23) {
        base.text.push(0);
    }
    if has(16) {
        base.key[..shape.key].fill(0);
    }
    let mut calls = vec![base];
    if has(7) {
        let strays = [(shape.key < RECORD, 0), (shape.iv < IV, 1)];
        calls = strays
            .into_iter()
            .filter(|(room, _)| *room)
            .flat_map(|(_, field)| {
                let ends: [fn(&mut [u8]); 2] = [|bytes| bytes[0] = 1, |bytes| bytes[bytes.len() - 1] = 0x80];
                ends.map(|end| {
                    let mut call = calls[0].clone();
                    end(if field == 0 { &mut call.key[shape.key..] } else { &mut call.iv[shape.iv..] });
                    call
                })
            })
            .collect();
    }
    if has(4) {
        let none = [0, LAST + 1, 128, 255];
        calls = calls.iter().flat_map(|call| none.map(|cipher| Call { cipher, ..call.clone() })).collect();
    }
    calls
}

/// Arrays of other lengths, one alone and several together, in calls that would be accepted and that would be refused:
/// 255, and nothing is changed.
fn arrays(pair: Pair) -> Result<Tally, String> {
    let mut tally = Tally::default();
    let around = |length: usize| [0, 1, length - 1, length + 1, 2 * length, 4 * length];
    for (way, terms) in [Way::Seal, Way::Open].into_iter().flat_map(|way| each().map(move |terms| (way, terms))) {
        for faults in [&[][..], &[23], &[4], &[16], &[12]] {
            for call in with(faults, way, &terms) {
                let key = around(RECORD).map(|length| Call { key: resized(&call.key, length), ..call.clone() });
                let iv = around(IV).map(|length| Call { iv: resized(&call.iv, length), ..call.clone() });
                let redundancy =
                    around(BLOCK).map(|length| Call { redundancy: resized(&call.redundancy, length), ..call.clone() });
                let places = [0, 2, 3, 8].map(|places| Call { written: vec![COUNT; places], ..call.clone() });
                let exchanged = Call { key: call.iv.clone(), iv: call.key.clone(), ..call.clone() };
                let none = Call { key: vec![], iv: vec![], redundancy: vec![], written: vec![], ..call.clone() };
                let all = [&key[..], &iv, &redundancy, &places, &[exchanged, none]].concat();
                for call in all {
                    call.hold(pair, Some(255), &mut tally)?;
                }
            }
        }
    }
    Ok(tally)
}

/// The bytes, cut off or with sevens behind them.
fn resized(bytes: &[u8], length: usize) -> Vec<u8> {
    bytes.iter().copied().chain(std::iter::repeat(7)).take(length).collect()
}

/// Calls that go with list `number` of `seed`: mostly sealings and what they give opened again, with an out near the
/// length that is needed, at times with a byte changed anywhere or an array of another length.
pub fn of_seed(seed: u64, number: u64) -> Result<Tally, String> {
    let (mut random, mut tally) = (Random::new(seed ^ 0x5EA1, number), Tally::default());
    for i in 0..EACH {
        let call = any(&mut random);
        call.hold(Call::linked, None, &mut tally)
            .map_err(|told| format!("sealing {i} of list {number} of seed {seed}: {told}"))?;
    }
    Ok(Tally { named: 0, ..tally })
}

fn any(random: &mut Random) -> Call {
    let cipher = if random.chance(5) { random.byte() } else { random.between(1, LAST.into()) as u8 };
    let terms = drawn(cipher, random);
    let length = match random.between(0, 9) {
        0 => random.size(0, MESSAGE / BLOCK) * BLOCK,
        1 => random.size(0, 200),
        _ => random.size(0, 60) * BLOCK,
    };
    let text = random.bytes(length);
    let room = |random: &mut Random, length: usize| (length + random.size(0, 9)).saturating_sub(random.size(0, 2));
    let (seals, sealed) = (random.chance(40), terms.answer(Way::Seal, &text, usize::MAX));
    let mut call = match sealed {
        Ok(sealed) if !seals => Call::of(Way::Open, &terms, &sealed, room(random, length)),
        Err(_) if !seals => Call::of(Way::Open, &terms, &text, room(random, length)),
        _ => Call::of(Way::Seal, &terms, &text, room(random, length + ADDED)),
    };
    if random.chance(30) {
        let fields = [&mut call.key, &mut call.iv, &mut call.redundancy, &mut call.text];
        let which = random.size(0, 3);
        let field = fields.into_iter().nth(which).expect("one of four");
        if !field.is_empty() {
            let place = random.size(0, field.len() - 1);
            field[place] ^= random.odd_byte();
        }
    }
    match random.between(0, 39) {
        0 => call.key.truncate(random.size(0, RECORD)),
        1 => call.iv.push(0),
        2 => call.redundancy.truncate(random.size(0, BLOCK)),
        3 => call.written = vec![COUNT; random.size(0, 3)],
        4 => call.key[..16].fill(0),
        5 => call.text.truncate(random.size(0, call.text.len())),
        _ => (),
    }
    call
}

#[cfg(test)]
mod tests {
    use super::*;

    fn call(way: Way) -> Call {
        let terms = terms(2, 0);
        let text = if way == Way::Seal { message(16) } else { sealed(&terms, &message(16)) };
        Call::of(way, &terms, &text, 50)
    }

    #[test]
    fn a_refusal_and_a_wrong_length_leave_all_as_it_was() {
        for way in [Way::Seal, Way::Open] {
            let good = call(way);
            assert_eq!(good.wanted().code, 0);
            let cases = [(4, Call { cipher: 7, ..good.clone() }), (23, Call { text: vec![0; 7], ..good.clone() })];
            for (code, call) in cases {
                assert_eq!(call.wanted(), Left { code, out: vec![OUT; 50], written: vec![0] });
            }
            let short = Call { iv: vec![0; 15], ..good };
            assert_eq!(short.wanted(), Left { code: 255, out: vec![OUT; 50], written: vec![COUNT] });
        }
    }

    /// A pair that is right but for what `fault` changes of what it leaves.
    fn faulty(call: &Call, fault: fn(&Call, &mut Left)) -> Result<Left, String> {
        let mut left = call.wanted();
        fault(call, &mut left);
        Ok(left)
    }

    /// The call is accepted, with these bytes.
    fn accept(left: &mut Left, bytes: &[u8]) {
        left.code = 0;
        left.written = vec![bytes.len()];
        left.out[..bytes.len()].copy_from_slice(bytes);
    }

    /// Opens a text that is the sealing of a message of 16 bytes with other ends.
    fn open_forged(call: &Call, left: &mut Left, padding: u64, redundancy: u64) {
        let forged = call.terms().and_then(|terms| terms.forged(&message(16), padding, redundancy));
        if left.code == 24 && forged.as_deref() == Some(&call.text) {
            accept(left, &message(16));
        }
    }

    #[test]
    fn named_records_find_every_wrong_pair() {
        let pairs: [(&str, Pair); 16] = [
            ("a count left at 24", |c| {
                faulty(c, |_, l| {
                    if l.code == 24 {
                        l.written = vec![COUNT]
                    }
                })
            }),
            ("out changed at 24", |c| {
                faulty(c, |_, l| {
                    if l.code == 24 {
                        l.out[0] ^= 1
                    }
                })
            }),
            ("out changed at 12", |c| {
                faulty(c, |_, l| {
                    if l.code == 12 && !l.out.is_empty() {
                        l.out[0] ^= 1
                    }
                })
            }),
            ("a byte behind what is written", |c| {
                faulty(c, |_, l| {
                    if l.code == 0 {
                        *l.out.last_mut().unwrap() ^= 1
                    }
                })
            }),
            ("a count of 0 at 255", |c| {
                faulty(c, |_, l| {
                    if l.code == 255 {
                        l.written.fill(0)
                    }
                })
            }),
            ("an array longer by one taken", |c| {
                faulty(c, |c, l| {
                    if c.key.len() == 33 {
                        l.code = 0
                    }
                })
            }),
            ("room for the sealed length", |c| {
                faulty(c, |c, l| {
                    if c.way == Way::Open && l.code == 0 && l.out.len() < c.text.len() {
                        l.code = 12
                    }
                })
            }),
            ("23 after 4", |c| {
                faulty(c, |c, l| {
                    if l.code == 23 && c.cipher == 0 {
                        l.code = 4
                    }
                })
            }),
            ("16 before 7", |c| {
                faulty(c, |c, l| {
                    if l.code == 7 && c.key[..16] == [0; 16] {
                        l.code = 16
                    }
                })
            }),
            ("12 before 16", |c| {
                faulty(c, |c, l| {
                    if l.code == 16 && c.out.len() % 8 == 7 {
                        l.code = 12
                    }
                })
            }),
            ("24 before 12", |c| {
                faulty(c, |c, l| {
                    let opens = c.terms().and_then(|terms| terms.answer(c.way, &c.text, usize::MAX).err());
                    if l.code == 12 && opens == Some(24) {
                        l.code = 24;
                    }
                })
            }),
            ("no empty message", |c| {
                faulty(c, |c, l| {
                    if l.code == 0 && c.text.len() < 17 {
                        l.code = 23
                    }
                })
            }),
            ("no longest message", |c| {
                faulty(c, |c, l| {
                    if l.code == 0 && c.text.len() > 16_383 {
                        l.code = 23
                    }
                })
            }),
            ("padding not compared", |c| faulty(c, |c, l| open_forged(c, l, 1, 0))),
            ("redundancy not compared", |c| faulty(c, |c, l| open_forged(c, l, 0, 1))),
            ("the last bit not looked at", |c| {
                faulty(c, |c, l| {
                    let other = (l.code == 24).then(|| flipped(&c.text, 8 * c.text.len() - 8));
                    let opened = c.terms().zip(other).map(|(terms, text)| terms.answer(c.way, &text, c.out.len()));
                    if let Some(Ok(bytes)) = opened {
                        accept(l, &bytes);
                    }
                })
            }),
        ];
        for (name, pair) in pairs {
            assert!(groups(pair).is_err(), "{name}");
        }
        assert!(groups(|call| Ok(call.wanted())).is_ok());
    }

    #[test]
    fn every_difference_is_told() {
        let left = call(Way::Open).wanted();
        let changes: [fn(&mut Left); 4] =
            [|l| l.code = 24, |l| l.written[0] ^= 1, |l| l.out[0] ^= 1, |l| l.out[49] ^= 1];
        for change in changes {
            let mut other = left.clone();
            change(&mut other);
            assert!(left.difference(&other).is_some());
        }
        assert_eq!(left.difference(&left), None);
    }

    #[test]
    fn seeds_come_to_every_code() {
        let mut random = Random::new(1, 1);
        let codes: Vec<u8> = (0..3_000).map(|_| any(&mut random).wanted().code).collect();
        for code in [0, 4, 7, 12, 16, 23, 24, 255] {
            assert!(codes.contains(&code), "{code}");
        }
    }
}
