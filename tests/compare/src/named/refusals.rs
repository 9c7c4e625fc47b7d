//! A case for each refusal, 1 to 14 and 16 to 19, and the same for each command that can meet it. Number 8 has its
//! conditions in `images`, 12 its limits in `full`, 13 in `positions`, 14 in `numbers`, 16 in `blank`, 17, 18 and all that
//! refuses a change of key in `waiting`, and 19 and all that refuses a load, a start or a command on a loaded line in
//! `loads`. The program never calls with an empty command, and doesn't come to as many
//! parks as number 15 needs.

use super::published::name;
use super::{altered, full, positions, Case};
use crate::cipher::LAST;
use crate::command::{self, padded, IMAGE, LINE_AT, NUMBER_AT, RECORD, STATE_AT};

pub fn cases() -> Vec<Case> {
    let read = [numbers(), cut_short(), short_images(), images_of_before(), unknown(), lines(), ciphers()];
    let judged = [open_or_idle(), stray(), trays(), data()];
    read.into_iter().chain(judged).flatten().collect()
}

/// An open that is accepted on an idle line, whatever the tray.
pub fn open(line: u8) -> Vec<u8> {
    command::open_own(line, 4, &[1; RECORD], &[2; 16])
}

/// One of each command for a line, operands 0 but for the cipher, which is 4, and the key, whose bytes are 1.
pub fn each(line: u8) -> [Vec<u8>; 9] {
    [
        command::open_tray(line, 4, 0, &[0; 16]),
        command::open_own(line, 4, &[1; RECORD], &[0; 16]),
        command::crypt(line, 0),
        command::park(line),
        command::resume(line, &padded(&[4], IMAGE)),
        command::close(line),
        command::change_key(line, 0, &[0; 16], 0),
        command::load(line, 4, 0),
        command::start(line, &[0; 16]),
    ]
}

/// A case that ends with this number after `before`, which are accepted.
fn refused(number: u8, what: impl AsRef<str>, before: &[Vec<u8>], last: Vec<u8>) -> Case {
    let name = format!("number {number}: {}", what.as_ref());
    Case::new(name, &[before, &[last]].concat(), format!("end {} {number}", before.len()))
}

const ONE: &str = "call code cmd data out\n1 1 0 0 0\nend 0 1\n";
const TWO: &str = "call code cmd data out\n1 2 0 0 0\nend 0 2\n";
const THREE: &str = "call code cmd data out\n1 3 0 0 0\nend 0 3\n";
const FOUR: &str = "call code cmd data out\n1 4 0 0 0\nend 0 4\n";
const FIVE: &str = "call code cmd data out\n1 0 51 0 0\n2 5 0 0 0\nend 1 5\n";
const SIX: &str = "call code cmd data out\n1 6 0 0 0\nend 0 6\n";
const SEVEN: &str = "call code cmd data out\n1 7 0 0 0\nend 0 7\n";
const EIGHT: &str = "call code cmd data out\n1 8 0 0 0\nend 0 8\n";
const NINE: &str = "call code cmd data out\n1 9 0 0 0\nend 0 9\n";
const TEN: &str = "call code cmd data out\n1 10 0 0 0\nend 0 10\n";
const ELEVEN: &str = "call code cmd data out\n1 0 51 0 0\n2 11 0 0 0\nend 1 11\n";
const THIRTEEN: &str = "call code cmd data out\n1 0 51 0 0\n2 0 2 0 166\n3 0 168 0 0\n4 13 0 0 0\nend 3 13\n";
const FOURTEEN: &str = "call code cmd data out\n1 0 51 0 0\n2 0 2 0 166\n3 0 168 0 0\n4 14 0 0 0\nend 3 14\n";
const SIXTEEN: &str = "call code cmd data out\n1 16 0 0 0\nend 0 16\n";
const SEVENTEEN: &str = "call code cmd data out\n1 0 51 0 0\n2 0 27 0 0\n3 17 0 0 0\nend 2 17\n";
const EIGHTEEN: &str = "call code cmd data out\n1 0 51 0 0\n2 0 27 0 0\n3 18 0 0 0\nend 2 18\n";
const NINETEEN: &str = "call code cmd data out\n1 0 4 0 0\n2 0 18 0 0\n3 19 0 0 0\nend 2 19\n";

/// One case for each number, with its table; that of 12 is long.
fn numbers() -> Vec<Case> {
    let key = padded(&[1; 17], RECORD);
    let from_tray = || command::open_tray(0, 1, 0, &[0; 16]);
    let one = || vec![1; RECORD];
    let far = altered::resumed(0, &positions::image(3, (1 << 36) - 1));
    let again = command::resume(7, &altered::written((0, 1)));
    let change = |position: u64| command::change_key(0, 0, &[0; 16], position);
    let start = || command::start(0, &[0; 16]);
    vec![
        Case::new("no command left: no call, and 0", &[], "end 0 0").table("call code cmd data out\nend 0 0\n"),
        refused(1, "a crypt of three bytes", &[], vec![3, 0, 0]).table(ONE),
        refused(2, "a first byte of 0a", &[], vec![10, 0, 0, 0]).table(TWO),
        refused(3, "a close of line 8", &[], vec![6, 8]).table(THREE),
        refused(4, "an open with cipher 7", &[], command::open_own(0, 7, &[1; RECORD], &[0; 16])).table(FOUR),
        refused(5, "an open on an open line", &[open(0)], open(0)).table(FIVE),
        refused(6, "a park of an idle line", &[], vec![4, 0]).table(SIX),
        refused(7, "ZUC with 17 key bytes", &[], command::open_own(0, 1, &key, &[0; 16])).table(SEVEN),
        refused(8, "an image of zeros", &[], command::resume(0, &[0; IMAGE])).table(EIGHT),
        refused(9, "a tray of 31 bytes", &[], from_tray()).tray(vec![1; 31]).table(NINE),
        refused(10, "an empty tray", &[], from_tray()).table(TEN),
        refused(11, "a byte asked for and none there", &[open(0)], vec![3, 0, 0, 1]).table(ELEVEN),
        full::by_parks(),
        refused(13, "two bytes and one left", &far, vec![3, 0, 0, 2]).table(THIRTEEN),
        refused(14, "an image that was taken up", &altered::resumed(0, &altered::written((0, 1))), again)
            .table(FOURTEEN),
        refused(16, "an empty tray record", &[], from_tray()).tray(vec![0; RECORD]).table(SIXTEEN),
        refused(17, "a park while a change waits", &[open(0), change(1)], command::park(0))
            .tray(one())
            .table(SEVENTEEN),
        refused(18, "a change above 2^36", &[open(0), change(0)], change((1 << 36) + 1)).tray(one()).table(EIGHTEEN),
        refused(19, "a second start", &[command::load(0, 4, 0), start()], start()).tray(one()).table(NINETEEN),
    ]
}

/// Each command without its last byte, and its first byte alone.
fn cut_short() -> Vec<Case> {
    let cut = |command: Vec<u8>| {
        let (first, kept) = (command[0], command.len() - 1);
        let short = refused(1, format!("command 0{first} without its last byte"), &[], command[..kept].to_vec());
        let alone = refused(1, format!("command 0{first} of one byte"), &[], vec![first]);
        [short, alone]
    };
    each(0).into_iter().flat_map(cut).collect()
}

/// Images of 94 bytes, which all states but MUGI's would fit in: a resume is cut short with such an image alone, and
/// takes commands behind it for padding.
fn short_images() -> Vec<Case> {
    let short = |cipher: u8| command::resume(0, &positions::image(cipher, 5)[..94]);
    let behind = |cipher: u8| [short(cipher), command::crypt(0, 0).repeat(18)].concat();
    let what = |cipher: u8| format!("{}, a resume with an image of 94 bytes", name(cipher));
    let alone = (1..=LAST).map(|cipher| refused(1, what(cipher), &[], short(cipher)));
    let padded = (1..LAST).map(|cipher| refused(8, what(cipher) + " and frames behind it", &[], behind(cipher)));
    alone.chain(padded).collect()
}

/// Images as they once were, of 165 bytes with no line and of 161 with no number either: a resume is cut short with such
/// an image alone. With commands behind it, it takes the bytes behind the position for the line and the number, and the
/// commands for padding or, of MUGI, for the last bytes of the state.
fn images_of_before() -> Vec<Case> {
    let short = |cipher: u8, state: usize| {
        let image = positions::image(cipher, 5);
        command::resume(0, &[&image[..LINE_AT], &image[state..]].concat())
    };
    let behind = |cipher: u8, state: usize| [short(cipher, state), command::crypt(0, 0).repeat(2)].concat();
    let what = |cipher: u8, state: usize| {
        format!("{}, a resume with an image of {} bytes", name(cipher), IMAGE + LINE_AT - state)
    };
    let of = |cipher: u8| if cipher == 6 { 14 } else { 8 };
    let both = |state: usize| {
        (1..=LAST).flat_map(move |cipher| {
            let alone = refused(1, what(cipher, state), &[], short(cipher, state));
            let more = what(cipher, state) + " and frames behind it";
            [alone, refused(of(cipher), more, &[], behind(cipher, state))]
        })
    };
    [NUMBER_AT, STATE_AT].into_iter().flat_map(both).collect()
}

/// First bytes that are no command, before operands that would do for any.
fn unknown() -> Vec<Case> {
    let of = |first: u8| refused(2, format!("a command {first:02x}"), &[], padded(&[first], 2 + IMAGE));
    [0x00, 0x0A, 0x0B, 0x10, 0x11, 0x80, 0x81, 0x88, 0x89, 0xFF].map(of).into()
}

/// Line 7 is the last; each command for lines 8 and 255 is refused.
fn lines() -> Vec<Case> {
    let of =
        |line: u8| move |command: Vec<u8>| refused(3, format!("command 0{} of line {line}", command[0]), &[], command);
    let commands = [each(7)[1].clone(), each(7)[2].clone(), each(7)[5].clone()];
    let last = Case::new("line 7 is opened, enciphers and is closed", &commands, "end 3 0");
    let over = each(8).into_iter().map(of(8)).chain(each(255).into_iter().map(of(255)));
    over.chain([last]).collect()
}

/// Both opens and a load with unknown cipher numbers.
fn ciphers() -> Vec<Case> {
    let of = |cipher: u8| {
        let own = command::open_own(0, cipher, &[1; RECORD], &[0; 16]);
        let from_tray = command::open_tray(0, cipher, 0, &[0; 16]);
        let tray = refused(4, format!("cipher {cipher} from the tray"), &[], from_tray).tray(vec![1; RECORD]);
        let load = refused(4, format!("a load with cipher {cipher}"), &[], command::load(0, cipher, 0));
        [refused(4, format!("cipher {cipher}"), &[], own), tray, load.tray(vec![1; RECORD])]
    };
    [0, 7, 8, 128, 255].into_iter().flat_map(of).collect()
}

/// The commands that need an idle line on an open one, and the others on an idle one.
fn open_or_idle() -> Vec<Case> {
    let of = |command: Vec<u8>| match command[0] {
        1 | 2 | 5 | 8 => refused(5, format!("command 0{} on an open line", command[0]), &[open(3)], command),
        9 => refused(19, "command 09 on an idle line", &[open(2)], command),
        _ => refused(6, format!("command 0{} on an idle line", command[0]), &[open(2)], command),
    };
    each(3).into_iter().map(|command| of(command).tray(vec![1; RECORD])).collect()
}

/// The first and last byte beyond the key and the IV, for each cipher that leaves any, by both opens.
fn stray() -> Vec<Case> {
    let (mut all, good) = (Vec::new(), padded(&[9; 16], RECORD));
    for cipher in [1, 2, 3, 5, 6] {
        for place in [16, 31] {
            let mut key = good.clone();
            key[place] = 1;
            all.extend(stray_pair(cipher, format!("key byte {place}"), &key, &[0; 16]));
        }
    }
    for place in [8, 15] {
        let mut iv = [0; 16];
        iv[place] = 1;
        all.extend(stray_pair(2, format!("IV byte {place}"), &good, &iv));
    }
    all.push(Case::new("32 key bytes and 16 IV bytes are cipher 4's", &[open(0)], "end 1 0"));
    all
}

fn stray_pair(cipher: u8, what: String, key: &[u8], iv: &[u8]) -> [Case; 2] {
    let own = refused(7, format!("{}, {what}", name(cipher)), &[], command::open_own(0, cipher, key, iv));
    let from_tray = command::open_tray(0, cipher, 1, iv);
    let tray = refused(7, format!("{}, {what}, from the tray", name(cipher)), &[], from_tray);
    [own, tray.tray([&[0; RECORD], key].concat())]
}

/// Trays of lengths that are refused, and key numbers that aren't in them.
fn trays() -> Vec<Case> {
    let open = |number: u8| command::open_tray(0, 4, number, &[0; 16]);
    let bad = |length: usize| refused(9, format!("a tray of {length}"), &[], open(0)).tray(vec![1; length]);
    let none = |(records, number): (usize, u8)| {
        let what = format!("key {number} of a tray of {records} keys");
        refused(10, what, &[], open(number)).tray(vec![1; records * RECORD])
    };
    let lengths = [1, 33, 63, 8_191, 8_193, 8_224, 16_384, 16_416];
    lengths.into_iter().map(bad).chain([(0, 255), (1, 1), (2, 2), (255, 255)].map(none)).collect()
}

/// Counts above what is left of the data, at the start and after a crypt.
fn data() -> Vec<Case> {
    let short = |(length, count): (usize, u16)| {
        let what = format!("{count} bytes asked for and {length} there");
        refused(11, what, &[open(0)], command::crypt(0, count)).data(vec![0; length])
    };
    let after = refused(11, "4 bytes left of 9", &[open(0), command::crypt(0, 5)], command::crypt(0, 5));
    [(15, 16), (255, 256), (16_384, 65_535)].map(short).into_iter().chain([after.data(vec![0; 9])]).collect()
}
